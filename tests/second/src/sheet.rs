//! "A sheet on disk": the formula as a tree, and the bytes that say it.
//! Writing is here because lengths and places are counted in these bytes.

pub const VARIABLES: usize = 8;

#[derive(Clone, Copy, Debug, PartialEq, Eq)]
pub enum Comparison {
    Less,
    AtMost,
    Equal,
}

#[derive(Clone, Copy, Debug, PartialEq, Eq)]
pub enum List {
    AllOf,
    AnyOf,
}

#[derive(Clone, Copy, Debug, PartialEq, Eq)]
pub enum Quantifier {
    Some,
    Every,
}

/// Eight coefficients and a constant.
#[derive(Clone, Debug, PartialEq, Eq)]
pub struct Sum {
    pub coefficients: [i128; VARIABLES],
    pub constant: i128,
}

#[derive(Clone, Debug, PartialEq, Eq)]
pub enum Formula {
    Atom(Comparison, Sum),
    Not(Box<Formula>),
    List(List, Vec<Formula>),
    Quantified(Quantifier, usize, Box<Formula>),
    Window { variable: usize, lo: i128, hi: i128 },
}

impl Sum {
    pub fn negated(&self) -> Sum {
        Sum { coefficients: self.coefficients.map(|c| -c), constant: -self.constant }
    }

    /// The sum `factor * variable + constant`.
    pub fn of_variable(factor: i128, variable: usize, constant: i128) -> Sum {
        let mut coefficients = [0; VARIABLES];
        coefficients[variable] = factor;
        Sum { coefficients, constant }
    }

    pub fn has_variable(&self) -> bool {
        self.coefficients.iter().any(|&c| c != 0)
    }

    /// The nine numbers in the order in which they stand on disk.
    pub fn numbers(&self) -> Vec<i128> {
        let mut all = self.coefficients.to_vec();
        all.push(self.constant);
        all
    }
}

impl Formula {
    /// ALLOF of 0 is true, ANYOF of 0 is false.
    pub fn truth(value: bool) -> Formula {
        Formula::List(if value { List::AllOf } else { List::AnyOf }, Vec::new())
    }

    pub fn is_truth(&self, value: bool) -> bool {
        *self == Formula::truth(value)
    }

    /// How many bytes the formula takes on disk.
    pub fn length(&self) -> usize {
        match self {
            Formula::Atom(..) => 40,
            Formula::Not(inner) => 4 + inner.length(),
            Formula::List(_, members) => 6 + members.iter().map(Formula::length).sum::<usize>(),
            Formula::Quantified(_, _, body) => 6 + body.length(),
            Formula::Window { .. } => 14,
        }
    }

    pub fn bytes(&self) -> Vec<u8> {
        let mut out = Vec::new();
        self.write(&mut out);
        out
    }

    fn write(&self, out: &mut Vec<u8>) {
        match self {
            Formula::Atom(comparison, sum) => {
                let kind = match comparison {
                    Comparison::Less => 1,
                    Comparison::AtMost => 2,
                    Comparison::Equal => 3,
                };
                head(out, 40, kind);
                for number in sum.numbers() {
                    four(out, number);
                }
            }
            Formula::Not(inner) => {
                head(out, 4, 4);
                inner.write(out);
            }
            Formula::List(list, members) => {
                head(out, 6, if *list == List::AllOf { 5 } else { 6 });
                two(out, members.len());
                for member in members {
                    member.write(out);
                }
            }
            Formula::Quantified(quantifier, variable, body) => {
                head(out, 6, if *quantifier == Quantifier::Some { 7 } else { 8 });
                two(out, *variable);
                body.write(out);
            }
            Formula::Window { variable, lo, hi } => {
                head(out, 14, 9);
                two(out, *variable);
                four(out, *lo);
                four(out, *hi);
            }
        }
    }
}

fn head(out: &mut Vec<u8>, length: usize, kind: usize) {
    two(out, length);
    two(out, kind);
}

fn two(out: &mut Vec<u8>, number: usize) {
    let number = u16::try_from(number).expect("a field of two bytes");
    out.extend(number.to_le_bytes());
}

fn four(out: &mut Vec<u8>, number: i128) {
    let number = i32::try_from(number).expect("a field of four bytes");
    out.extend(number.to_le_bytes());
}
