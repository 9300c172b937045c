//! "Boundary terms": from each atom ax + t with a not 0 the term x = -t/a, reduced, in order of first appearance.
//! The body is the pushed one; there a WINDOW on x stands as lo - x and x - hi, which give lo and then hi.

use crate::sheet::{Formula, Sum, VARIABLES};

/// Eight coefficients and a constant over a denominator above 0, the ten without a common divisor.
#[derive(Clone, Debug, PartialEq, Eq)]
pub struct Term {
    pub numerator: Sum,
    pub denominator: i128,
}

impl Term {
    /// All ten numbers divided by their greatest common divisor.
    pub fn reduced(numerator: Sum, denominator: i128) -> Term {
        assert!(denominator > 0);
        let mut numbers = numerator.numbers();
        numbers.push(denominator);
        let divisor = common_divisor(&numbers);
        Term { numerator: divided(&numerator, divisor), denominator: denominator / divisor }
    }

    /// The boundary term of an atom ax + t with a not 0.
    fn of_atom(sum: &Sum, x: usize) -> Term {
        let a = sum.coefficients[x];
        let mut t = sum.clone();
        t.coefficients[x] = 0;
        if a > 0 {
            Term::reduced(t.negated(), a)
        } else {
            Term::reduced(t, -a)
        }
    }
}

/// The different boundary terms of x in a pushed body, however many.
pub fn boundary_terms(body: &Formula, x: usize) -> Vec<Term> {
    let mut terms = Vec::new();
    gather(body, x, &mut terms);
    terms
}

fn gather(body: &Formula, x: usize, terms: &mut Vec<Term>) {
    match body {
        Formula::Atom(_, sum) => {
            if sum.coefficients[x] != 0 {
                let term = Term::of_atom(sum, x);
                if !terms.contains(&term) {
                    terms.push(term);
                }
            }
        }
        Formula::List(_, members) => members.iter().for_each(|member| gather(member, x, terms)),
        _ => unreachable!("a pushed body has atoms and lists only"),
    }
}

pub fn divided(sum: &Sum, divisor: i128) -> Sum {
    let mut coefficients = [0; VARIABLES];
    for (quotient, number) in coefficients.iter_mut().zip(sum.coefficients) {
        *quotient = number / divisor;
    }
    Sum { coefficients, constant: sum.constant / divisor }
}

/// The greatest common divisor of numbers that are not all 0.
pub fn common_divisor(numbers: &[i128]) -> i128 {
    let mut divisor: u128 = 0;
    for number in numbers {
        let (mut a, mut b) = (divisor, number.unsigned_abs());
        while b != 0 {
            (a, b) = (b, a % b);
        }
        divisor = a;
        if divisor == 1 {
            break;
        }
    }
    assert!(divisor > 0);
    divisor as i128
}
