//! "Copies": at each point the pushed body is copied, atom by atom, and its lists put under the list rule.
//! Every new atom with a variable is judged for its size, also where its list falls away afterwards.

use crate::limits::in_range;
use crate::lists::list_rule;
use crate::points::Point;
use crate::sheet::{Comparison, Formula, Sum, VARIABLES};
use crate::terms::{common_divisor, divided};

/// An atom at a point comes out true, false or as one new atom.
#[derive(Clone, Debug, PartialEq, Eq)]
pub enum Outcome {
    True,
    False,
    Atom(Comparison, Sum),
}

/// A reduced number outside -M..M.
#[derive(Debug)]
pub struct OutsideRange;

pub fn copy(body: &Formula, x: usize, point: &Point) -> Result<Formula, OutsideRange> {
    match body {
        Formula::Atom(comparison, sum) => match atom_at(*comparison, sum, x, point) {
            Outcome::True => Ok(Formula::truth(true)),
            Outcome::False => Ok(Formula::truth(false)),
            Outcome::Atom(comparison, sum) => {
                if sum.numbers().into_iter().all(in_range) {
                    Ok(Formula::Atom(comparison, sum))
                } else {
                    Err(OutsideRange)
                }
            }
        },
        Formula::List(list, members) => {
            let mut copies = Vec::new();
            for member in members {
                copies.push(copy(member, x, point)?);
            }
            Ok(list_rule(*list, copies))
        }
        _ => unreachable!("a pushed body has atoms and lists only"),
    }
}

fn atom_at(comparison: Comparison, sum: &Sum, x: usize, point: &Point) -> Outcome {
    let a = sum.coefficients[x];
    if a == 0 {
        return settled(comparison, sum);
    }
    match point {
        Point::MinusInfinity => decided(comparison != Comparison::Equal && a > 0),
        Point::PlusInfinity => decided(comparison != Comparison::Equal && a < 0),
        Point::At(term) => {
            // a n + d t
            let (n, d) = (&term.numerator, term.denominator);
            let mut coefficients = [0; VARIABLES];
            for (v, coefficient) in coefficients.iter_mut().enumerate() {
                let t = if v == x { 0 } else { sum.coefficients[v] };
                *coefficient = a * n.coefficients[v] + d * t;
            }
            let constant = a * n.constant + d * sum.constant;
            settled(comparison, &Sum { coefficients, constant })
        }
    }
}

/// With no variable left the atom is true or false; otherwise the nine numbers are divided.
pub fn settled(comparison: Comparison, sum: &Sum) -> Outcome {
    if !sum.has_variable() {
        return decided(match comparison {
            Comparison::Less => sum.constant < 0,
            Comparison::AtMost => sum.constant <= 0,
            Comparison::Equal => sum.constant == 0,
        });
    }
    Outcome::Atom(comparison, divided(sum, common_divisor(&sum.numbers())))
}

fn decided(value: bool) -> Outcome {
    if value {
        Outcome::True
    } else {
        Outcome::False
    }
}
