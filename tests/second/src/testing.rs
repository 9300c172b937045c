//! The test at fractions: 2 to 9 as reading gives them, then 13, then 14, then the truth of the sheet
//! at eight whole numbers over one common denominator, which stand in this order.

use crate::limits::{LOOK_BYTES, LOOK_LEVELS, TEST_DENOMINATOR, TEST_VALUE};
use crate::reading::formula_of;
use crate::sheet::{Comparison, Formula, List, VARIABLES};

/// Number, verdict and place.
pub fn test(sheet: &[u8], numbers: [i64; 9]) -> (u32, u32, usize) {
    let formula = match formula_of(sheet, LOOK_BYTES, LOOK_LEVELS) {
        Ok(formula) => formula,
        Err(refusal) => return (refusal.number, 3, refusal.place),
    };
    if let Some(place) = first_quantifier(&formula, 0) {
        return (13, 3, place);
    }
    let values = numbers.map(i128::from);
    let denominator = values[VARIABLES];
    let in_limits = values[..VARIABLES].iter().all(|p| (-TEST_VALUE..=TEST_VALUE).contains(p))
        && (1..=TEST_DENOMINATOR).contains(&denominator);
    if !in_limits {
        return (14, 3, 0);
    }
    (0, u32::from(holds(&formula, &values[..VARIABLES], denominator)), 0)
}

fn first_quantifier(formula: &Formula, place: usize) -> Option<usize> {
    match formula {
        Formula::Atom(..) | Formula::Window { .. } => None,
        Formula::Not(inner) => first_quantifier(inner, place + 4),
        Formula::List(_, members) => {
            let mut at = place + 6;
            for member in members {
                if let Some(found) = first_quantifier(member, at) {
                    return Some(found);
                }
                at += member.length();
            }
            None
        }
        Formula::Quantified(..) => Some(place),
    }
}

/// Whether the formula holds where variable v is p[v] / q; both sides are multiplied by q, which is above 0.
fn holds(formula: &Formula, p: &[i128], q: i128) -> bool {
    match formula {
        Formula::Atom(comparison, sum) => {
            let mut total = sum.constant * q;
            for (coefficient, value) in sum.coefficients.iter().zip(p) {
                total += coefficient * value;
            }
            match comparison {
                Comparison::Less => total < 0,
                Comparison::AtMost => total <= 0,
                Comparison::Equal => total == 0,
            }
        }
        Formula::Not(inner) => !holds(inner, p, q),
        Formula::List(List::AllOf, members) => members.iter().all(|member| holds(member, p, q)),
        Formula::List(List::AnyOf, members) => members.iter().any(|member| holds(member, p, q)),
        Formula::Window { variable, lo, hi } => lo * q <= p[*variable] && p[*variable] <= hi * q,
        Formula::Quantified(..) => unreachable!("refused with 13"),
    }
}
