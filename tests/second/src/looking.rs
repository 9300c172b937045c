//! The look of "A sheet on disk": the body of the last quantifier as a part of the caller's bytes.

use crate::limits::{LOOK_BYTES, LOOK_LEVELS};
use crate::reading::formula_of;
use crate::sheet::Formula;

/// Offset and length of the body; (0, 0) when there is no quantifier or the sheet is refused.
pub fn look(sheet: &[u8]) -> (usize, usize) {
    match formula_of(sheet, LOOK_BYTES, LOOK_LEVELS) {
        Ok(formula) => last_body(&formula, 0).unwrap_or((0, 0)),
        Err(_) => (0, 0),
    }
}

/// The body of the last quantifier in a formula that starts at `place`.
fn last_body(formula: &Formula, place: usize) -> Option<(usize, usize)> {
    match formula {
        Formula::Atom(..) | Formula::Window { .. } => None,
        Formula::Not(inner) => last_body(inner, place + 4),
        Formula::List(_, members) => {
            let mut last = None;
            let mut at = place + 6;
            for member in members {
                last = last_body(member, at).or(last);
                at += member.length();
            }
            last
        }
        Formula::Quantified(_, _, body) => Some(last_body(body, place + 6).unwrap_or((place + 6, body.length()))),
    }
}
