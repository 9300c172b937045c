//! "One step": the last quantifier in reading order is replaced, body and all; all other bytes stay.
//! In each step 10 is judged first, then 11, then 12, all at the quantifier.

use crate::copies::copy;
use crate::limits::{RESULT_BYTES, TERMS};
use crate::lists::{dropped, list_rule};
use crate::points::{point_in_range, points};
use crate::pushing::pushed;
use crate::reading::Refusal;
use crate::sheet::{Formula, List, Quantifier};
use crate::terms::{boundary_terms, Term};

/// What came of a step. `terms` is how many boundary terms it had.
pub enum Step {
    /// No quantifier was left.
    Nothing,
    Finished {
        terms: usize,
    },
    /// A step refused with 10 shows no terms; one refused with 11 or 12 got past 10 and shows them.
    Refused {
        refusal: Refusal,
        terms: usize,
    },
}

/// Does one step.
pub fn step(formula: &mut Formula) -> Step {
    let whole = formula.length();
    let Some((quantified, place)) = last_quantifier(formula, 0) else {
        return Step::Nothing;
    };
    let refused = |number, terms| Step::Refused { refusal: Refusal { number, place }, terms };
    let Formula::Quantified(quantifier, x, body) = &*quantified else { unreachable!() };
    let outside = whole - quantified.length();
    let body = pushed(body, false);
    let terms = boundary_terms(&body, *x);
    if terms.len() > TERMS {
        return refused(10, 0);
    }
    match replacement(*quantifier, *x, &body, &terms) {
        Err(number) => refused(number, terms.len()),
        Ok(replaced) if outside + replaced.length() > RESULT_BYTES => refused(12, terms.len()),
        Ok(replaced) => {
            *quantified = replaced;
            Step::Finished { terms: terms.len() }
        }
    }
}

/// The last quantifier in reading order and its offset, given the offset of the formula.
fn last_quantifier(formula: &mut Formula, place: usize) -> Option<(&mut Formula, usize)> {
    if !has_quantifier(formula) {
        return None;
    }
    if let Formula::Quantified(_, _, body) = formula {
        if !has_quantifier(body) {
            return Some((formula, place));
        }
    }
    match formula {
        Formula::Not(inner) => last_quantifier(inner, place + 4),
        Formula::Quantified(_, _, body) => last_quantifier(body, place + 6),
        Formula::List(_, members) => {
            let last = members.iter().rposition(has_quantifier)?;
            let before: usize = members[..last].iter().map(Formula::length).sum();
            last_quantifier(&mut members[last], place + 6 + before)
        }
        Formula::Atom(..) | Formula::Window { .. } => None,
    }
}

fn has_quantifier(formula: &Formula) -> bool {
    match formula {
        Formula::Atom(..) | Formula::Window { .. } => false,
        Formula::Not(inner) => has_quantifier(inner),
        Formula::List(_, members) => members.iter().any(has_quantifier),
        Formula::Quantified(..) => true,
    }
}

/// SOME becomes the ANYOF of the copies, EVERY the ALLOF, in point order, under the list rule; the body is pushed.
fn replacement(quantifier: Quantifier, x: usize, body: &Formula, terms: &[Term]) -> Result<Formula, u32> {
    let list = match quantifier {
        Quantifier::Some => List::AnyOf,
        Quantifier::Every => List::AllOf,
    };
    let points = points(terms);
    if !points.iter().all(point_in_range) {
        return Err(11);
    }
    let mut copies = Copies { list, kept: Vec::new(), length: 0, decided: false };
    for point in &points {
        copies.take(copy(body, x, point).map_err(|_| 11_u32)?);
    }
    copies.finish()
}

/// The copies so far. Those that can only lead to 12 are counted and not kept, so that memory stays small.
struct Copies {
    list: List,
    kept: Vec<Formula>,
    length: usize,
    decided: bool,
}

impl Copies {
    fn take(&mut self, member: Formula) {
        if member.is_truth(!dropped(self.list)) {
            self.decided = true;
        } else if !member.is_truth(dropped(self.list)) {
            self.length += member.length();
            if self.length <= RESULT_BYTES {
                self.kept.push(member);
            }
        }
    }

    fn finish(self) -> Result<Formula, u32> {
        if self.decided {
            return Ok(Formula::truth(!dropped(self.list)));
        }
        if self.length > RESULT_BYTES {
            return Err(12);
        }
        Ok(list_rule(self.list, self.kept))
    }
}
