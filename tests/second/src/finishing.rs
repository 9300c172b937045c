//! "Finishing pass": with no quantifier left NOT is pushed inward, each atom decided or divided, and the list
//! rule applied, over the whole formula.

use crate::copies::{settled, Outcome};
use crate::lists::list_rule;
use crate::pushing::pushed;
use crate::sheet::Formula;

pub fn finished(formula: &Formula) -> Formula {
    settle_all(&pushed(formula, false))
}

fn settle_all(formula: &Formula) -> Formula {
    match formula {
        Formula::Atom(comparison, sum) => match settled(*comparison, sum) {
            Outcome::True => Formula::truth(true),
            Outcome::False => Formula::truth(false),
            Outcome::Atom(comparison, sum) => Formula::Atom(comparison, sum),
        },
        Formula::List(list, members) => list_rule(*list, members.iter().map(settle_all).collect()),
        _ => unreachable!("a pushed formula has atoms and lists only"),
    }
}
