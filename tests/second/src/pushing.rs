//! "Pushing NOT inward": afterwards a formula without quantifiers consists of atoms and lists only.

use crate::sheet::{Comparison, Formula, List, Sum};

/// The formula, or under `negated` its negation, with every NOT pushed inward and every WINDOW opened.
pub fn pushed(formula: &Formula, negated: bool) -> Formula {
    use Comparison::{AtMost, Equal, Less};
    match formula {
        Formula::Atom(comparison, sum) => match (negated, comparison) {
            (false, _) => Formula::Atom(*comparison, sum.clone()),
            (true, Less) => Formula::Atom(AtMost, sum.negated()),
            (true, AtMost) => Formula::Atom(Less, sum.negated()),
            (true, Equal) => any_of(Formula::Atom(Less, sum.clone()), Formula::Atom(Less, sum.negated())),
        },
        Formula::Not(inner) => pushed(inner, !negated),
        Formula::List(list, members) => {
            let list = match (negated, list) {
                (false, _) => *list,
                (true, List::AllOf) => List::AnyOf,
                (true, List::AnyOf) => List::AllOf,
            };
            Formula::List(list, members.iter().map(|member| pushed(member, negated)).collect())
        }
        Formula::Window { variable: v, lo, hi } => {
            if negated {
                // v - lo < 0, hi - v < 0
                any_of(
                    Formula::Atom(Less, Sum::of_variable(1, *v, -lo)),
                    Formula::Atom(Less, Sum::of_variable(-1, *v, *hi)),
                )
            } else {
                // lo - v <= 0, v - hi <= 0
                Formula::List(
                    List::AllOf,
                    vec![
                        Formula::Atom(AtMost, Sum::of_variable(-1, *v, *lo)),
                        Formula::Atom(AtMost, Sum::of_variable(1, *v, -hi)),
                    ],
                )
            }
        }
        Formula::Quantified(..) => unreachable!("a step's body has no quantifier"),
    }
}

fn any_of(first: Formula, second: Formula) -> Formula {
    Formula::List(List::AnyOf, vec![first, second])
}
