//! "Lists": in ALLOF true members go and one false makes the whole false; in ANYOF the reverse.
//! A list left with one member becomes that member. Nothing else is merged or reordered.

use crate::sheet::{Formula, List};

/// The truth that a list drops among its members: true in ALLOF, false in ANYOF.
pub fn dropped(list: List) -> bool {
    list == List::AllOf
}

/// The list rule, for members that already went through it.
pub fn list_rule(list: List, mut members: Vec<Formula>) -> Formula {
    let decides = !dropped(list);
    if members.iter().any(|member| member.is_truth(decides)) {
        return Formula::truth(decides);
    }
    members.retain(|member| !member.is_truth(dropped(list)));
    if members.len() == 1 {
        members.remove(0)
    } else {
        Formula::List(list, members)
    }
}
