//! The second program: document 01 once more, with the requests of 02 that landed, over trees and wide integers, to
//! compare the proved one with. It is written from the text of 01 and 02 alone and shares no line with the other; where
//! the two differ, 01 and 02 decide. The modules stand in the order of 01's headings, then of 02's requests.

pub mod limits;
pub mod sheet;

pub mod reading;

pub mod pushing;
pub mod terms;
pub mod points;
pub mod copies;
pub mod lists;
pub mod step;
pub mod finishing;

pub mod eliminating;
pub mod looking;
pub mod testing;

pub mod boxes;

pub use boxes::monday;
pub use eliminating::{counted, eliminate};
pub use looking::look;
pub use reading::read;
pub use testing::test;
