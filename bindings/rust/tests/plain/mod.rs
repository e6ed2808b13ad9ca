//! A plain machine of document 01: an independent implementation from its words alone, to compare Threadmolar with.
//! It shares nothing with the proved code. Its state is kept in structs with fixed arrays; nothing is allocated per step.
//! A frame holds a copy of the sixteen bindings: LET copies them into it, handing back copies them out.
//! What is lent is as in the calls of the crate; of the working area it only tests the length, and clears it.
// each test, and the bench, uses a part of it
#![allow(dead_code, unused_imports)]

mod books;
mod calls;
mod control;
mod joint;
mod meetings;
mod program;
mod records;
mod single;
mod values;

pub use calls::{Refused, HELD_BACK, MAX_TURNS, WORKING_AREA};
pub use joint::{joint, JointAnswer};
pub use program::{check, Node, Program, MAX_NODES};
pub use records::{continuation, order, step, Event, Order, Step};
pub use single::{single, SingleAnswer};
pub use values::{everyone, Members, Set, MAX_NAMES, MAX_PARTIES};
