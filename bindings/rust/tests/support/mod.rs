//! What the tests have in common: random numbers, programs and calls.
// each test uses a part of it
#![allow(dead_code)]

pub mod atoms;
pub mod calls;
pub mod damage;
pub mod encoding;
pub mod loops;
#[macro_use]
pub mod needs_archive;
pub mod programs;
pub mod random;
pub mod scopes;
pub mod turns;
