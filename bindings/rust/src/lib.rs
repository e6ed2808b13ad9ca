//! Threadmolar from Rust: safe calls of the archive that `bin/staticlib` makes.
//!
//! Every call takes anything that it is lent. A refused call changes nothing.
//!
//! ```no_run
//! // PARTIES 1, INT 7
//! let program = [0, 1, 2, 7, 0, 0, 0];
//! let (mut records, mut lengths, mut work) = ([0; 64], [0; 1], [0; threadmolar::WORKING_AREA]);
//! let answer = threadmolar::single(&program, &[0], &[], 100, &mut records, &mut lengths, &mut work);
//! assert_eq!(answer, threadmolar::Single::Ended { steps: 1 });
//! for event in threadmolar::walk(&records[..lengths[0]]) {
//!     println!("{event:?}");
//! }
//! ```
//!
//! The archive is for x86-64 Linux. Without it this crate compiles, [`LINKED`] is false, and each call panics and says what is missing.

mod raw;
mod records;
mod refusals;
mod runs;

pub use records::{continuation, order, step, walk, Event, NotAnEvent, Order, Step, Walk};
pub use refusals::Refusal;
pub use runs::{check, joint, single, Check, Joint, Single, WORKING_AREA};

/// Whether the archive was there when this crate was built.
pub const LINKED: bool = cfg!(threadmolar_archive);
