//! The functions of the archive, as include/threadmolar.h declares them. A slice is a pointer and a length in elements.

/// Declares the functions; without the archive, in their place, functions that say that it is missing.
macro_rules! declared {
    ($(fn $name:ident($($place:ident: $type:ty),* $(,)?);)*) => {
        #[cfg(threadmolar_archive)]
        extern "C" {
            $(pub fn $name($($place: $type),*) -> u32;)*
        }
        $(
            #[cfg(not(threadmolar_archive))]
            pub unsafe fn $name($(_: $type),*) -> u32 {
                panic!("threadmolar was built without its archive: `bin/staticlib` makes it, for x86-64 Linux")
            }
        )*
    };
}

declared! {
    fn threadmolar_check(
        program: *const u8, program_length: usize,
        parties: *mut u8, nodes: *mut usize,
    );
    fn threadmolar_single(
        program: *const u8, program_length: usize,
        counts: *const usize, counts_length: usize,
        inputs: *const i32, inputs_length: usize,
        budget: u32,
        records: *mut u8, records_length: usize,
        lengths: *mut usize, lengths_length: usize,
        work: *mut u8, work_length: usize,
        steps: *mut u32,
    );
    fn threadmolar_joint(
        program: *const u8, program_length: usize,
        counts: *const usize, counts_length: usize,
        inputs: *const i32, inputs_length: usize,
        turns: *const u8, turns_length: usize,
        records: *mut u8, records_length: usize,
        lengths: *mut usize, lengths_length: usize,
        work: *mut u8, work_length: usize,
        taken: *mut u32,
    );
    fn threadmolar_walk(
        record: *const u8, record_length: usize,
        at: usize,
        next: *mut usize, kind: *mut u8, detail: *mut u8, integer: *mut i32,
        set: *mut u16, holders: *mut u16, node: *mut u16,
    );
    fn threadmolar_order(
        first: *const u8, first_length: usize,
        second: *const u8, second_length: usize,
    );
    fn threadmolar_continuation(
        first: *const u8, first_length: usize,
        second: *const u8, second_length: usize,
        start: *mut usize, length: *mut usize,
    );
}

pub const GOOD: u8 = 64;
pub const ENDED: u8 = 65;
pub const BUDGET: u8 = 66;
pub const COMPLETE: u8 = 67;
pub const OPEN: u8 = 68;
pub const EVENT: u8 = 69;
pub const END: u8 = 70;
pub const FIRST_LONGER: u8 = 71;
pub const SECOND_LONGER: u8 = 72;
pub const EQUAL: u8 = 73;
pub const NEITHER: u8 = 74;
/// The refusal of a walk, whose place is where it was asked to look.
pub const NOT_AN_EVENT: u8 = 12;

/// The answer, and the place or the node that comes with it.
pub fn taken_apart(code: u32) -> (u8, usize) {
    (code as u8, (code >> 8) as usize)
}

/// An answer that the header does not list: the archive is not the one that this crate was written for.
pub fn unlisted(code: u32) -> ! {
    panic!("threadmolar answered {code}, which is not among its answers")
}

#[cfg(test)]
mod tests;
