use crate::raw;
use crate::Refusal;

/// The working area of the single run, and of each party in the joint run, in bytes.
pub const WORKING_AREA: usize = 16_384;

/// The answer of [`check`].
#[derive(Clone, Copy, PartialEq, Eq, Debug)]
pub enum Check {
    Good { parties: u8, nodes: usize },
    Refused { refusal: Refusal, place: usize },
}

/// The answer of the single run.
#[derive(Clone, Copy, PartialEq, Eq, Debug)]
pub enum Single {
    Ended {
        steps: u32,
    },
    /// The steps allowed are taken without an end.
    Budget {
        steps: u32,
    },
    /// The run stopped at a node, after so many steps.
    Stopped {
        refusal: Refusal,
        node: u16,
        steps: u32,
    },
    /// Nothing that was lent is changed.
    Refused {
        refusal: Refusal,
        place: usize,
    },
}

/// The answer of the joint run. `turns` are those at which a site stepped or stopped.
#[derive(Clone, Copy, PartialEq, Eq, Debug)]
pub enum Joint {
    /// All sites have finished.
    Complete {
        turns: u32,
    },
    Open {
        turns: u32,
    },
    /// Nothing that was lent is changed.
    Refused {
        refusal: Refusal,
        place: usize,
    },
}

/// The check of a program's bytes.
pub fn check(program: &[u8]) -> Check {
    let (mut parties, mut nodes) = (0, 0);
    // SAFETY: each pointer comes from a reference that lasts for the call, with the length of its slice.
    let code = unsafe { raw::threadmolar_check(program.as_ptr(), program.len(), &mut parties, &mut nodes) };
    match raw::taken_apart(code) {
        (raw::GOOD, 0) => Check::Good { parties, nodes },
        (1, place) => Check::Refused { refusal: Refusal::BadProgram, place },
        _ => raw::unlisted(code),
    }
}

/// The single run, of at most `budget` steps.
///
/// `counts` says how many of the `inputs` are each party's, party 0's first. Each party's record lies in `records` at its number times the room,
/// which is the length of `records` divided by the number of parties; `lengths` gets the records' lengths. `work` is [`WORKING_AREA`] bytes or more, and zero after a call that is not refused.
pub fn single(
    program: &[u8],
    counts: &[usize],
    inputs: &[i32],
    budget: u32,
    records: &mut [u8],
    lengths: &mut [usize],
    work: &mut [u8],
) -> Single {
    let mut steps = 0;
    // SAFETY: each pointer comes from a reference that lasts for the call, with the length of its slice; those that are written are distinct.
    let code = unsafe {
        raw::threadmolar_single(
            program.as_ptr(),
            program.len(),
            counts.as_ptr(),
            counts.len(),
            inputs.as_ptr(),
            inputs.len(),
            budget,
            records.as_mut_ptr(),
            records.len(),
            lengths.as_mut_ptr(),
            lengths.len(),
            work.as_mut_ptr(),
            work.len(),
            &mut steps,
        )
    };
    match raw::taken_apart(code) {
        (raw::ENDED, 0) => Single::Ended { steps },
        (raw::BUDGET, 0) => Single::Budget { steps },
        (number, place) => match Refusal::from_number(number) {
            Some(refusal) if number <= 4 => Single::Refused { refusal, place },
            Some(refusal) if number <= 10 => Single::Stopped { refusal, node: place as u16, steps },
            _ => raw::unlisted(code),
        },
    }
}

/// The joint run over a turn list, each byte of which is a party.
///
/// What is lent is as in [`single`], but `work` is [`WORKING_AREA`] bytes for each party.
pub fn joint(
    program: &[u8],
    counts: &[usize],
    inputs: &[i32],
    turns: &[u8],
    records: &mut [u8],
    lengths: &mut [usize],
    work: &mut [u8],
) -> Joint {
    let mut taken = 0;
    // SAFETY: each pointer comes from a reference that lasts for the call, with the length of its slice; those that are written are distinct.
    let code = unsafe {
        raw::threadmolar_joint(
            program.as_ptr(),
            program.len(),
            counts.as_ptr(),
            counts.len(),
            inputs.as_ptr(),
            inputs.len(),
            turns.as_ptr(),
            turns.len(),
            records.as_mut_ptr(),
            records.len(),
            lengths.as_mut_ptr(),
            lengths.len(),
            work.as_mut_ptr(),
            work.len(),
            &mut taken,
        )
    };
    match raw::taken_apart(code) {
        (raw::COMPLETE, 0) => Joint::Complete { turns: taken },
        (raw::OPEN, 0) => Joint::Open { turns: taken },
        (number, place) => match Refusal::from_number(number) {
            Some(refusal) if number <= 4 => Joint::Refused { refusal, place },
            _ => raw::unlisted(code),
        },
    }
}
