//! What both runs ask of a call before they start.
use super::program::{check, Program};

pub const MAX_TURNS: usize = 65_535;
/// Working bytes: per party in the joint run, in all in the single run.
pub const WORKING_AREA: usize = 16_384;
/// Bytes of every record area that events of kinds 1 to 5 must leave free.
pub const HELD_BACK: usize = 10;

/// Refusals 1 to 4.
#[derive(Clone, Copy, PartialEq, Eq, Debug)]
pub struct Refused {
    pub number: u8,
    pub place: usize,
}

/// How much was lent.
pub struct Lent {
    pub records: usize,
    pub lengths: usize,
    pub work: usize,
}

/// Whether the counts sum to `inputs`. Counts near the largest number must not wrap around.
fn sum_to(counts: &[usize], inputs: usize) -> bool {
    counts.iter().map(|&count| count as u128).sum::<u128>() == inputs as u128
}

/// Refusals 1 to 4, in that order; else the program and the room R.
pub fn admit(
    program: &[u8],
    counts: &[usize],
    inputs: &[i32],
    turns: Option<&[u8]>,
    lent: Lent,
) -> Result<(Program, usize), Refused> {
    let program = check(program).map_err(|place| Refused { number: 1, place })?;
    let n = program.n;
    if counts.len() != n || !sum_to(counts, inputs.len()) {
        return Err(Refused { number: 2, place: 0 });
    }
    if let Some(turns) = turns {
        let bad = turns.iter().take(MAX_TURNS).position(|&turn| turn as usize >= n);
        if let Some(place) = bad.or((turns.len() > MAX_TURNS).then_some(MAX_TURNS)) {
            return Err(Refused { number: 3, place });
        }
    }
    let room = lent.records / n;
    let need = if turns.is_some() { WORKING_AREA * n } else { WORKING_AREA };
    if room < HELD_BACK || lent.lengths < n || lent.work < need {
        return Err(Refused { number: 4, place: 0 });
    }
    Ok((program, room))
}
