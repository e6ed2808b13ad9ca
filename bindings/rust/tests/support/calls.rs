//! Random calls: a program, what it is given, and what is lent, mostly enough.
use super::damage::{damage, near_the_limit, spoil, stray_call};
use super::encoding::encode;
use super::programs;
use super::random::Random;
use super::turns::{long_list, turn_list};
use crate::plain;

#[derive(Clone, Debug)]
pub struct Call {
    pub program: Vec<u8>,
    pub counts: Vec<usize>,
    pub inputs: Vec<i32>,
    pub budget: u32,
    pub turns: Vec<u8>,
}

/// What is lent to a call, with what it held before.
#[derive(Clone, PartialEq, Eq)]
pub struct Lent {
    pub records: Vec<u8>,
    pub lengths: Vec<usize>,
    pub work: Vec<u8>,
}

/// No run of the tests takes more steps.
const MOST_STEPS: u32 = 20_000;

pub fn program(random: &mut Random, n: usize) -> Vec<u8> {
    let nodes = programs::nodes(random, n);
    let mut program = encode(n, &nodes);
    match random.below(100) {
        0..=2 => damage(random, &mut program),
        3..=4 => program = spoil(random, n, &nodes),
        5 => stray_call(random, &mut program),
        6 => program = near_the_limit(random, n),
        7 => {
            let length = random.below(12);
            program = (0..length).map(|_| random.below(16) as u8).collect();
        }
        _ => {}
    }
    program
}

fn parties(random: &mut Random) -> usize {
    match random.below(20) {
        0 | 1 => 1,
        2..=8 => 2,
        9..=14 => 3,
        15..=17 => random.between(4, 8),
        _ => random.between(9, 16),
    }
}

/// Counts that are no longer right for their inputs, or that are wrong only in number.
fn miscount(random: &mut Random, counts: &mut Vec<usize>) {
    let k = random.below(counts.len());
    match random.below(6) {
        0 => counts.push(0),
        1 => counts.truncate(k),
        2 => counts[k] += 1,
        3 => counts[k] = counts[k].saturating_sub(1),
        4 => counts[k] = usize::MAX,
        // they would sum to the right number if they wrapped around
        _ => {
            let last = counts.len() - 1;
            counts[last] = counts[last].wrapping_sub(usize::MAX / 2);
            counts[0] = counts[0].wrapping_add(usize::MAX / 2);
        }
    }
}

/// How many steps the single run takes with ample room, and whether it stays within the most.
fn steps_of(program: &[u8], counts: &[usize], inputs: &[i32]) -> (u32, bool) {
    let (mut records, mut lengths, mut work) = (vec![0; 16 * 4_000], [0; 16], vec![0; plain::WORKING_AREA]);
    match plain::single(program, counts, inputs, MOST_STEPS, &mut records, &mut lengths, &mut work) {
        plain::SingleAnswer::Ended { steps } => (steps, true),
        plain::SingleAnswer::Stopped { steps, .. } => (steps, true),
        plain::SingleAnswer::Budget { .. } => (400, false),
        plain::SingleAnswer::Refused(_) => (5, true),
    }
}

impl Call {
    pub fn random(random: &mut Random) -> Call {
        let n = parties(random);
        let program = program(random, n);
        let most = random.pick(&[0, 5, 40, 60, 60, 60]);
        let mut counts: Vec<usize> = (0..n).map(|_| random.below(most + 1)).collect();
        let inputs: Vec<i32> = (0..counts.iter().sum()).map(|_| random.integer()).collect();
        if random.percent(3) {
            miscount(random, &mut counts);
        }
        let (steps, ends) = steps_of(&program, &counts, &inputs);
        let budget = match random.below(20) {
            0 => steps,
            1 => steps.saturating_sub(1),
            2 => steps + 1,
            3 => random.below(steps as usize + 1) as u32,
            4 => 0,
            5..=9 if ends => u32::MAX,
            _ => MOST_STEPS,
        };
        let turns = Call::turns(random, n, (steps as usize + 1) * n);
        Call { program, counts, inputs, budget, turns }
    }

    fn turns(random: &mut Random, n: usize, rounds: usize) -> Vec<u8> {
        if random.below(250) == 0 {
            return long_list(random, n);
        }
        let about = match random.below(6) {
            0 => random.below(20),
            1 => random.below(rounds + 1),
            2 => rounds,
            _ => rounds * 2 + 10,
        };
        let mut turns = turn_list(random, n, about.min(20_000));
        if random.percent(2) && !turns.is_empty() {
            let k = random.below(turns.len());
            turns[k] = random.pick(&[n as u8, n as u8 + 1, 255]);
        }
        turns
    }
}

impl Lent {
    /// For a run that wants `need` working bytes.
    pub fn random(random: &mut Random, n: usize, need: usize) -> Lent {
        let room = match random.below(20) {
            0 => random.below(11),
            1..=5 => random.between(10, 60),
            6..=10 => random.between(60, 300),
            _ => random.between(300, 4_000),
        };
        let places = match random.below(40) {
            0 => random.below(n),
            1..=20 => n,
            _ => n + random.below(4),
        };
        let area = match random.below(40) {
            0 => random.below(need),
            1 => need - 1,
            2..=20 => need,
            _ => need + random.below(300),
        };
        let length = room * n + random.below(n);
        Lent {
            records: random.junk(length),
            lengths: (0..places).map(|_| random.next() as usize).collect(),
            work: random.junk(area),
        }
    }
}
