//! A call to measure, made to Threadmolar and to the plain machine.
use crate::plain;

pub enum Run {
    Single { budget: u32 },
    Joint { turns: Vec<u8> },
}

pub struct Case {
    pub program: Vec<u8>,
    pub counts: Vec<usize>,
    pub inputs: Vec<i32>,
    pub run: Run,
    /// Each party's record room.
    pub room: usize,
}

/// What is lent, to both in turn.
pub struct Lent {
    pub records: Vec<u8>,
    pub lengths: Vec<usize>,
    pub work: Vec<u8>,
}

#[derive(Clone, Copy, PartialEq, Eq)]
pub enum Machine {
    Threadmolar,
    Plain,
}

/// The turns of rounds in which each of n sites has a turn.
pub fn rounds(n: usize, turns: usize) -> Vec<u8> {
    (0..turns).map(|k| (k % n) as u8).collect()
}

impl Case {
    pub fn single(program: Vec<u8>, budget: u32, room: usize) -> Case {
        let counts = vec![0; program[1] as usize];
        Case { program, counts, inputs: vec![], run: Run::Single { budget }, room }
    }

    pub fn joint(program: Vec<u8>, turns: usize, room: usize) -> Case {
        let n = program[1] as usize;
        let run = Run::Joint { turns: rounds(n, turns) };
        Case { program, counts: vec![0; n], inputs: vec![], run, room }
    }

    pub fn lent(&self) -> Lent {
        let n = self.counts.len();
        let areas = if matches!(self.run, Run::Joint { .. }) { n } else { 1 };
        Lent { records: vec![0x5a; self.room * n], lengths: vec![0; n], work: vec![0x5a; plain::WORKING_AREA * areas] }
    }

    /// One whole call; the steps, or the turns of the list.
    pub fn call(&self, machine: Machine, lent: &mut Lent) -> u64 {
        let Case { program, counts, inputs, .. } = self;
        let Lent { records, lengths, work } = lent;
        match (&self.run, machine) {
            (&Run::Single { budget }, Machine::Threadmolar) => {
                match threadmolar::single(program, counts, inputs, budget, records, lengths, work) {
                    threadmolar::Single::Ended { steps } => steps as u64,
                    threadmolar::Single::Budget { steps } => steps as u64,
                    answer => panic!("Threadmolar answered {answer:?}"),
                }
            }
            (&Run::Single { budget }, Machine::Plain) => {
                match plain::single(program, counts, inputs, budget, records, lengths, work) {
                    plain::SingleAnswer::Ended { steps } => steps as u64,
                    plain::SingleAnswer::Budget { steps } => steps as u64,
                    answer => panic!("the plain machine answered {answer:?}"),
                }
            }
            (Run::Joint { turns }, Machine::Threadmolar) => {
                match threadmolar::joint(program, counts, inputs, turns, records, lengths, work) {
                    threadmolar::Joint::Refused { refusal, .. } => panic!("Threadmolar refused: {refusal}"),
                    _ => turns.len() as u64,
                }
            }
            (Run::Joint { turns }, Machine::Plain) => {
                match plain::joint(program, counts, inputs, turns, records, lengths, work) {
                    plain::JointAnswer::Refused(refused) => panic!("the plain machine refused: {refused:?}"),
                    _ => turns.len() as u64,
                }
            }
        }
    }

    /// Both leave the same; else there is nothing to compare.
    pub fn assert_same(&self) {
        let (mut ours, mut theirs) = (self.lent(), self.lent());
        let units = self.call(Machine::Threadmolar, &mut ours);
        assert_eq!(units, self.call(Machine::Plain, &mut theirs));
        assert!(ours.records == theirs.records && ours.lengths == theirs.lengths && ours.work == theirs.work);
    }
}
