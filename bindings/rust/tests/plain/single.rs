//! The single run.
use super::books::Books;
use super::calls::{admit, Lent, Refused};
use super::control::{Control, Stepped};
use super::values::{everyone, MAX_PARTIES};

#[derive(Clone, Copy, PartialEq, Eq, Debug)]
pub enum SingleAnswer {
    Ended { steps: u32 },
    Budget { steps: u32 },
    Stopped { number: u8, node: u16, steps: u32 },
    Refused(Refused),
}

pub fn single(
    program: &[u8],
    counts: &[usize],
    inputs: &[i32],
    budget: u32,
    records: &mut [u8],
    lengths: &mut [usize],
    work: &mut [u8],
) -> SingleAnswer {
    let lent = Lent { records: records.len(), lengths: lengths.len(), work: work.len() };
    let (program, room) = match admit(program, counts, inputs, None, lent) {
        Ok(admitted) => admitted,
        Err(refused) => return SingleAnswer::Refused(refused),
    };
    let mut books = Books::new(counts, inputs, records, room);
    let mut control = Control::start(&program);
    let mut steps = 0;
    let answer = loop {
        if steps == budget {
            break SingleAnswer::Budget { steps };
        }
        let mut step = control.step(&program.nodes, &mut books, everyone(MAX_PARTIES));
        if let Stepped::Meets = step {
            let node = program.nodes[control.node as usize];
            step = control.meet_alone(node, &mut books).unwrap_or_else(Stepped::Stopped);
        }
        match step {
            Stepped::On => steps += 1,
            Stepped::Finished(v) => {
                for party in 0..program.n {
                    books.put_finished(party, v.slice(party));
                }
                break SingleAnswer::Ended { steps: steps + 1 };
            }
            Stepped::Stopped(number) => {
                break SingleAnswer::Stopped { number, node: control.node, steps };
            }
            Stepped::Meets => unreachable!("SHARE and REVEAL are settled above"),
        }
    };
    books.hand_lengths(lengths, program.n);
    work.fill(0);
    answer
}
