//! The worked example of document 01, by the letter.
mod plain;
#[macro_use]
mod support;

use threadmolar::{Check, Event, Joint, Refusal, Single};

const PROGRAM: &str = "00 02 05 0c 01 00 00 00 08 00 02 00 00 09 01 00 01 0a 01 02 00 03 00 0a 00 01 00 04 00";
const RECORD_0: &str = "0107000000030002000401000700000006010700000001000000";
const RECORD_1: &str = "0300020005010006000000000000000000";
const TURNS: [u8; 10] = [0, 0, 0, 0, 0, 1, 1, 1, 1, 0];

fn bytes(hex: &str) -> Vec<u8> {
    let digits: Vec<u8> = hex.chars().filter_map(|digit| digit.to_digit(16)).map(|digit| digit as u8).collect();
    digits.chunks(2).map(|pair| pair[0] * 16 + pair[1]).collect()
}

/// The answer and the two records, each party with so much room.
fn single(budget: u32, room: usize) -> (Single, [Vec<u8>; 2]) {
    let (mut records, mut lengths, mut work) = (vec![0xee; 2 * room], [0; 2], [0x55; 16_384]);
    let answer = threadmolar::single(&bytes(PROGRAM), &[1, 0], &[7], budget, &mut records, &mut lengths, &mut work);
    assert!(work.iter().all(|&byte| byte == 0));
    (answer, parts(&records, lengths, room))
}

fn joint(turns: &[u8], room: usize) -> (Joint, [Vec<u8>; 2]) {
    let (mut records, mut lengths, mut work) = (vec![0xee; 2 * room], [0; 2], [0x55; 32_768]);
    let answer = threadmolar::joint(&bytes(PROGRAM), &[1, 0], &[7], turns, &mut records, &mut lengths, &mut work);
    assert!(work.iter().all(|&byte| byte == 0));
    (answer, parts(&records, lengths, room))
}

/// The records; past each of them nothing is changed.
fn parts(records: &[u8], lengths: [usize; 2], room: usize) -> [Vec<u8>; 2] {
    [0, 1].map(|party| {
        let (record, rest) = records[party * room..][..room].split_at(lengths[party]);
        assert!(rest.iter().all(|&byte| byte == 0xee));
        record.to_vec()
    })
}

needs_archive! {
    fn it_is_a_good_program() {
        assert_eq!(threadmolar::check(&bytes(PROGRAM)), Check::Good { parties: 2, nodes: 6 });
    }

    fn the_single_run() {
        let (answer, records) = single(100, 768);
        assert_eq!(answer, Single::Ended { steps: 6 });
        assert_eq!(records, [bytes(RECORD_0), bytes(RECORD_1)]);
        assert_eq!(records.map(|record| record.len()), [26, 17]);
    }

    fn the_joint_run() {
        for turns in [&TURNS[..], &[1, 1, 1, 0, 0, 0, 0, 0, 1]] {
            let (answer, records) = joint(turns, 768);
            assert_eq!(answer, Joint::Complete { turns: 9 });
            assert_eq!(records, [bytes(RECORD_0), bytes(RECORD_1)]);
        }
    }

    fn the_fifth_turn_waits() {
        assert_eq!(joint(&TURNS[..4], 768).0, Joint::Open { turns: 4 });
        assert_eq!(joint(&TURNS[..5], 768).0, Joint::Open { turns: 4 });
        assert_eq!(joint(&[], 768), (Joint::Open { turns: 0 }, [vec![], vec![]]));
    }

    fn room_and_budget() {
        assert_eq!(single(100, 26).0, Single::Ended { steps: 6 });
        let stopped = Single::Stopped { refusal: Refusal::NoRoom, node: 3, steps: 5 };
        assert_eq!(single(100, 25).0, stopped);
        assert_eq!(single(6, 768).0, Single::Ended { steps: 6 });
        assert_eq!(single(5, 768).0, Single::Budget { steps: 5 });
    }

    fn the_events_of_party_0() {
        let events: Vec<Event> = threadmolar::walk(&bytes(RECORD_0)).map(Result::unwrap).collect();
        let expected = [
            Event::Read { integer: 7 },
            Event::Share { party: 0, to: 0b10 },
            Event::Opened { to: 0b01, integer: 7 },
            Event::Finished { tag: 1, integer: 7, at: 0b01, holders: 0 },
        ];
        assert_eq!(events, expected);
    }
}
