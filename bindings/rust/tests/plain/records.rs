//! The walk of a record, and how two records of one site stand to each other.
use super::values::Set;

#[derive(Clone, Copy, PartialEq, Eq, Debug)]
pub enum Event {
    Read { i: i32 },
    Write { i: i32 },
    Share { a: u8, q: Set },
    Opened { q: Set, i: i32 },
    Revealed { q: Set },
    Finished { tag: u8, i: i32, l: Set, h: Set },
    Stopped { number: u8, node: u16 },
}

#[derive(Clone, Copy, PartialEq, Eq, Debug)]
pub enum Step {
    /// The event and the position of what follows.
    Event(Event, usize),
    End,
    /// Refusal 12 with the byte of the event that is cut or unknown.
    Bad(usize),
}

/// The event of a record at a position. At or past the record's end: the end.
pub fn step(record: &[u8], at: usize) -> Step {
    let Some(rest) = record.get(at..).filter(|rest| !rest.is_empty()) else {
        return Step::End;
    };
    let length = match rest[0] {
        5 => 3,
        3 | 7 => 4,
        1 | 2 => 5,
        4 => 7,
        6 => 10,
        _ => usize::MAX,
    };
    if rest.len() < length {
        return Step::Bad(at);
    }
    let two = |k: usize| u16::from_le_bytes([rest[k], rest[k + 1]]);
    let four = |k: usize| i32::from_le_bytes([rest[k], rest[k + 1], rest[k + 2], rest[k + 3]]);
    let event = match rest[0] {
        1 => Event::Read { i: four(1) },
        2 => Event::Write { i: four(1) },
        3 => Event::Share { a: rest[1], q: two(2) },
        4 => Event::Opened { q: two(1), i: four(3) },
        5 => Event::Revealed { q: two(1) },
        6 => Event::Finished { tag: rest[1], i: four(2), l: two(6), h: two(8) },
        _ => Event::Stopped { number: rest[1], node: two(2) },
    };
    Step::Event(event, at + length)
}

#[derive(Clone, Copy, PartialEq, Eq, Debug)]
pub enum Order {
    FirstLonger,
    SecondLonger,
    Equal,
    Neither,
}

/// Which case holds of two records of one site.
pub fn order(first: &[u8], second: &[u8]) -> Order {
    if first == second {
        Order::Equal
    } else if first.starts_with(second) {
        Order::FirstLonger
    } else if second.starts_with(first) {
        Order::SecondLonger
    } else {
        Order::Neither
    }
}

/// What the longer record has beyond the shorter; the empty end of the second where they are equal or neither begins the other.
pub fn continuation<'a>(first: &'a [u8], second: &'a [u8]) -> &'a [u8] {
    match order(first, second) {
        Order::FirstLonger => &first[second.len()..],
        Order::SecondLonger => &second[first.len()..],
        Order::Equal | Order::Neither => &second[second.len()..],
    }
}
