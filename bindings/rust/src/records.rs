use crate::raw;
use std::fmt;
use std::iter::FusedIterator;

/// An event of a site's record. A set has bit i for party i. Only the kind of an event is tested by a walk; its other bytes may be anything.
#[derive(Clone, Copy, PartialEq, Eq, Hash, Debug)]
pub enum Event {
    Read {
        integer: i32,
    },
    Write {
        integer: i32,
    },
    /// A share by a party to a set.
    Share {
        party: u8,
        to: u16,
    },
    /// A reveal to a set that this site is in.
    Opened {
        to: u16,
        integer: i32,
    },
    /// A reveal to a set that this site is not in.
    Passed {
        to: u16,
    },
    /// Tag 0 is nothing, 1 a clear integer, 2 a share; the set that the value is at, and the holders of a share.
    Finished {
        tag: u8,
        integer: i32,
        at: u16,
        holders: u16,
    },
    /// The number of a refusal, and the node.
    Stopped {
        refusal: u8,
        node: u16,
    },
}

/// What stands at a place of a record.
#[derive(Clone, Copy, PartialEq, Eq, Debug)]
pub enum Step {
    /// An event, and the place where the next one starts.
    Event(Event, usize),
    End,
    /// Refusal 12, with the byte of the event that is cut or unknown.
    NotAnEvent(usize),
}

/// What stands at byte `at` of a record; at or past its end that is the end.
pub fn step(record: &[u8], at: usize) -> Step {
    let (mut next, mut kind, mut detail, mut integer) = (0, 0, 0, 0);
    let (mut set, mut holders, mut node) = (0, 0, 0);
    // SAFETY: each pointer comes from a reference that lasts for the call, with the length of its slice.
    let code = unsafe {
        raw::threadmolar_walk(
            record.as_ptr(),
            record.len(),
            at,
            &mut next,
            &mut kind,
            &mut detail,
            &mut integer,
            &mut set,
            &mut holders,
            &mut node,
        )
    };
    match raw::taken_apart(code) {
        (raw::END, 0) => return Step::End,
        (raw::NOT_AN_EVENT, 0) => return Step::NotAnEvent(at),
        (raw::EVENT, 0) => {}
        _ => raw::unlisted(code),
    }
    let event = match kind {
        1 => Event::Read { integer },
        2 => Event::Write { integer },
        3 => Event::Share { party: detail, to: set },
        4 => Event::Opened { to: set, integer },
        5 => Event::Passed { to: set },
        6 => Event::Finished { tag: detail, integer, at: set, holders },
        7 => Event::Stopped { refusal: detail, node },
        _ => raw::unlisted(code),
    };
    Step::Event(event, next)
}

/// Refusal 12 in a walk: at this byte of the record there is an event that is cut or unknown.
#[derive(Clone, Copy, PartialEq, Eq, Debug)]
pub struct NotAnEvent {
    pub place: usize,
}

impl fmt::Display for NotAnEvent {
    fn fmt(&self, out: &mut fmt::Formatter) -> fmt::Result {
        write!(out, "{} at byte {}", crate::Refusal::NotAnEvent, self.place)
    }
}

impl std::error::Error for NotAnEvent {}

/// The events of a record, one after the other. Where the record can't be walked further, that is the last item.
pub fn walk(record: &[u8]) -> Walk<'_> {
    Walk { record, at: Some(0) }
}

/// The iterator of [`walk`].
#[derive(Clone, Debug)]
pub struct Walk<'a> {
    record: &'a [u8],
    /// None once the walk is over.
    at: Option<usize>,
}

impl Iterator for Walk<'_> {
    type Item = Result<Event, NotAnEvent>;

    fn next(&mut self) -> Option<Self::Item> {
        match step(self.record, self.at?) {
            Step::Event(event, next) => {
                self.at = Some(next);
                Some(Ok(event))
            }
            Step::End => {
                self.at = None;
                None
            }
            Step::NotAnEvent(place) => {
                self.at = None;
                Some(Err(NotAnEvent { place }))
            }
        }
    }
}

impl FusedIterator for Walk<'_> {}

/// How two records of one site stand to each other: the longer one begins with the other, or they are equal, or neither begins the other.
#[derive(Clone, Copy, PartialEq, Eq, Hash, Debug)]
pub enum Order {
    FirstLonger,
    SecondLonger,
    Equal,
    Neither,
}

fn order_from(code: u32) -> Order {
    match raw::taken_apart(code) {
        (raw::FIRST_LONGER, 0) => Order::FirstLonger,
        (raw::SECOND_LONGER, 0) => Order::SecondLonger,
        (raw::EQUAL, 0) => Order::Equal,
        (raw::NEITHER, 0) => Order::Neither,
        _ => raw::unlisted(code),
    }
}

/// Which record of two continues the other.
pub fn order(first: &[u8], second: &[u8]) -> Order {
    // SAFETY: each pointer comes from a reference that lasts for the call, with the length of its slice.
    order_from(unsafe { raw::threadmolar_order(first.as_ptr(), first.len(), second.as_ptr(), second.len()) })
}

/// What the longer record has beyond the shorter, as that part of the lent bytes; empty, at the second one's end, if they are equal or neither begins the other.
pub fn continuation<'a>(first: &'a [u8], second: &'a [u8]) -> &'a [u8] {
    let (mut start, mut length) = (0, 0);
    // SAFETY: each pointer comes from a reference that lasts for the call, with the length of its slice.
    let code = unsafe {
        raw::threadmolar_continuation(
            first.as_ptr(),
            first.len(),
            second.as_ptr(),
            second.len(),
            &mut start,
            &mut length,
        )
    };
    let whole = if order_from(code) == Order::FirstLonger { first } else { second };
    &whole[start..start + length]
}
