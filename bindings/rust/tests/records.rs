//! The walk of a record, order and continuation, held against the plain machine on random and damaged records.
mod plain;
#[macro_use]
mod support;

use support::damage::damage;
use support::random::Random;
use threadmolar::{Event, NotAnEvent, Order, Step};

const CASES: u64 = if cfg!(debug_assertions) { 3_000 } else { 60_000 };

fn expected_event(event: plain::Event) -> Event {
    match event {
        plain::Event::Read { i } => Event::Read { integer: i },
        plain::Event::Write { i } => Event::Write { integer: i },
        plain::Event::Share { a, q } => Event::Share { party: a, to: q },
        plain::Event::Opened { q, i } => Event::Opened { to: q, integer: i },
        plain::Event::Revealed { q } => Event::Passed { to: q },
        plain::Event::Finished { tag, i, l, h } => Event::Finished { tag, integer: i, at: l, holders: h },
        plain::Event::Stopped { number, node } => Event::Stopped { refusal: number, node },
    }
}

fn expected_step(step: plain::Step) -> Step {
    match step {
        plain::Step::Event(event, next) => Step::Event(expected_event(event), next),
        plain::Step::End => Step::End,
        plain::Step::Bad(place) => Step::NotAnEvent(place),
    }
}

fn expected_order(order: plain::Order) -> Order {
    match order {
        plain::Order::FirstLonger => Order::FirstLonger,
        plain::Order::SecondLonger => Order::SecondLonger,
        plain::Order::Equal => Order::Equal,
        plain::Order::Neither => Order::Neither,
    }
}

/// Events with any bytes after their kinds, now and then damaged.
fn record(random: &mut Random) -> Vec<u8> {
    let mut record = Vec::new();
    for _ in 0..random.below(12) {
        let kind = random.between(1, 7);
        let body = [0, 4, 4, 3, 6, 2, 9, 3][kind];
        record.push(kind as u8);
        record.extend(random.junk(body));
    }
    if random.percent(30) {
        damage(random, &mut record);
    }
    record
}

/// What a walk of the plain machine gives.
fn expected_walk(record: &[u8]) -> Vec<Result<Event, NotAnEvent>> {
    let mut items = Vec::new();
    let mut at = 0;
    loop {
        match plain::step(record, at) {
            plain::Step::Event(event, next) => {
                items.push(Ok(expected_event(event)));
                at = next;
            }
            plain::Step::End => return items,
            plain::Step::Bad(place) => {
                items.push(Err(NotAnEvent { place }));
                return items;
            }
        }
    }
}

/// A second record: the first, a beginning of it, more than it, one byte of it changed, or another.
fn second(random: &mut Random, first: &[u8]) -> Vec<u8> {
    let mut second = first.to_vec();
    match random.below(6) {
        0 => {}
        1 => second.truncate(random.below(first.len() + 1)),
        2 => second.extend(record(random)),
        3 if !first.is_empty() => second[random.below(first.len())] ^= 1 << random.below(8),
        4 => damage(random, &mut second),
        _ => second = record(random),
    }
    second
}

fn assert_same_part(ours: &[u8], theirs: &[u8], case: u64) {
    assert_eq!(ours.as_ptr(), theirs.as_ptr(), "case {case}: the continuation starts elsewhere");
    assert_eq!(ours.len(), theirs.len(), "case {case}: the continuation is of another length");
}

needs_archive! {
    fn walks() {
        let mut cut = 0;
        for case in 0..CASES {
            let random = &mut Random::new(11, case);
            let record = record(random);
            let items: Vec<_> = threadmolar::walk(&record).collect();
            assert_eq!(items, expected_walk(&record), "case {case}: {record:?}");
            cut += items.last().is_some_and(|item| item.is_err()) as u64;
        }
        assert!(CASES / 100 < cut && cut < CASES / 2, "{cut} of {CASES} records can't be walked");
    }

    fn steps_from_any_place() {
        for case in 0..CASES {
            let random = &mut Random::new(12, case);
            let record = record(random);
            let beyond = random.below(record.len() + 3);
            for at in [beyond, record.len(), usize::MAX - random.below(3)] {
                let expected = expected_step(plain::step(&record, at));
                assert_eq!(threadmolar::step(&record, at), expected, "case {case}, at {at}: {record:?}");
            }
        }
    }

    fn orders_and_continuations() {
        let mut seen = [0; 4];
        for case in 0..CASES {
            let random = &mut Random::new(13, case);
            let one = record(random);
            let other = second(random, &one);
            for (first, second) in [(&one, &other), (&other, &one)] {
                let order = threadmolar::order(first, second);
                assert_eq!(order, expected_order(plain::order(first, second)), "case {case}");
                assert_same_part(threadmolar::continuation(first, second), plain::continuation(first, second), case);
                seen[order as usize] += 1;
            }
        }
        assert!(seen.iter().all(|&times| times > CASES / 20), "too few of some answer: {seen:?}");
    }
}
