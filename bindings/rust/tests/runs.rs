//! Both runs and the check, held against the plain machine on random calls: the answer and every lent byte.
mod plain;
#[macro_use]
mod support;

use plain::{JointAnswer, Refused, SingleAnswer};
use std::collections::BTreeMap;
use support::calls::{Call, Lent};
use support::random::Random;
use threadmolar::{Check, Joint, Refusal, Single};

/// Of each seed; there are four.
const CASES: u64 = if cfg!(debug_assertions) { 600 } else { 7_500 };

fn refusal(number: u8) -> Refusal {
    Refusal::from_number(number).unwrap()
}

fn expected_check(program: &[u8]) -> Check {
    match plain::check(program) {
        Ok(good) => Check::Good { parties: good.n as u8, nodes: good.nodes.len() },
        Err(place) => Check::Refused { refusal: Refusal::BadProgram, place },
    }
}

fn expected_single(answer: SingleAnswer) -> Single {
    match answer {
        SingleAnswer::Ended { steps } => Single::Ended { steps },
        SingleAnswer::Budget { steps } => Single::Budget { steps },
        SingleAnswer::Stopped { number, node, steps } => Single::Stopped { refusal: refusal(number), node, steps },
        SingleAnswer::Refused(Refused { number, place }) => Single::Refused { refusal: refusal(number), place },
    }
}

fn expected_joint(answer: JointAnswer) -> Joint {
    match answer {
        JointAnswer::Complete { turns } => Joint::Complete { turns },
        JointAnswer::Open { turns } => Joint::Open { turns },
        JointAnswer::Refused(Refused { number, place }) => Joint::Refused { refusal: refusal(number), place },
    }
}

/// How often each thing came up, so that a comparison of nothing is noticed.
#[derive(Default)]
struct Seen(BTreeMap<String, u64>);

impl Seen {
    fn note(&mut self, what: String) {
        *self.0.entry(what).or_default() += 1;
    }

    fn note_single(&mut self, answer: Single) {
        self.note(match answer {
            Single::Ended { steps } if steps > 200 => "single ended late".into(),
            Single::Ended { .. } => "single ended".into(),
            Single::Budget { .. } => "single budget".into(),
            Single::Stopped { refusal, .. } => format!("single stopped {}", refusal.number()),
            Single::Refused { refusal, .. } => format!("single refused {}", refusal.number()),
        });
    }

    fn note_joint(&mut self, answer: Joint) {
        self.note(match answer {
            Joint::Complete { turns } if turns > 200 => "joint complete late".into(),
            Joint::Complete { .. } => "joint complete".into(),
            Joint::Open { .. } => "joint open".into(),
            Joint::Refused { refusal, .. } => format!("joint refused {}", refusal.number()),
        });
    }

    /// The events of the joint run's records, stops by their number.
    fn note_events(&mut self, n: usize, lent: &Lent) {
        let room = lent.records.len() / n;
        for (party, &length) in lent.lengths[..n].iter().enumerate() {
            let mut at = 0;
            while let plain::Step::Event(event, next) = plain::step(&lent.records[party * room..][..length], at) {
                self.note(match event {
                    plain::Event::Stopped { number, .. } => format!("site stopped {number}"),
                    _ => format!("event {}", lent.records[party * room + at]),
                });
                at = next;
            }
        }
    }

    /// Everything that can come up has. Refusal 11 can't.
    fn require_all(&self) {
        let mut wanted: Vec<String> = Vec::new();
        wanted.extend(["single ended", "single ended late", "single budget"].map(String::from));
        wanted.extend(["joint complete", "joint complete late", "joint open"].map(String::from));
        wanted.extend([1, 2, 4].map(|number| format!("single refused {number}")));
        wanted.extend([1, 2, 3, 4].map(|number| format!("joint refused {number}")));
        wanted.extend((5..=10).map(|number| format!("single stopped {number}")));
        wanted.extend((5..=10).map(|number| format!("site stopped {number}")));
        wanted.extend((1..=6).map(|kind| format!("event {kind}")));
        for what in wanted {
            assert!(self.0.contains_key(&what), "never came up: {what}; seen {:?}", self.0);
        }
    }
}

fn assert_same(what: &str, ours: &Lent, theirs: &Lent) {
    assert!(ours.records == theirs.records, "{what}: the records differ");
    assert!(ours.lengths == theirs.lengths, "{what}: the lengths differ");
    assert!(ours.work == theirs.work, "{what}: the working areas differ");
}

fn compare_single(what: &str, call: &Call, lent: Lent, seen: &mut Seen) {
    let Call { program, counts, inputs, budget, .. } = call;
    let (mut ours, mut theirs) = (lent.clone(), lent);
    let Lent { records, lengths, work } = &mut ours;
    let answer = threadmolar::single(program, counts, inputs, *budget, records, lengths, work);
    let Lent { records, lengths, work } = &mut theirs;
    let expected = plain::single(program, counts, inputs, *budget, records, lengths, work);
    assert_eq!(answer, expected_single(expected), "{what}");
    assert_same(what, &ours, &theirs);
    seen.note_single(answer);
}

fn compare_joint(what: &str, call: &Call, lent: Lent, seen: &mut Seen) {
    let Call { program, counts, inputs, turns, .. } = call;
    let (mut ours, mut theirs) = (lent.clone(), lent);
    let Lent { records, lengths, work } = &mut ours;
    let answer = threadmolar::joint(program, counts, inputs, turns, records, lengths, work);
    let Lent { records, lengths, work } = &mut theirs;
    let expected = plain::joint(program, counts, inputs, turns, records, lengths, work);
    assert_eq!(answer, expected_joint(expected), "{what}");
    assert_same(what, &ours, &theirs);
    seen.note_joint(answer);
    if !matches!(answer, Joint::Refused { .. }) {
        seen.note_events(program[1] as usize, &ours);
    }
}

fn compare(seed: u64) {
    let mut seen = Seen::default();
    for case in 0..CASES {
        let what = format!("seed {seed}, case {case}");
        let random = &mut Random::new(seed, case);
        let call = Call::random(random);
        assert_eq!(threadmolar::check(&call.program), expected_check(&call.program), "{what}");
        let n = call.program.get(1).map_or(1, |&n| n.clamp(1, 16) as usize);
        let lent = Lent::random(random, n, plain::WORKING_AREA);
        compare_single(&what, &call, lent, &mut seen);
        let lent = Lent::random(random, n, plain::WORKING_AREA * n);
        compare_joint(&what, &call, lent, &mut seen);
    }
    seen.require_all();
}

needs_archive! {
    fn runs_of_seed_1() {
        compare(1);
    }

    fn runs_of_seed_2() {
        compare(2);
    }

    fn runs_of_seed_3() {
        compare(3);
    }

    fn runs_of_seed_4() {
        compare(4);
    }

    fn nothing_lent_at_all() {
        let call = Call { program: vec![], counts: vec![], inputs: vec![], budget: 0, turns: vec![] };
        let lent = Lent { records: vec![], lengths: vec![], work: vec![] };
        compare_single("nothing", &call, lent.clone(), &mut Seen::default());
        compare_joint("nothing", &call, lent.clone(), &mut Seen::default());
        let call = Call { program: vec![0, 1, 5], counts: vec![0], ..call };
        compare_single("a program alone", &call, lent.clone(), &mut Seen::default());
        compare_joint("a program alone", &call, lent, &mut Seen::default());
    }

    fn checks_of_changed_programs() {
        for case in 0..CASES * 4 {
            let random = &mut Random::new(5, case);
            let n = random.between(1, 16);
            let mut program = support::calls::program(random, n);
            support::damage::damage(random, &mut program);
            assert_eq!(threadmolar::check(&program), expected_check(&program), "case {case}: {program:?}");
        }
    }
}
