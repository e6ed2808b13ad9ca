//! The joint run.
use super::books::Books;
use super::calls::{admit, Lent, Refused};
use super::control::{Control, Stepped};
use super::program::Node;
use super::values::{Members, Set, Value, MAX_PARTIES};

#[derive(Clone, Copy, PartialEq, Eq, Debug)]
pub enum JointAnswer {
    Complete { turns: u32 },
    Open { turns: u32 },
    Refused(Refused),
}

#[derive(Clone, Copy, PartialEq, Eq)]
enum Status {
    Running,
    Finished,
    Stopped,
}

#[derive(Clone)]
struct Site {
    status: Status,
    control: Control,
}

struct Sites<'a> {
    nodes: &'a [Node],
    sites: Vec<Site>,
    books: Books<'a>,
    finished: usize,
}

impl Sites<'_> {
    fn finish(&mut self, party: usize, v: Value) {
        self.books.put_finished(party, v);
        self.sites[party].status = Status::Finished;
        self.finished += 1;
    }

    fn stop(&mut self, party: usize, number: u8) {
        self.books.put_stopped(party, number, self.sites[party].control.node);
        self.sites[party].status = Status::Stopped;
    }

    /// One turn of a site: whether it stepped or stopped.
    #[inline]
    fn turn(&mut self, party: usize) -> bool {
        let site = &mut self.sites[party];
        if site.status != Status::Running {
            return false;
        }
        match site.control.step(self.nodes, &mut self.books, 1 << party) {
            Stepped::On => {}
            Stepped::Finished(v) => self.finish(party, v),
            Stepped::Stopped(number) => self.stop(party, number),
            Stepped::Meets => return self.meeting(party),
        }
        true
    }

    /// A turn of a site that stands at SHARE or REVEAL.
    fn meeting(&mut self, party: usize) -> bool {
        let at = self.sites[party].control.node;
        let node = self.nodes[at as usize];
        let m = self.sites[party].control.mode;
        if let Err(number) = self.sites[party].control.own_checks(node, party, &self.books) {
            self.stop(party, number);
            return true;
        }
        // All of m stand here in mode m ...
        let stands = |s: &Site| s.status == Status::Running && s.control.node == at && s.control.mode == m;
        if !Members(m).all(|member| stands(&self.sites[member])) {
            return false;
        }
        // ... and each passes its own checks.
        let mut held = [Value::NOTHING; MAX_PARTIES];
        for member in Members(m) {
            match self.sites[member].control.own_checks(node, member, &self.books) {
                Ok(v) => held[member] = v,
                Err(_) => return false,
            }
        }
        match node {
            Node::Share { a, q, .. } => self.share(m, a, q, held[a as usize].i),
            Node::Reveal { q, .. } => return self.reveal(m, q, &held),
            _ => unreachable!("only SHARE and REVEAL are joint"),
        }
        true
    }

    fn share(&mut self, m: Set, a: u8, q: Set, i: i32) {
        for member in Members(m) {
            self.books.put_share(member, a, q);
            self.give(member, Value::share(i, q, q));
        }
    }

    /// Whether it was taken, or stopped all of m.
    fn reveal(&mut self, m: Set, q: Set, held: &[Value]) -> bool {
        let Some(first) = held.iter().copied().find(|v| v.is_share()) else {
            return false;
        };
        let mut holders: Set = 0;
        let mut agree = true;
        for (member, v) in held.iter().enumerate().filter(|(_, v)| v.is_share()) {
            holders |= 1 << member;
            agree &= v.h == first.h && v.i == first.i;
        }
        for member in Members(m) {
            if agree && holders == first.h {
                self.books.put_reveal(member, q, first.i);
                self.give(member, Value::clear(first.i, q));
            } else {
                self.stop(member, 11);
            }
        }
        true
    }

    /// A joint step hands a site its slice of the result.
    fn give(&mut self, party: usize, result: Value) {
        if let Stepped::Finished(v) = self.sites[party].control.hand_back(result.slice(party)) {
            self.finish(party, v);
        }
    }
}

pub fn joint(
    program: &[u8],
    counts: &[usize],
    inputs: &[i32],
    turns: &[u8],
    records: &mut [u8],
    lengths: &mut [usize],
    work: &mut [u8],
) -> JointAnswer {
    let lent = Lent { records: records.len(), lengths: lengths.len(), work: work.len() };
    let (program, room) = match admit(program, counts, inputs, Some(turns), lent) {
        Ok(admitted) => admitted,
        Err(refused) => return JointAnswer::Refused(refused),
    };
    let site = Site { status: Status::Running, control: Control::start(&program) };
    let mut run = Sites {
        nodes: &program.nodes,
        sites: vec![site; program.n],
        books: Books::new(counts, inputs, records, room),
        finished: 0,
    };
    let mut taken = 0;
    for &party in turns {
        taken += run.turn(party as usize) as u32;
    }
    run.books.hand_lengths(lengths, program.n);
    work.fill(0);
    if run.finished == program.n {
        JointAnswer::Complete { turns: taken }
    } else {
        JointAnswer::Open { turns: taken }
    }
}
