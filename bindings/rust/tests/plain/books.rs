//! Every party's inputs and record.
use super::calls::HELD_BACK;
use super::values::{has, Set, Value, MAX_PARTIES};

pub const SHARE_EVENT: usize = 4;

/// The length of the event of a reveal to q, at a party.
#[inline]
pub fn reveal_event(q: Set, party: usize) -> usize {
    if has(q, party) {
        7
    } else {
        3
    }
}

pub struct Books<'a> {
    pub inputs: &'a [i32],
    pub next: [usize; MAX_PARTIES],
    pub end: [usize; MAX_PARTIES],
    records: &'a mut [u8],
    room: usize,
    used: [usize; MAX_PARTIES],
}

impl<'a> Books<'a> {
    pub fn new(counts: &[usize], inputs: &'a [i32], records: &'a mut [u8], room: usize) -> Books<'a> {
        let mut next = [0; MAX_PARTIES];
        let mut end = [0; MAX_PARTIES];
        let mut at = 0;
        for (party, &count) in counts.iter().enumerate() {
            next[party] = at;
            at += count;
            end[party] = at;
        }
        Books { inputs, next, end, records, room, used: [0; MAX_PARTIES] }
    }

    /// Whether an event of so many bytes (kinds 1 to 5) may be written.
    #[inline]
    pub fn fits(&self, party: usize, length: usize) -> bool {
        self.used[party] + length + HELD_BACK <= self.room
    }

    #[inline]
    fn put<const L: usize>(&mut self, party: usize, event: [u8; L]) {
        let at = party * self.room + self.used[party];
        self.records[at..at + L].copy_from_slice(&event);
        self.used[party] += L;
    }

    pub fn put_integer(&mut self, party: usize, kind: u8, i: i32) {
        let b = i.to_le_bytes();
        self.put(party, [kind, b[0], b[1], b[2], b[3]]);
    }

    pub fn put_share(&mut self, party: usize, a: u8, q: Set) {
        let s = q.to_le_bytes();
        self.put(party, [3, a, s[0], s[1]]);
    }

    /// Kind 4 at a party in q, kind 5 at another.
    pub fn put_reveal(&mut self, party: usize, q: Set, i: i32) {
        let s = q.to_le_bytes();
        let b = i.to_le_bytes();
        if has(q, party) {
            self.put(party, [4, s[0], s[1], b[0], b[1], b[2], b[3]]);
        } else {
            self.put(party, [5, s[0], s[1]]);
        }
    }

    pub fn put_finished(&mut self, party: usize, v: Value) {
        let (tag, i) = if v.is_nothing() {
            (0, 0)
        } else if v.is_clear() {
            (1, v.i)
        } else {
            (2, 0)
        };
        let b = i.to_le_bytes();
        let l = v.l.to_le_bytes();
        let h = v.h.to_le_bytes();
        self.put(party, [6, tag, b[0], b[1], b[2], b[3], l[0], l[1], h[0], h[1]]);
    }

    pub fn put_stopped(&mut self, party: usize, number: u8, node: u16) {
        let k = node.to_le_bytes();
        self.put(party, [7, number, k[0], k[1]]);
    }

    pub fn hand_lengths(&self, lengths: &mut [usize], n: usize) {
        lengths[..n].copy_from_slice(&self.used[..n]);
    }
}
