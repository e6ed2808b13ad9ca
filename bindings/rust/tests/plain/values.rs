//! Party sets, values and integers.

pub const MAX_PARTIES: usize = 16;
pub const MAX_NAMES: usize = 16;

/// A party set: bit i is party i.
pub type Set = u16;

#[inline]
pub fn has(set: Set, party: usize) -> bool {
    set >> party & 1 == 1
}

/// The set of all parties below n (n from 1 to 16).
#[inline]
pub fn everyone(n: usize) -> Set {
    (0xffff_u32 >> (16 - n as u32)) as Set
}

/// The parties of a set, lowest first.
#[derive(Clone, Copy)]
pub struct Members(pub Set);

impl Iterator for Members {
    type Item = usize;

    #[inline]
    fn next(&mut self) -> Option<usize> {
        if self.0 == 0 {
            return None;
        }
        let party = self.0.trailing_zeros() as usize;
        self.0 &= self.0 - 1;
        Some(party)
    }
}

/// Nothing (`l` empty), a clear integer at `l` (`h` empty), or a share with holders `h` at `l`.
/// The sort needs no tag: `l` is never empty in a value that is something, and `h` is never empty in a share.
#[derive(Clone, Copy, PartialEq, Eq, Debug)]
pub struct Value {
    pub i: i32,
    pub l: Set,
    pub h: Set,
}

impl Value {
    pub const NOTHING: Value = Value { i: 0, l: 0, h: 0 };

    #[inline]
    pub fn clear(i: i32, l: Set) -> Value {
        Value { i, l, h: 0 }
    }

    #[inline]
    pub fn share(i: i32, h: Set, l: Set) -> Value {
        Value { i, l, h }
    }

    #[inline]
    pub fn is_nothing(self) -> bool {
        self.l == 0
    }

    #[inline]
    pub fn is_clear(self) -> bool {
        self.l != 0 && self.h == 0
    }

    #[inline]
    pub fn is_share(self) -> bool {
        self.l != 0 && self.h != 0
    }

    /// Keeps of `l` the parties also in `m`; nothing where none is left. The holders of a share are kept.
    #[inline]
    pub fn restrict(self, m: Set) -> Value {
        if self.l & m == 0 {
            Value::NOTHING
        } else {
            Value { l: self.l & m, ..self }
        }
    }

    /// The value if the party is in `l`, else nothing.
    #[inline]
    pub fn slice(self, party: usize) -> Value {
        if has(self.l, party) {
            self
        } else {
            Value::NOTHING
        }
    }

    /// Itself if clear and at exactly m, or refusal 6.
    #[inline]
    pub fn clear_at(self, m: Set) -> Result<Value, u8> {
        if self.l == m && self.h == 0 {
            Ok(self)
        } else {
            Err(6)
        }
    }
}

/// Integers in two's complement, reduced modulo 2^32.
#[inline]
pub fn operate(o: u8, x: i32, y: i32) -> i32 {
    match o {
        0 => x.wrapping_add(y),
        1 => x.wrapping_sub(y),
        2 => x.wrapping_mul(y),
        3 => (x == y) as i32,
        _ => (x.wrapping_sub(y) < 0) as i32,
    }
}

/// The holders of the result of OP and MUX: none where all are clear and at exactly m, m where all are shares with holders m at exactly m.
#[inline]
pub fn common_sort(values: &[Value], m: Set) -> Result<Set, u8> {
    let h = values[0].h;
    if (h == 0 || h == m) && values.iter().all(|v| v.l == m && v.h == h) {
        Ok(h)
    } else {
        Err(6)
    }
}

/// The one party of m, or refusal 7.
#[inline]
pub fn only_party(m: Set) -> Result<usize, u8> {
    if m.count_ones() == 1 {
        Ok(m.trailing_zeros() as usize)
    } else {
        Err(7)
    }
}
