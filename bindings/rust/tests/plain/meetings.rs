//! SHARE and REVEAL: what the single run does there, and what a site checks by itself.
use super::books::{reveal_event, Books, SHARE_EVENT};
use super::control::{Control, Stepped};
use super::program::Node;
use super::values::{has, Members, Set, Value};

/// x has to be a share at exactly its holders (6), which with q make up the mode (7).
fn opens(v: Value, q: Set, m: Set) -> Result<(), u8> {
    if !(v.is_share() && v.l == v.h) {
        return Err(6);
    }
    if v.h | q != m {
        return Err(7);
    }
    Ok(())
}

impl Control {
    /// SHARE and REVEAL in the single run.
    pub fn meet_alone(&mut self, node: Node, books: &mut Books) -> Result<Stepped, u8> {
        let m = self.mode;
        match node {
            Node::Share { a, q, x } => {
                let v = self.bindings.read(x, m)?;
                if !(v.is_clear() && has(v.l, a as usize)) {
                    return Err(6);
                }
                if 1 << a | q != m {
                    return Err(7);
                }
                if !Members(m).all(|party| books.fits(party, SHARE_EVENT)) {
                    return Err(9);
                }
                for party in Members(m) {
                    books.put_share(party, a, q);
                }
                Ok(self.hand_back(Value::share(v.i, q, q)))
            }
            Node::Reveal { q, x } => {
                let v = self.bindings.read(x, m)?;
                opens(v, q, m)?;
                if !Members(m).all(|party| books.fits(party, reveal_event(q, party))) {
                    return Err(9);
                }
                for party in Members(m) {
                    books.put_reveal(party, q, v.i);
                }
                Ok(self.hand_back(Value::clear(v.i, q)))
            }
            _ => unreachable!("only SHARE and REVEAL are joint"),
        }
    }

    /// A site's own checks at a joint node. Its value of x where they pass.
    pub fn own_checks(&self, node: Node, party: usize, books: &Books) -> Result<Value, u8> {
        let m = self.mode;
        match node {
            Node::Share { a, q, x } => {
                let v = self.bindings.read(x, m)?;
                if party == a as usize && !(v.is_clear() && has(v.l, party)) {
                    return Err(6);
                }
                if 1 << a | q != m {
                    return Err(7);
                }
                if !books.fits(party, SHARE_EVENT) {
                    return Err(9);
                }
                Ok(v)
            }
            Node::Reveal { q, x } => {
                let v = self.bindings.read(x, m)?;
                if !v.is_nothing() {
                    opens(v, q, m)?;
                } else if !has(q, party) {
                    return Err(7);
                }
                if !books.fits(party, reveal_event(q, party)) {
                    return Err(9);
                }
                Ok(v)
            }
            _ => unreachable!("only SHARE and REVEAL are joint"),
        }
    }
}
