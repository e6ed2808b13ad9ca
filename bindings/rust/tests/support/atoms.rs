//! Atoms that fit the names in scope, a party's input shared by it, and nodes that fit nothing.
use super::programs::{Made, Maker};
use super::scopes::{Fitting, Scope, Sort};
use crate::plain::{everyone, Node, Set};

impl Maker<'_> {
    pub fn var(&mut self, scope: &Scope, fit: &Fitting, _: usize) -> Made {
        let x = self.random.pick(&fit.bound);
        (self.push(Node::Var { x }), scope.sort(x).unwrap())
    }

    pub fn int(&mut self, scope: &Scope, _: &Fitting, _: usize) -> Made {
        let i = self.random.integer();
        (self.push(Node::Int { i }), Sort::Clear(scope.m))
    }

    /// Three names that OP and MUX take together: all clear, or all shares.
    fn alike(&mut self, fit: &Fitting) -> [u8; 3] {
        let clear = fit.share.is_empty() || !fit.clear.is_empty() && self.random.percent(40);
        let names = if clear { &fit.clear } else { &fit.share };
        [0; 3].map(|_| self.random.pick(names))
    }

    pub fn op(&mut self, scope: &Scope, fit: &Fitting, _: usize) -> Made {
        let [x, y, _] = self.alike(fit);
        let o = self.random.below(5) as u8;
        (self.push(Node::Op { o, x, y }), scope.sort(x).unwrap())
    }

    pub fn mux(&mut self, scope: &Scope, fit: &Fitting, _: usize) -> Made {
        let [x, y, z] = self.alike(fit);
        (self.push(Node::Mux { x, y, z }), scope.sort(x).unwrap())
    }

    pub fn read(&mut self, scope: &Scope, _: &Fitting, _: usize) -> Made {
        (self.push(Node::Read), Sort::Clear(scope.m))
    }

    pub fn write(&mut self, scope: &Scope, fit: &Fitting, _: usize) -> Made {
        let x = self.random.pick(&fit.clear);
        (self.push(Node::Write { x }), Sort::Clear(scope.m))
    }

    pub fn embed(&mut self, scope: &Scope, fit: &Fitting, _: usize) -> Made {
        let x = self.random.pick(&fit.clear);
        (self.push(Node::Embed { x }), Sort::Share { h: scope.m, l: scope.m })
    }

    /// The set that shares: m, or m without the giver.
    fn receivers(&mut self, m: Set, a: usize) -> Set {
        let others = m & !(1 << a);
        if others != 0 && self.random.percent(35) {
            others
        } else {
            m
        }
    }

    /// A set to open to, which with the holders makes up m.
    fn openers(&mut self, m: Set, h: Set) -> Set {
        match m & !h | self.random.part(h) {
            0 => 1 << self.random.member(h),
            q => q,
        }
    }

    pub fn share(&mut self, scope: &Scope, fit: &Fitting, _: usize) -> Made {
        let x = self.random.pick(&fit.sharable);
        let Some(Sort::Clear(l)) = scope.sort(x) else { unreachable!() };
        let a = self.random.member(l);
        let q = self.receivers(scope.m, a);
        (self.push(Node::Share { a: a as u8, q, x }), Sort::Share { h: q, l: q })
    }

    pub fn reveal(&mut self, scope: &Scope, fit: &Fitting, _: usize) -> Made {
        let x = self.random.pick(&fit.openable);
        let Some(Sort::Share { h, .. }) = scope.sort(x) else { unreachable!() };
        let q = self.openers(scope.m, h);
        (self.push(Node::Reveal { q, x }), Sort::Clear(q))
    }

    /// A party reads, and shares what it read.
    pub fn shared_input(&mut self, scope: &Scope, _: &Fitting, _: usize) -> Made {
        let a = self.random.member(scope.m);
        let q = self.receivers(scope.m, a);
        let x = self.fresh(scope);
        let read = self.push(Node::Read);
        let par = self.push(Node::Par { p: 1 << a, e: read });
        let share = self.push(Node::Share { a: a as u8, q, x });
        (self.bind(x, par, share), Sort::Share { h: q, l: q })
    }

    /// A node that passes the check and seldom fits: its names are mostly bound, its sets near the mode.
    pub fn wild_node(&mut self, scope: &Scope) -> Node {
        let below = self.nodes.len();
        let all = everyone(self.n);
        let bound = scope.such_that(|_| true);
        let random = &mut *self.random;
        let unbound = bound.is_empty() || random.percent(15);
        let [x, y, z] = [0; 3].map(|_| if unbound { random.below(16) as u8 } else { random.pick(&bound) });
        let [e1, e2] = [0; 2].map(|_| random.below(below.max(1)) as u16);
        let some = [random.some_of(scope.m), random.some_of(all)];
        let q = random.pick(&[scope.m, all, some[0], some[1]]);
        let a = random.below(self.n) as u8;
        match random.below(if below > 0 { 15 } else { 11 }) {
            0 => Node::Var { x },
            1 => Node::Int { i: random.integer() },
            2 => Node::Op { o: random.below(5) as u8, x, y },
            3 => Node::Mux { x, y, z },
            4 => Node::Read,
            5 => Node::Write { x },
            6 => Node::Embed { x },
            7 | 8 => Node::Share { a, q, x },
            9 | 10 => Node::Reveal { q, x },
            11 => Node::Let { x, e1, e2 },
            12 => Node::Case { x, e1, e2 },
            13 => Node::Par { p: random.part(all), e: e1 },
            _ => Node::Call { f: e1, x },
        }
    }
}
