//! Functions that call themselves: counting down, going down frame by frame, opening a share each round, reading, or without end.
use super::programs::{Made, Maker};
use super::scopes::{Fitting, Function, Scope, Sort};
use crate::plain::{Node, Set};

impl Maker<'_> {
    pub fn a_loop(&mut self, scope: &Scope, fit: &Fitting, depth: usize) -> Made {
        let (clear, share) = (&fit.clear, &fit.share);
        let m = scope.m;
        let alone = m.count_ones() == 1;
        match self.random.below(10) {
            0..=2 => {
                let function = self.count_down(m, depth - 1);
                self.call_with_number(function, clear)
            }
            3..=5 => {
                let function = self.recursion(m);
                self.call_with_number(function, clear)
            }
            6 | 7 if !share.is_empty() => {
                let function = self.opening(m);
                let x = self.random.pick(share);
                (self.push(Node::Call { f: function.node, x }), function.result)
            }
            8 if alone => {
                let function = self.reading(m);
                self.call_with_number(function, clear)
            }
            9 => self.endless(),
            _ => (self.push(Node::Int { i: 2 }), Sort::Clear(m)),
        }
    }

    /// CALL of a function, with a known integer or a small number.
    fn call_with_number(&mut self, function: Function, clear: &[u8]) -> Made {
        if !clear.is_empty() && self.random.percent(30) {
            let x = self.random.pick(clear);
            return (self.push(Node::Call { f: function.node, x }), function.result);
        }
        let i = match self.random.below(8) {
            0 => self.random.between(50, 70),
            1 => self.random.between(6, 30),
            _ => self.random.below(6),
        };
        let call = self.push(Node::Call { f: function.node, x: 0 });
        let int = self.push(Node::Int { i: i as i32 });
        (self.bind(0, int, call), function.result)
    }

    /// CASE 0 (LET 1 = 1 in LET 1 = 0 - 1 in e) base; the CALL in e gets this node.
    fn lowered(&mut self, e: u16, base: u16, call: u16) -> u16 {
        let sub = self.push(Node::Op { o: 1, x: 0, y: 1 });
        let e = self.bind(1, sub, e);
        let one = self.push(Node::Int { i: 1 });
        let e = self.bind(1, one, e);
        let node = self.push(Node::Case { x: 0, e1: e, e2: base });
        self.nodes[call as usize] = Node::Call { f: node, x: 1 };
        node
    }

    fn known(&mut self, node: u16, m: Set, argument: Sort, result: Sort) -> Function {
        let function = Function { node, m, argument, result };
        self.functions.push(function);
        function
    }

    /// An expression in each round, and the CALL last: no frames stay.
    fn count_down(&mut self, m: Set, depth: usize) -> Function {
        let argument = Sort::Clear(m);
        let mut scope = Scope::called(m, argument);
        let (base, result) = self.expression(&scope, 0);
        scope.bind(1, argument);
        let (e1, _) = self.expression(&scope, depth);
        let call = self.push(Node::Call { f: 0, x: 1 });
        let e = self.bind(2, e1, call);
        let node = self.lowered(e, base, call);
        self.known(node, m, argument, result)
    }

    /// LET 2 = CALL in 2 + 0: a frame more in each round.
    fn recursion(&mut self, m: Set) -> Function {
        let argument = Sort::Clear(m);
        let base = self.push(Node::Int { i: 3 });
        let call = self.push(Node::Call { f: 0, x: 1 });
        let sum = self.push(Node::Op { o: 0, x: 2, y: 0 });
        let e = self.bind(2, call, sum);
        let node = self.lowered(e, base, call);
        self.known(node, m, argument, argument)
    }

    /// f(0, a share): 0 := 0 - 1; where 1 < 0 is opened as 1, again.
    fn opening(&mut self, m: Set) -> Function {
        let base = self.push(Node::Var { x: 4 });
        let call = self.push(Node::Call { f: 0, x: 0 });
        let e = self.push(Node::Case { x: 4, e1: call, e2: base });
        let open = self.push(Node::Reveal { q: m, x: 3 });
        let e = self.bind(4, open, e);
        let less = self.push(Node::Op { o: 4, x: 2, y: 0 });
        let e = self.bind(3, less, e);
        let sub = self.push(Node::Op { o: 1, x: 0, y: 2 });
        let e = self.bind(0, sub, e);
        let embed = self.push(Node::Embed { x: 1 });
        let e = self.bind(2, embed, e);
        let one = self.push(Node::Int { i: 1 });
        let node = self.bind(1, one, e);
        self.nodes[call as usize] = Node::Call { f: node, x: 0 };
        self.known(node, m, Sort::Share { h: m, l: m }, Sort::Clear(m))
    }

    /// One party: it reads and writes until it has read 0.
    fn reading(&mut self, m: Set) -> Function {
        let base = self.push(Node::Var { x: 0 });
        let call = self.push(Node::Call { f: 0, x: 1 });
        let e = self.push(Node::Case { x: 1, e1: call, e2: base });
        let write = self.push(Node::Write { x: 1 });
        let e = self.bind(2, write, e);
        let read = self.push(Node::Read);
        let node = self.bind(1, read, e);
        self.nodes[call as usize] = Node::Call { f: node, x: 1 };
        self.known(node, m, Sort::Clear(m), Sort::Clear(m))
    }

    /// A CALL of itself.
    fn endless(&mut self) -> Made {
        let f = self.nodes.len() as u16;
        self.push(Node::Call { f, x: 0 });
        let int = self.push(Node::Int { i: 1 });
        (self.bind(0, int, f), Sort::Unknown)
    }
}
