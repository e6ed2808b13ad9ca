//! Random programs that mostly run far: each expression is made to fit what is known of the values in scope.
use super::random::Random;
use super::scopes::{Fitting, Function, Scope, Sort};
use crate::plain::{everyone, Node, Set, MAX_NODES};

pub struct Maker<'r> {
    pub random: &'r mut Random,
    pub n: usize,
    pub nodes: Vec<Node>,
    pub functions: Vec<Function>,
    /// No further parts are made past so many nodes.
    limit: usize,
    /// Percent of expressions that fit nothing.
    wild: usize,
}

/// A node, and what is known of what it hands back.
pub type Made = (u16, Sort);

/// How an expression is made: the parts that it may have are at most so deep.
type Making<'r> = fn(&mut Maker<'r>, &Scope, &Fitting, usize) -> Made;

impl<'r> Maker<'r> {
    pub fn push(&mut self, node: Node) -> u16 {
        self.nodes.push(node);
        self.nodes.len() as u16 - 1
    }

    pub fn bind(&mut self, x: u8, e1: u16, e2: u16) -> u16 {
        self.push(Node::Let { x, e1, e2 })
    }

    /// A name to bind: mostly one that is free.
    pub fn fresh(&mut self, scope: &Scope) -> u8 {
        let free: Vec<u8> = (0..16).filter(|&x| scope.names[x as usize].is_none()).collect();
        if free.is_empty() || self.random.percent(15) {
            self.random.below(16) as u8
        } else {
            self.random.pick(&free)
        }
    }

    pub fn expression(&mut self, scope: &Scope, depth: usize) -> Made {
        if self.random.percent(self.wild) {
            let node = self.wild_node(scope);
            return (self.push(node), Sort::Unknown);
        }
        let fit = Fitting::of(scope, &self.functions);
        let choices = self.choices(scope, &fit, depth);
        let weights = choices.map(|(possible, weight, _)| if possible { weight } else { 0 });
        let making = choices[self.random.weighted(&weights)].2;
        making(self, scope, &fit, depth)
    }

    /// Whether each can be made here, how likely it is then, and how it is made.
    fn choices(&self, scope: &Scope, fit: &Fitting, depth: usize) -> [(bool, usize, Making<'r>); 18] {
        let alone = scope.m.count_ones() == 1;
        let deep = depth > 0 && self.nodes.len() < self.limit;
        let [clear, share] = [!fit.clear.is_empty(), !fit.share.is_empty()];
        let bound = !fit.bound.is_empty();
        [
            (bound, 3, Self::var),
            (true, 5, Self::int),
            (clear || share, 16, Self::op),
            (clear || share, 6, Self::mux),
            (alone, 14, Self::read),
            (alone && clear, 12, Self::write),
            (clear, 6, Self::embed),
            (!fit.sharable.is_empty(), 16, Self::share),
            (!fit.openable.is_empty(), 24, Self::reveal),
            (!alone, 14, Self::shared_input),
            (deep && !alone, 18, Self::par_one),
            (deep && !alone, 10, Self::par_some),
            (deep, 3, Self::par_skipped),
            (deep && clear, 7, Self::case),
            (deep, 3, Self::inner_block),
            (!fit.callable.is_empty(), 12, Self::call_known),
            (deep && bound, 4, Self::call_new),
            (deep, 8, Self::a_loop),
        ]
    }

    /// LETs, one after the other, and a last expression.
    fn block(&mut self, scope: &Scope, length: usize, depth: usize) -> Made {
        let mut scope = *scope;
        let mut lets = Vec::new();
        for _ in 0..length {
            let (e1, sort) = self.expression(&scope, depth);
            let x = self.fresh(&scope);
            scope.bind(x, sort);
            lets.push((x, e1));
        }
        let (mut e, sort) = self.expression(&scope, depth);
        for (x, e1) in lets.into_iter().rev() {
            e = self.bind(x, e1, e);
        }
        (e, sort)
    }

    fn inner_block(&mut self, scope: &Scope, _: &Fitting, depth: usize) -> Made {
        let length = self.random.between(1, 4);
        self.block(scope, length, depth - 1)
    }

    fn par(&mut self, scope: &Scope, p: Set, depth: usize) -> Made {
        let inner = Scope { m: scope.m & p, ..*scope };
        if inner.m == 0 {
            let e = self.push(Node::Read);
            return (self.push(Node::Par { p, e }), Sort::Nothing);
        }
        let length = self.random.below(4);
        let (e, sort) = self.block(&inner, length, depth - 1);
        (self.push(Node::Par { p, e }), sort)
    }

    fn par_one(&mut self, scope: &Scope, _: &Fitting, depth: usize) -> Made {
        let p = 1 << self.random.member(scope.m);
        self.par(scope, p, depth)
    }

    fn par_some(&mut self, scope: &Scope, _: &Fitting, depth: usize) -> Made {
        let p = self.random.some_of(scope.m);
        self.par(scope, p, depth)
    }

    fn par_skipped(&mut self, scope: &Scope, _: &Fitting, depth: usize) -> Made {
        let p = self.random.part(everyone(self.n) & !scope.m);
        self.par(scope, p, depth)
    }

    fn case(&mut self, scope: &Scope, fit: &Fitting, depth: usize) -> Made {
        let x = self.random.pick(&fit.clear);
        let (first, second) = (self.random.below(3), self.random.below(3));
        let (e1, sort) = self.block(scope, first, depth - 1);
        let (e2, other) = self.block(scope, second, depth - 1);
        let sort = if sort == other { sort } else { Sort::Unknown };
        (self.push(Node::Case { x, e1, e2 }), sort)
    }

    fn call_known(&mut self, _: &Scope, fit: &Fitting, _: usize) -> Made {
        let (function, x) = self.random.pick(&fit.callable);
        (self.push(Node::Call { f: function.node, x }), function.result)
    }

    fn call_new(&mut self, scope: &Scope, fit: &Fitting, depth: usize) -> Made {
        let x = self.random.pick(&fit.bound);
        let argument = scope.sort(x).unwrap();
        let length = self.random.below(4);
        let (node, result) = self.block(&Scope::called(scope.m, argument), length, depth - 1);
        self.functions.push(Function { node, m: scope.m, argument, result });
        (self.push(Node::Call { f: node, x }), result)
    }
}

/// The nodes of a program for n parties.
pub fn nodes(random: &mut Random, n: usize) -> Vec<Node> {
    let wild = random.pick(&[0, 0, 0, 0, 0, 0, 0, 2, 5, 20]);
    let limit = random.pick(&[12, 40, 80, 80, 150, 300, 700]);
    let length = random.pick(&[0, 1, 3, 6, 8, 10, 12, 15, 20, 30]);
    let depth = random.between(1, 4);
    let mut maker = Maker { random, n, nodes: Vec::new(), functions: Vec::new(), limit, wild };
    let scope = Scope { m: everyone(n), names: [None; 16] };
    maker.block(&scope, length, depth);
    let mut nodes = maker.nodes;
    nodes.truncate(MAX_NODES);
    let many = nodes.len() as u16;
    for node in &mut nodes {
        if let Node::Call { f, .. } = node {
            *f %= many;
        }
    }
    nodes
}
