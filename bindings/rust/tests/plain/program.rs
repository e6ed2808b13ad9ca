//! Programs and their check.
use super::values::{everyone, Set, MAX_NAMES, MAX_PARTIES};

pub const MAX_NODES: usize = 1_024;

#[derive(Clone, Copy, PartialEq, Eq, Debug)]
pub enum Node {
    Var { x: u8 },
    Int { i: i32 },
    Op { o: u8, x: u8, y: u8 },
    Mux { x: u8, y: u8, z: u8 },
    Read,
    Write { x: u8 },
    Embed { x: u8 },
    Share { a: u8, q: Set, x: u8 },
    Reveal { q: Set, x: u8 },
    Let { x: u8, e1: u16, e2: u16 },
    Case { x: u8, e1: u16, e2: u16 },
    Par { p: Set, e: u16 },
    Call { f: u16, x: u8 },
}

/// A program that passed the check: n parties, 1 to 1,024 nodes.
#[derive(Clone, Debug)]
pub struct Program {
    pub n: usize,
    pub nodes: Vec<Node>,
}

/// The length of a node record, kind byte included; 0 for a wrong kind.
fn record_length(kind: u8) -> usize {
    match kind {
        5 => 1,
        1 | 6 | 7 => 2,
        3 | 4 | 9 | 13 => 4,
        2 | 8 | 12 => 5,
        10 | 11 => 6,
        _ => 0,
    }
}

/// The good record at the start of `bytes` and its length, or None where it is of a wrong kind, cut short, or has a bad field.
/// The target of a CALL is left for the end of the check.
fn decode(bytes: &[u8], n: usize, number: usize) -> Option<(Node, usize)> {
    let kind = bytes[0];
    let length = record_length(kind);
    if length == 0 || bytes.len() < length {
        return None;
    }
    let two = |k: usize| u16::from_le_bytes([bytes[k], bytes[k + 1]]);
    let name = |k: usize| Some(bytes[k]).filter(|&x| (x as usize) < MAX_NAMES);
    let set = |k: usize| Some(two(k)).filter(|&s| s & !everyone(n) == 0);
    let full = |k: usize| set(k).filter(|&s| s != 0);
    let part = |k: usize| Some(two(k)).filter(|&e| (e as usize) < number);
    let node = match kind {
        1 => Node::Var { x: name(1)? },
        2 => Node::Int { i: i32::from_le_bytes([bytes[1], bytes[2], bytes[3], bytes[4]]) },
        3 => Node::Op { o: Some(bytes[1]).filter(|&o| o <= 4)?, x: name(2)?, y: name(3)? },
        4 => Node::Mux { x: name(1)?, y: name(2)?, z: name(3)? },
        5 => Node::Read,
        6 => Node::Write { x: name(1)? },
        7 => Node::Embed { x: name(1)? },
        8 => Node::Share { a: Some(bytes[1]).filter(|&a| (a as usize) < n)?, q: full(2)?, x: name(4)? },
        9 => Node::Reveal { q: full(1)?, x: name(3)? },
        10 => Node::Let { x: name(1)?, e1: part(2)?, e2: part(4)? },
        11 => Node::Case { x: name(1)?, e1: part(2)?, e2: part(4)? },
        12 => Node::Par { p: set(1)?, e: part(3)? },
        _ => Node::Call { f: two(1), x: name(3)? },
    };
    Some((node, length))
}

/// The check of a program: the program, or the place for refusal 1.
pub fn check(program: &[u8]) -> Result<Program, usize> {
    if program.len() < 2 || program[0] != 0 || program[1] == 0 || program[1] as usize > MAX_PARTIES {
        return Err(0);
    }
    let n = program[1] as usize;
    let mut nodes: Vec<Node> = Vec::with_capacity((program.len() - 2).min(MAX_NODES));
    let mut at = 2;
    while at < program.len() {
        if nodes.len() == MAX_NODES {
            return Err(at);
        }
        let (node, length) = decode(&program[at..], n, nodes.len()).ok_or(at)?;
        nodes.push(node);
        at += length;
    }
    if nodes.is_empty() {
        return Err(program.len());
    }
    match first_bad_call(program, &nodes) {
        Some(place) => Err(place),
        None => Ok(Program { n, nodes }),
    }
}

/// The place of the first CALL whose target is no node.
fn first_bad_call(program: &[u8], nodes: &[Node]) -> Option<usize> {
    let mut at = 2;
    for node in nodes {
        match *node {
            Node::Call { f, .. } if f as usize >= nodes.len() => return Some(at),
            _ => at += record_length(program[at]),
        }
    }
    None
}
