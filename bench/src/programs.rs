//! The programs that are measured. Each but the example calls itself without end.
use crate::encoding::encode;
use crate::plain::{everyone, Node};

/// LETs over parts, and at their end a CALL of the first LET with name 0, which is 0 at the start. Nodes before them are not reached.
fn looping(n: usize, unreached: usize, parts: &[(u8, Node)]) -> Vec<u8> {
    let mut nodes = vec![Node::Read; unreached];
    nodes.extend(parts.iter().map(|&(_, part)| part));
    let first = unreached as u16;
    // The parts, the CALL, then a LET for each part: the last of them starts the loop.
    let entry = first + 2 * parts.len() as u16;
    nodes.push(Node::Call { f: entry, x: 0 });
    for (k, &(x, _)) in parts.iter().enumerate().rev() {
        let e2 = nodes.len() as u16 - 1;
        nodes.push(Node::Let { x, e1: first + k as u16, e2 });
    }
    let zero = nodes.len() as u16;
    nodes.push(Node::Int { i: 0 });
    nodes.push(Node::Let { x: 0, e1: zero, e2: entry });
    encode(n, &nodes)
}

/// Arithmetic on clear integers and on shares, each party by itself.
pub fn local(n: usize) -> Vec<u8> {
    let parts = [
        (1, Node::Int { i: 1 }),
        (0, Node::Op { o: 0, x: 0, y: 1 }),
        (2, Node::Embed { x: 0 }),
        (3, Node::Op { o: 2, x: 2, y: 2 }),
        (4, Node::Mux { x: 3, y: 2, z: 3 }),
    ];
    looping(n, 0, &parts)
}

/// A share among all and its opening to all.
pub fn sharing(n: usize) -> Vec<u8> {
    let q = everyone(n);
    looping(n, 0, &[(1, Node::Share { a: 0, q, x: 0 }), (2, Node::Reveal { q, x: 1 })])
}

/// A CALL of itself.
pub fn calling(n: usize) -> Vec<u8> {
    looping(n, 0, &[])
}

/// Arithmetic on clear integers over so many nodes, from 8 on; all but a few are reached in each round.
pub fn long(n: usize, nodes: usize) -> Vec<u8> {
    let pair = [(1, Node::Int { i: 3 }), (0, Node::Op { o: 0, x: 0, y: 1 })];
    let parts = pair.repeat((nodes - 3) / 4);
    looping(n, nodes - 3 - 2 * parts.len(), &parts)
}

/// The worked example of document 01.
pub fn example() -> Vec<u8> {
    let nodes = [
        Node::Read,
        Node::Par { p: 1, e: 0 },
        Node::Share { a: 0, q: 2, x: 0 },
        Node::Reveal { q: 1, x: 1 },
        Node::Let { x: 1, e1: 2, e2: 3 },
        Node::Let { x: 0, e1: 1, e2: 4 },
    ];
    encode(2, &nodes)
}
