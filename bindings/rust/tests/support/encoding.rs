//! The bytes of a program.
use crate::plain::Node;

pub fn put_node(out: &mut Vec<u8>, node: Node) {
    match node {
        Node::Var { x } => out.extend([1, x]),
        Node::Int { i } => {
            out.push(2);
            out.extend(i.to_le_bytes());
        }
        Node::Op { o, x, y } => out.extend([3, o, x, y]),
        Node::Mux { x, y, z } => out.extend([4, x, y, z]),
        Node::Read => out.push(5),
        Node::Write { x } => out.extend([6, x]),
        Node::Embed { x } => out.extend([7, x]),
        Node::Share { a, q, x } => {
            let q = q.to_le_bytes();
            out.extend([8, a, q[0], q[1], x]);
        }
        Node::Reveal { q, x } => {
            let q = q.to_le_bytes();
            out.extend([9, q[0], q[1], x]);
        }
        Node::Let { x, e1, e2 } => put_parts(out, 10, x, e1, e2),
        Node::Case { x, e1, e2 } => put_parts(out, 11, x, e1, e2),
        Node::Par { p, e } => {
            let (p, e) = (p.to_le_bytes(), e.to_le_bytes());
            out.extend([12, p[0], p[1], e[0], e[1]]);
        }
        Node::Call { f, x } => {
            let f = f.to_le_bytes();
            out.extend([13, f[0], f[1], x]);
        }
    }
}

fn put_parts(out: &mut Vec<u8>, kind: u8, x: u8, e1: u16, e2: u16) {
    let (e1, e2) = (e1.to_le_bytes(), e2.to_le_bytes());
    out.extend([kind, x, e1[0], e1[1], e2[0], e2[1]]);
}

pub fn encode(n: usize, nodes: &[Node]) -> Vec<u8> {
    let mut out = vec![0, n as u8];
    for &node in nodes {
        put_node(&mut out, node);
    }
    out
}
