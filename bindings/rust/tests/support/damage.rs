//! Bytes that are changed, so that what they were may no longer be good.
use super::encoding::{encode, put_node};
use super::random::Random;
use crate::plain::{check, Node, MAX_NODES};

/// A few changes of bytes.
pub fn damage(random: &mut Random, bytes: &mut Vec<u8>) {
    for _ in 0..random.between(1, 3) {
        let length = bytes.len();
        match random.below(7) {
            0 => bytes.truncate(random.below(length + 1)),
            1 => bytes.push(random.below(16) as u8),
            2 => bytes.insert(random.below(length + 1), random.below(18) as u8),
            _ if length == 0 => {}
            3 => {
                bytes.remove(random.below(length));
            }
            4 => bytes[random.below(length)] = random.next() as u8,
            5 => bytes[random.below(length)] ^= 1 << random.below(8),
            _ => bytes[random.below(length)] = random.below(18) as u8,
        }
    }
}

/// One field of one node just past what is good.
pub fn spoil(random: &mut Random, n: usize, nodes: &[Node]) -> Vec<u8> {
    let k = random.below(nodes.len());
    let mut program = encode(n, &nodes[..k]);
    let start = program.len();
    put_node(&mut program, nodes[k]);
    let fields = program.len() - start - 1;
    let at = start + random.below(fields + 1);
    program[at] = random.pick(&[14, 15, 16, 17, n as u8, k as u8, 0, 255]);
    for &node in &nodes[k + 1..] {
        put_node(&mut program, node);
    }
    program
}

/// A CALL to a node that is not there, or barely.
pub fn stray_call(random: &mut Random, program: &mut Vec<u8>) {
    let many = check(program).map_or(0, |program| program.nodes.len());
    put_node(program, Node::Call { f: (many + random.below(3)) as u16, x: 0 });
}

/// About 1,024 nodes, or a few more.
pub fn near_the_limit(random: &mut Random, n: usize) -> Vec<u8> {
    let mut program = vec![0, n as u8];
    for k in 0..random.between(MAX_NODES - 2, MAX_NODES + 2) {
        let node = match random.below(30) {
            0 => Node::Call { f: random.between(MAX_NODES - 4, MAX_NODES + 1) as u16, x: 0 },
            1 if k > 0 => Node::Par { p: 1, e: random.below(k) as u16 },
            _ => Node::Int { i: k as i32 },
        };
        put_node(&mut program, node);
    }
    program
}
