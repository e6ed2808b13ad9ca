//! One thread of control: the whole machine in the single run, a site in the joint run.
use super::books::Books;
use super::program::{Node, Program};
use super::values::{common_sort, everyone, has, only_party, operate, Set, Value, MAX_NAMES};

const MAX_FRAMES: usize = 64;

#[derive(Clone, Copy)]
pub struct Bindings {
    bound: u16,
    values: [Value; MAX_NAMES],
}

impl Bindings {
    const NONE: Bindings = Bindings { bound: 0, values: [Value::NOTHING; MAX_NAMES] };

    /// The value of a name restricted to m, or refusal 5.
    #[inline]
    pub fn read(&self, x: u8, m: Set) -> Result<Value, u8> {
        if has(self.bound, x as usize) {
            Ok(self.values[x as usize % MAX_NAMES].restrict(m))
        } else {
            Err(5)
        }
    }

    #[inline]
    fn bind(&mut self, x: u8, v: Value) {
        self.bound |= 1 << x;
        self.values[x as usize % MAX_NAMES] = v;
    }
}

#[derive(Clone, Copy)]
struct Frame {
    name: u8,
    body: u16,
    mode: Set,
    bindings: Bindings,
}

#[derive(Clone)]
pub struct Control {
    pub node: u16,
    pub mode: Set,
    pub bindings: Bindings,
    depth: usize,
    frames: [Frame; MAX_FRAMES],
}

/// What one step did.
pub enum Stepped {
    On,
    Finished(Value),
    Stopped(u8),
    /// The node is SHARE or REVEAL: nothing done yet.
    Meets,
}

impl Control {
    pub fn start(program: &Program) -> Control {
        const EMPTY: Frame = Frame { name: 0, body: 0, mode: 0, bindings: Bindings::NONE };
        Control {
            node: program.nodes.len() as u16 - 1,
            mode: everyone(program.n),
            bindings: Bindings::NONE,
            depth: 0,
            frames: [EMPTY; MAX_FRAMES],
        }
    }

    /// An atom (or a skipped PAR) hands back a value.
    #[inline]
    pub fn hand_back(&mut self, v: Value) -> Stepped {
        if self.depth == 0 {
            return Stepped::Finished(v);
        }
        self.depth -= 1;
        let frame = &self.frames[self.depth];
        self.mode = frame.mode;
        self.bindings = frame.bindings;
        self.node = frame.body;
        self.bindings.bind(frame.name, v);
        Stepped::On
    }

    /// One step of a node that is neither SHARE nor REVEAL. `who` is the parties this control runs for: all in the single run, one at a site.
    #[inline]
    pub fn step(&mut self, nodes: &[Node], books: &mut Books, who: Set) -> Stepped {
        self.try_step(nodes, books, who).unwrap_or_else(Stepped::Stopped)
    }

    #[inline]
    fn try_step(&mut self, nodes: &[Node], books: &mut Books, who: Set) -> Result<Stepped, u8> {
        let m = self.mode;
        let b = &self.bindings;
        let value = match nodes[self.node as usize] {
            Node::Var { x } => b.read(x, m)?,
            Node::Int { i } => Value::clear(i, m),
            Node::Op { o, x, y } => {
                let (x, y) = (b.read(x, m)?, b.read(y, m)?);
                Value { i: operate(o, x.i, y.i), l: m, h: common_sort(&[x, y], m)? }
            }
            Node::Mux { x, y, z } => {
                let (x, y, z) = (b.read(x, m)?, b.read(y, m)?, b.read(z, m)?);
                let i = if x.i != 0 { y.i } else { z.i };
                Value { i, l: m, h: common_sort(&[x, y, z], m)? }
            }
            Node::Read => read(books, m)?,
            Node::Write { x } => write(books, b.read(x, m)?, m)?,
            Node::Embed { x } => Value::share(b.read(x, m)?.clear_at(m)?.i, m, m),
            Node::Share { .. } | Node::Reveal { .. } => return Ok(Stepped::Meets),
            Node::Let { x, e1, e2 } => {
                if self.depth == MAX_FRAMES {
                    return Err(10);
                }
                self.frames[self.depth] = Frame { name: x, body: e2, mode: m, bindings: self.bindings };
                self.depth += 1;
                self.node = e1;
                return Ok(Stepped::On);
            }
            Node::Case { x, e1, e2 } => {
                let v = b.read(x, m)?.clear_at(m)?;
                self.node = if v.i != 0 { e1 } else { e2 };
                return Ok(Stepped::On);
            }
            Node::Par { p, e } => {
                if m & p & who != 0 {
                    self.mode = m & p;
                    self.node = e;
                    return Ok(Stepped::On);
                }
                Value::NOTHING
            }
            Node::Call { f, x } => {
                let v = b.read(x, m)?;
                self.bindings.bound = 0;
                self.bindings.bind(0, v);
                self.node = f;
                return Ok(Stepped::On);
            }
        };
        Ok(self.hand_back(value))
    }
}

#[inline]
fn read(books: &mut Books, m: Set) -> Result<Value, u8> {
    let party = only_party(m)?;
    let at = books.next[party];
    if at == books.end[party] {
        return Err(8);
    }
    if !books.fits(party, 5) {
        return Err(9);
    }
    let i = books.inputs[at];
    books.next[party] = at + 1;
    books.put_integer(party, 1, i);
    Ok(Value::clear(i, m))
}

#[inline]
fn write(books: &mut Books, v: Value, m: Set) -> Result<Value, u8> {
    let v = v.clear_at(m)?;
    let party = only_party(m)?;
    if !books.fits(party, 5) {
        return Err(9);
    }
    books.put_integer(party, 2, v.i);
    Ok(Value::clear(0, m))
}
