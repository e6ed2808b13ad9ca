//! What is known of the values in scope while a program is made.
use crate::plain::Set;

/// What is known of a value.
#[derive(Clone, Copy, PartialEq, Eq, Debug)]
pub enum Sort {
    Nothing,
    Clear(Set),
    Share { h: Set, l: Set },
    Unknown,
}

impl Sort {
    fn restrict(self, m: Set) -> Sort {
        match self {
            Sort::Clear(l) if l & m != 0 => Sort::Clear(l & m),
            Sort::Share { h, l } if l & m != 0 => Sort::Share { h, l: l & m },
            Sort::Unknown => Sort::Unknown,
            _ => Sort::Nothing,
        }
    }
}

/// The mode, and what each name is bound to.
#[derive(Clone, Copy)]
pub struct Scope {
    pub m: Set,
    pub names: [Option<Sort>; 16],
}

impl Scope {
    /// At the start of a called body.
    pub fn called(m: Set, argument: Sort) -> Scope {
        let mut names = [None; 16];
        names[0] = Some(argument);
        Scope { m, names }
    }

    pub fn sort(&self, x: u8) -> Option<Sort> {
        self.names[x as usize].map(|sort| sort.restrict(self.m))
    }

    pub fn bind(&mut self, x: u8, sort: Sort) {
        self.names[x as usize] = Some(sort);
    }

    /// The bound names whose value in this mode passes the test.
    pub fn such_that(&self, test: impl Fn(Sort) -> bool) -> Vec<u8> {
        (0..16).filter(|&x| self.sort(x).is_some_and(&test)).collect()
    }
}

/// A node that may be called in mode m with such an argument.
#[derive(Clone, Copy)]
pub struct Function {
    pub node: u16,
    pub m: Set,
    pub argument: Sort,
    pub result: Sort,
}

/// The names that fit a kind of node, and the functions with a name to call each with.
pub struct Fitting {
    /// Clear at exactly m.
    pub clear: Vec<u8>,
    /// A share with holders m at exactly m.
    pub share: Vec<u8>,
    /// Clear at some of m.
    pub sharable: Vec<u8>,
    /// A share at exactly its holders.
    pub openable: Vec<u8>,
    pub bound: Vec<u8>,
    pub callable: Vec<(Function, u8)>,
}

impl Fitting {
    pub fn of(scope: &Scope, functions: &[Function]) -> Fitting {
        let m = scope.m;
        let callable = functions.iter().filter(|function| function.m == m).flat_map(|&function| {
            let names = scope.such_that(|sort| sort == function.argument);
            names.into_iter().map(move |x| (function, x))
        });
        Fitting {
            clear: scope.such_that(|sort| sort == Sort::Clear(m)),
            share: scope.such_that(|sort| sort == Sort::Share { h: m, l: m }),
            sharable: scope.such_that(|sort| matches!(sort, Sort::Clear(_))),
            openable: scope.such_that(|sort| matches!(sort, Sort::Share { h, l } if h == l)),
            bound: scope.such_that(|_| true),
            callable: callable.collect(),
        }
    }
}
