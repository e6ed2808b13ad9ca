//! The rows that are measured.
use crate::cases::{Case, Run};
use crate::measure::{measure, Measured};
use crate::plain::MAX_TURNS;
use crate::programs;

pub struct Row {
    pub name: String,
    pub measured: Measured,
}

pub struct Table {
    pub title: &'static str,
    /// What a row is, and what one of its units is.
    pub of: &'static str,
    pub unit: &'static str,
    pub rows: Vec<Row>,
}

/// Room for the events of a run that shares and reveals: 11 bytes in each round of five steps, and what is held back.
fn room_for(steps: usize) -> usize {
    (steps / 5 + 1) * 11 + 10
}

/// Room where nothing but the end is written.
const LITTLE_ROOM: usize = 64;

/// A number with a comma before each three digits.
fn grouped(number: usize) -> String {
    let digits = number.to_string();
    let parts: Vec<&str> = digits.as_bytes().rchunks(3).rev().map(|part| std::str::from_utf8(part).unwrap()).collect();
    parts.join(",")
}

fn row(name: String, case: Case) -> Row {
    eprintln!("  {name}");
    Row { name, measured: measure(&case) }
}

fn single_runs() -> Table {
    let mut rows = Vec::new();
    for n in [2, 8, 16] {
        let sharing = Case::single(programs::sharing(n), 1_000_000, room_for(1_000_000));
        rows.push(row(
            format!("local arithmetic, {n} parties"),
            Case::single(programs::local(n), 2_000_000, LITTLE_ROOM),
        ));
        rows.push(row(format!("SHARE and REVEAL, {n} parties"), sharing));
        rows.push(row(
            format!("CALL of itself, {n} parties"),
            Case::single(programs::calling(n), 2_000_000, LITTLE_ROOM),
        ));
    }
    Table { title: "Single run, long runs", of: "program", unit: "step", rows }
}

fn joint_runs() -> Table {
    let mut rows = Vec::new();
    for n in [2, 8, 16] {
        rows.push(row(
            format!("local arithmetic, {n} parties"),
            Case::joint(programs::local(n), MAX_TURNS, LITTLE_ROOM),
        ));
        rows.push(row(
            format!("SHARE and REVEAL, {n} parties"),
            Case::joint(programs::sharing(n), MAX_TURNS, room_for(MAX_TURNS)),
        ));
        rows.push(row(
            format!("CALL of itself, {n} parties"),
            Case::joint(programs::calling(n), MAX_TURNS, LITTLE_ROOM),
        ));
    }
    Table { title: "Joint run, 65,535 turns", of: "program", unit: "turn", rows }
}

fn short_runs() -> Table {
    let example = |run: Run| Case { program: programs::example(), counts: vec![1, 0], inputs: vec![7], run, room: 26 };
    let turns = vec![0, 0, 0, 0, 0, 1, 1, 1, 1, 0];
    let long = || programs::long(16, 1_024);
    let rows = vec![
        row("single run, the worked example".into(), example(Run::Single { budget: 100 })),
        row("joint run, the worked example".into(), example(Run::Joint { turns })),
        row("single run, 1,024 nodes, 16 parties, 16 steps".into(), Case::single(long(), 16, LITTLE_ROOM)),
        row("joint run, 1,024 nodes, 16 parties, 16 turns".into(), Case::joint(long(), 16, LITTLE_ROOM)),
    ];
    Table { title: "Short runs", of: "call", unit: "step or turn", rows }
}

fn by_nodes() -> Table {
    let case = |nodes| Case::single(programs::long(2, nodes), 1_000_000, LITTLE_ROOM);
    let rows = [16, 64, 256, 1_024].map(|nodes| row(format!("{} nodes", grouped(nodes)), case(nodes))).into();
    Table {
        title: "By the program's length (single run, arithmetic over all nodes, 2 parties)",
        of: "nodes",
        unit: "step",
        rows,
    }
}

fn by_record() -> Table {
    let case = |bytes: usize| Case::single(programs::sharing(2), (bytes / 11 * 5) as u32, bytes + 32);
    let rows =
        [1_000, 16_000, 256_000, 4_000_000].map(|bytes| row(format!("{} bytes", grouped(bytes)), case(bytes))).into();
    Table {
        title: "By the record's length (single run, SHARE and REVEAL, 2 parties)",
        of: "each record",
        unit: "step",
        rows,
    }
}

fn by_parties() -> Table {
    let mut rows = Vec::new();
    for n in [1, 2, 4, 8, 16] {
        let steps = 200_000;
        rows.push(row(format!("{n}, single run, local"), Case::single(programs::local(n), steps, LITTLE_ROOM)));
        rows.push(row(
            format!("{n}, single run, SHARE and REVEAL"),
            Case::single(programs::sharing(n), steps, room_for(steps as usize)),
        ));
        rows.push(row(format!("{n}, joint run, local"), Case::joint(programs::local(n), MAX_TURNS, LITTLE_ROOM)));
        rows.push(row(
            format!("{n}, joint run, SHARE and REVEAL"),
            Case::joint(programs::sharing(n), MAX_TURNS, room_for(MAX_TURNS)),
        ));
    }
    Table { title: "By the number of parties", of: "parties", unit: "step or turn", rows }
}

fn by_turns() -> Table {
    let mut rows = Vec::new();
    for turns in [1_000, 4_000, 16_000, MAX_TURNS] {
        rows.push(row(format!("{} turns, local", grouped(turns)), Case::joint(programs::local(8), turns, LITTLE_ROOM)));
        rows.push(row(
            format!("{} turns, SHARE and REVEAL", grouped(turns)),
            Case::joint(programs::sharing(8), turns, room_for(turns)),
        ));
    }
    for steps in [1_000_usize, 10_000, 100_000, 1_000_000] {
        rows.push(row(
            format!("{} steps, local", grouped(steps)),
            Case::single(programs::local(8), steps as u32, LITTLE_ROOM),
        ));
    }
    Table {
        title: "By the number of turns or steps (joint and single run, 8 parties)",
        of: "length",
        unit: "turn or step",
        rows,
    }
}

/// Every table, in the order of the report.
pub fn all() -> Vec<Table> {
    let tables = [single_runs, joint_runs, short_runs, by_nodes, by_record, by_parties, by_turns];
    tables.into_iter().map(|table| table()).collect()
}
