//! The tables as text, in the marked section of a file.
use crate::measure::Measured;
use crate::tables::Table;
use std::fmt::Write as _;
use std::path::Path;
use std::{fs, io};

const BEGIN: &str = "<!-- speed: begin (written by bench/run) -->";
const END: &str = "<!-- speed: end -->";

const HOW: &str = "\
Threadmolar, called over the C boundary from Rust, against a plain implementation of document 01 in Rust (bindings/rust/tests/plain), written for clearness from document 01's words alone.
The plain one keeps its state in structs with fixed arrays and allocates nothing per step; it decodes the program once into a list of nodes; LET copies the sixteen bindings into a frame and handing back copies them out.
Both get the same input and the same buffers, whole calls are timed (check of the program, clearing of the working area and all), and before it is timed each row's answer, records, lengths and working area are compared.
Samples are taken in turn, by processor time. A ratio above 1 says that Threadmolar is faster; it is the median over pairs of samples next to each other, with the least and the greatest.
";

fn rate(nanoseconds: f64) -> String {
    format!("{:.1}", 1e3 / nanoseconds)
}

fn line(name: &str, m: &Measured) -> String {
    let Measured { ours, theirs, ratio, .. } = m;
    format!(
        "| {name} | {} | {:.1} ({:.1} to {:.1}) | {} | {:.1} ({:.1} to {:.1}) | **{:.2}** ({:.2} to {:.2}) |",
        rate(ours.middle),
        ours.middle,
        ours.least,
        ours.greatest,
        rate(theirs.middle),
        theirs.middle,
        theirs.least,
        theirs.greatest,
        ratio.middle,
        ratio.least,
        ratio.greatest,
    )
}

fn table(out: &mut String, table: &Table) {
    let Table { title, of, unit, rows } = table;
    let _ = writeln!(out, "### {title}\n");
    let _ = writeln!(
        out,
        "| {of} | Threadmolar, million a second | ns a {unit} | plain, million a second | ns a {unit} | ratio |"
    );
    let _ = writeln!(out, "|---|---|---|---|---|---|");
    for row in rows {
        let _ = writeln!(out, "{}", line(&row.name, &row.measured));
    }
    let _ = writeln!(out);
}

/// How many rows there are in which Threadmolar is slower, and the slowest.
fn short_of_one(tables: &[Table]) -> String {
    let mut rows: Vec<_> = tables.iter().flat_map(|table| table.rows.iter().map(move |row| (table, row))).collect();
    rows.sort_by(|(_, a), (_, b)| a.measured.ratio.middle.total_cmp(&b.measured.ratio.middle));
    let slower = rows.iter().filter(|(_, row)| row.measured.ratio.middle < 1.0).count();
    let (table, row) = rows[0];
    format!(
        "In {slower} of {} rows Threadmolar is slower. The least ratio is {:.2} ({}: {}), the median of all rows {:.2}.\n",
        rows.len(),
        row.measured.ratio.middle,
        table.title,
        row.name,
        rows[rows.len() / 2].1.measured.ratio.middle,
    )
}

fn section(machine: &[String], tables: &[Table]) -> String {
    let mut out = format!("{BEGIN}\n## Speed\n\n{HOW}\n");
    for line in machine {
        let _ = writeln!(out, "{line}");
    }
    let _ = writeln!(out, "\n{}", short_of_one(tables));
    for each in tables {
        table(&mut out, each);
    }
    out + END + "\n"
}

/// The file with its marked section replaced; with the section at its end where it has none.
fn placed(old: &str, section: &str) -> String {
    match (old.find(BEGIN), old.find(END)) {
        (Some(begin), Some(end)) if begin < end => {
            let rest = old[end + END.len()..].strip_prefix('\n').unwrap_or(&old[end + END.len()..]);
            format!("{}{section}{rest}", &old[..begin])
        }
        _ if old.is_empty() => format!("# Measured\n\n{section}"),
        _ => format!("{}\n\n{section}", old.trim_end()),
    }
}

pub fn write(file: &Path, machine: &[String], tables: &[Table]) -> io::Result<()> {
    let old = match fs::read_to_string(file) {
        Ok(text) => text,
        Err(error) if error.kind() == io::ErrorKind::NotFound => String::new(),
        Err(error) => return Err(error),
    };
    let section = section(machine, tables);
    print!("{section}");
    fs::write(file, placed(&old, &section))
}
