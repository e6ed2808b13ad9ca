//! Measures Threadmolar against the plain machine and writes the tables: `threadmolar-bench FILE`.
//! Both get the same input and the same buffers on the same machine, in turn.
mod cases;
#[path = "../../bindings/rust/tests/support/encoding.rs"]
mod encoding;
mod machine;
mod measure;
#[path = "../../bindings/rust/tests/plain/mod.rs"]
mod plain;
mod programs;
mod report;
mod tables;

use std::path::Path;
use std::process::ExitCode;

fn main() -> ExitCode {
    let Some(file) = std::env::args().nth(1) else {
        eprintln!("usage: threadmolar-bench FILE");
        return ExitCode::from(2);
    };
    if !threadmolar::LINKED {
        eprintln!("this was built without libthreadmolar.a: `bin/staticlib` makes it, for x86-64 Linux");
        return ExitCode::from(2);
    }
    let machine = machine::lines();
    let tables = tables::all();
    match report::write(Path::new(&file), &machine, &tables) {
        Ok(()) => ExitCode::SUCCESS,
        Err(error) => {
            eprintln!("{file}: {error}");
            ExitCode::from(2)
        }
    }
}
