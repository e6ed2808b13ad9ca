//! What the figures were taken on.
use std::fs;

/// The processor's model, as the system names it.
fn processor() -> String {
    let info = fs::read_to_string("/proc/cpuinfo").unwrap_or_default();
    let model = info.lines().find_map(|line| line.strip_prefix("model name")?.split_once(':'));
    model.map_or("a processor that the system does not name".into(), |(_, name)| name.trim().into())
}

fn cores() -> usize {
    std::thread::available_parallelism().map_or(1, |cores| cores.get())
}

/// What `bench/run` found out and handed over, or a word for its lack.
fn handed(name: &str) -> String {
    std::env::var(name).ok().filter(|text| !text.is_empty()).unwrap_or_else(|| "not said".into())
}

/// How many programs wanted to run, on average over the last minute.
fn load() -> String {
    let averages = fs::read_to_string("/proc/loadavg").unwrap_or_default();
    averages.split(' ').next().filter(|load| !load.is_empty()).unwrap_or("not said").into()
}

/// The lines at the head of the report, as things are before the measuring.
pub fn lines() -> Vec<String> {
    let emulated = match std::env::var("BENCH_EMULATOR") {
        Ok(emulator) if !emulator.is_empty() => {
            format!("RUN UNDER AN EMULATOR ({emulator}): the machine is not x86-64, and these figures say nothing about speed.")
        }
        _ => "Run by the processor itself, without an emulator.".into(),
    };
    vec![
        format!("- Machine: {}, {} cores, {}. {emulated}", processor(), cores(), handed("BENCH_SYSTEM")),
        format!("- Date: {}. Load of the machine when the measuring began: {}.", handed("BENCH_DATE"), load()),
        format!(
            "- Threadmolar's archive: {}; the Rust of the plain machine: {}, opt-level 3, lto, no target-cpu.",
            handed("BENCH_KIT"),
            handed("BENCH_RUSTC")
        ),
    ]
}
