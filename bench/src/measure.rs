//! Times, taken in turn.
use crate::cases::{Case, Lent, Machine};

/// Of each machine, for each row.
const SAMPLES: usize = 11;
/// A sample is as many calls as take about so long.
const SAMPLE_SECONDS: f64 = 0.04;

/// The processor time of this process in seconds, so that other work on the machine counts little.
fn processor_seconds() -> f64 {
    #[repr(C)]
    struct Time {
        seconds: i64,
        nanoseconds: i64,
    }
    extern "C" {
        fn clock_gettime(clock: i32, time: *mut Time) -> i32;
    }
    const PROCESS: i32 = 2;
    let mut time = Time { seconds: 0, nanoseconds: 0 };
    // SAFETY: the C library writes the two numbers, as 64-bit Linux lays them out.
    assert_eq!(unsafe { clock_gettime(PROCESS, &mut time) }, 0);
    time.seconds as f64 + time.nanoseconds as f64 / 1e9
}

fn sample(case: &Case, machine: Machine, lent: &mut Lent, calls: usize) -> f64 {
    let start = processor_seconds();
    for _ in 0..calls {
        std::hint::black_box(case.call(machine, lent));
    }
    processor_seconds() - start
}

/// The middle, the least and the greatest of some numbers.
#[derive(Clone, Copy)]
pub struct Spread {
    pub middle: f64,
    pub least: f64,
    pub greatest: f64,
}

impl Spread {
    fn of(mut numbers: Vec<f64>) -> Spread {
        numbers.sort_by(f64::total_cmp);
        Spread { middle: numbers[numbers.len() / 2], least: numbers[0], greatest: numbers[numbers.len() - 1] }
    }
}

pub struct Measured {
    /// Nanoseconds of a step or turn.
    pub ours: Spread,
    pub theirs: Spread,
    /// How many times as fast Threadmolar is, of samples next to each other.
    pub ratio: Spread,
}

pub fn measure(case: &Case) -> Measured {
    case.assert_same();
    let mut lent = case.lent();
    let units = case.call(Machine::Plain, &mut lent);
    let once = sample(case, Machine::Threadmolar, &mut lent, 1).max(1e-7);
    let calls = ((SAMPLE_SECONDS / once) as usize).max(1);
    let mut times = [Vec::new(), Vec::new()];
    for round in 0..SAMPLES {
        // who is first changes
        for k in [round % 2, 1 - round % 2] {
            let machine = [Machine::Threadmolar, Machine::Plain][k];
            times[k].push(sample(case, machine, &mut lent, calls));
        }
    }
    let each = |seconds: &Vec<f64>| seconds.iter().map(|s| s * 1e9 / (units as f64 * calls as f64)).collect();
    let ratios = times[0].iter().zip(&times[1]).map(|(ours, theirs)| theirs / ours).collect();
    Measured { ours: Spread::of(each(&times[0])), theirs: Spread::of(each(&times[1])), ratio: Spread::of(ratios) }
}
