//! The comparison: `compare [ROUNDS] [--need-port] [--record=FILE]`.
//! Fails on a difference, on a number that was never seen, and, with `--need-port`, where
//! the proved code is not linked. FILE gets the calls of the functions of `port` on the fixed
//! inputs and in the first rounds, with the judge's results.
use compare::comparison::record::Record;
use compare::comparison::{rounds, Comparison};
use compare::{port, yardstick};
use std::process::ExitCode;
use std::sync::atomic::{AtomicU64, Ordering};
use std::time::Instant;

/// Well under a minute on one core.
const ROUNDS: u64 = 600;

/// So many rounds are recorded, after the fixed inputs.
const RECORDED: u64 = 40;

fn main() -> ExitCode {
    let mut count = ROUNDS;
    let mut need_port = false;
    let mut record = Record::default();
    for argument in std::env::args().skip(1) {
        match argument.parse() {
            Ok(number) => count = number,
            Err(_) if argument == "--need-port" => need_port = true,
            Err(_) => match argument.strip_prefix("--record=").map(Record::to) {
                Some(Ok(opened)) => record = opened,
                Some(Err(error)) => {
                    eprintln!("{argument}: {error}");
                    return ExitCode::from(2);
                }
                None => {
                    eprintln!("compare [ROUNDS] [--need-port] [--record=FILE]");
                    return ExitCode::from(2);
                }
            },
        }
    }
    let mut others = vec![yardstick::door::DOOR];
    others.extend(port::door());
    let linked = others.len() == 2;
    let named: Vec<&str> = others.iter().map(|door| door.name).collect();
    println!(
        "judge against {}; port linked: {linked}; {count} rounds",
        named.join(", ")
    );
    if need_port && !linked {
        println!("the port is needed and ../target/staticlib/libport.a was not there at build");
        return ExitCode::FAILURE;
    }
    if run(others, count, record) {
        ExitCode::SUCCESS
    } else {
        ExitCode::FAILURE
    }
}

/// The fixed inputs and the recorded rounds are one thread's; then every core takes the next
/// round that is left. What is counted does not depend on who took which.
fn run(others: Vec<compare::door::Door>, count: u64, record: Record) -> bool {
    let start = Instant::now();
    let recorded = count.min(RECORDED);
    let next = AtomicU64::new(recorded);
    let rest = |comparison: &mut Comparison| take_rounds(comparison, &next, count);
    let mut comparison = Comparison::with(others.clone());
    comparison.record = record;
    let cores = std::thread::available_parallelism().map_or(1, |cores| cores.get());
    std::thread::scope(|scope| {
        let helpers: Vec<_> = (1..cores)
            .map(|_| {
                let mut helper = Comparison::with(others.clone());
                let work = || {
                    rest(&mut helper);
                    helper
                };
                // as much stack as the first thread has
                let thread = std::thread::Builder::new().stack_size(8 << 20);
                thread.spawn_scoped(scope, work).expect("a thread")
            })
            .collect();
        rounds::once(&mut comparison);
        for seed in 0..recorded {
            rounds::round(&mut comparison, seed);
        }
        comparison.record.finish();
        rest(&mut comparison);
        for helper in helpers {
            comparison.join(helper.join().expect("a thread ends well"));
        }
    });
    let well = comparison.report();
    println!("took {:.1} s", start.elapsed().as_secs_f64());
    well
}

fn take_rounds(comparison: &mut Comparison, next: &AtomicU64, count: u64) {
    loop {
        let seed = next.fetch_add(1, Ordering::Relaxed);
        if seed >= count {
            return;
        }
        rounds::round(comparison, seed);
    }
}
