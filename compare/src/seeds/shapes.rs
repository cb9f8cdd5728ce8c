//! The benchmark's shapes of log, each at a wished number of events.
use super::process::{build, run_of, shuffled, Process};
use super::{log_file, Prng};

pub const SIZES: [usize; 4] = [4096, 8192, 16384, 32768];

/// A maker of one trace, at most 512 events.
type Trace = Box<dyn FnMut(&mut Prng) -> Vec<u8>>;
/// Prepares what all traces of a log have in common.
type Shape = fn(&mut Prng) -> (u8, Trace);

pub const SHAPES: [(&str, Shape); 9] = [
    ("process-like", process_like::<60>),
    ("few variants", few_variants),
    ("long traces", long_traces),
    ("all distinct", all_distinct::<64>),
    ("random", random::<64>),
    ("cyclic", cyclic::<64>),
    ("long process", long_process::<64>),
    ("nested rounds", nested_rounds),
    ("common prefix", common_prefix),
];

/// Of more than 64 activities (02, 10/12).
pub const WIDE: [(&str, Shape); 5] = [
    ("process-like", process_like::<97>),
    ("all distinct", all_distinct::<128>),
    ("random", random::<128>),
    ("cyclic", cyclic::<128>),
    ("long process", long_process::<128>),
];

/// Traces of this shape until there are just so many events.
pub fn of_size(shape: Shape, events: usize, seed: u64) -> Vec<u8> {
    let mut prng = Prng::new(seed);
    let (a, mut make) = shape(&mut prng);
    let mut traces = Vec::new();
    let mut total = 0;
    while total < events {
        let mut trace = make(&mut prng);
        trace.truncate(events - total);
        total += trace.len();
        traces.push(trace);
    }
    log_file(a, &traces)
}

/// The paper's Table 4: 40 traces of about 12 events over 30 to 48 activities.
pub fn small(seed: u64) -> Vec<u8> {
    let mut prng = Prng::new(seed);
    let a = prng.within(30, 48) as u8;
    let order = shuffled(&mut prng, a);
    let process = build(&mut prng, &order);
    let mut traces = Vec::new();
    while traces.len() < 40 {
        let most = prng.within(9, 15);
        let run = run_of(&process, &mut prng, 512);
        let start = prng.below(run.len().max(1));
        let trace = run[start..]
            .iter()
            .chain(&run[..start])
            .take(most)
            .copied()
            .collect();
        traces.push(trace);
    }
    log_file(a, &traces)
}

/// With at most 1,024 traces a log of 32,768 events needs 32 a trace.
fn at_least(process: &Process, prng: &mut Prng, least: usize) -> Vec<u8> {
    let mut trace = Vec::new();
    while trace.len() < least {
        let before = trace.len();
        process.run(prng, &mut trace);
        if trace.len() == before {
            trace.push(0);
        }
    }
    trace.truncate(512);
    trace
}

fn process_like<const A: u8>(prng: &mut Prng) -> (u8, Trace) {
    let order = shuffled(prng, A);
    let process = build(prng, &order);
    (A, Box::new(move |prng| at_least(&process, prng, 33)))
}

fn few_variants(prng: &mut Prng) -> (u8, Trace) {
    let (a, mut make) = process_like::<60>(prng);
    let variants: Vec<Vec<u8>> = (0..8).map(|_| make(prng)).collect();
    (a, Box::new(move |prng| variants[prng.below(8)].clone()))
}

fn long_traces(prng: &mut Prng) -> (u8, Trace) {
    let order = shuffled(prng, 48);
    let process = build(prng, &order);
    (48, Box::new(move |prng| at_least(&process, prng, 512)))
}

/// No activity twice in a trace, and no two traces alike.
fn all_distinct<const A: u8>(_: &mut Prng) -> (u8, Trace) {
    (A, Box::new(|prng| shuffled(prng, A)))
}

fn random<const A: u8>(_: &mut Prng) -> (u8, Trace) {
    (
        A,
        Box::new(|prng| {
            (0..prng.within(33, 63))
                .map(|_| prng.below(usize::from(A)) as u8)
                .collect()
        }),
    )
}

/// All activities in their order, round after round: whoever looks back for what stands since the
/// last e finds all of it, and has to look back a whole round.
fn cyclic<const A: u8>(_: &mut Prng) -> (u8, Trace) {
    let round = |i: usize| (i % usize::from(A)) as u8;
    (A, Box::new(move |_| (0..512).map(round).collect()))
}

/// Runs of one process over all activities, one after another: rounds, with some left out.
fn long_process<const A: u8>(prng: &mut Prng) -> (u8, Trace) {
    let order = shuffled(prng, A);
    let process = build(prng, &order);
    (A, Box::new(move |prng| at_least(&process, prng, 512)))
}

/// A round of k is two rounds of k - 1 with a k after the first, as the marks of a ruler.
fn nested_rounds(_: &mut Prng) -> (u8, Trace) {
    let ruler = |i: u32| (i + 1).trailing_zeros() as u8;
    (10, Box::new(move |_| (0..512).map(ruler).collect()))
}

/// The same first 40 steps, then any.
fn common_prefix(prng: &mut Prng) -> (u8, Trace) {
    let prefix: Vec<u8> = shuffled(prng, 64)[..40].to_vec();
    let mut tail = random::<64>(prng).1;
    let trace = move |prng: &mut Prng| prefix.iter().copied().chain(tail(prng)).collect();
    (64, Box::new(trace))
}
