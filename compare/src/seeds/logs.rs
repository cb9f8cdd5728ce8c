//! Accepted logs of many kinds, most of them small, for the comparison.
use super::process::{build, run_of, shuffled};
use super::{log_file, log_of_edition, Prng};
use crate::judge;

pub type Maker = fn(&mut Prng) -> Vec<u8>;

/// A kind's name, how many of it are made in a round (the small ones tell most and cost
/// least), and its maker.
pub const KINDS: [(&str, usize, Maker); 10] = [
    ("log: adversarial", 8, adversarial),
    ("log: one trace", 4, one_trace),
    ("log: ordered parts", 3, ordered_parts),
    ("log: chains", 3, chains),
    ("log: process-like", 1, process_like),
    ("log: few variants", 1, few_variants),
    ("log: all distinct", 1, all_distinct),
    ("log: random", 1, random),
    ("log: absent activities", 2, absent),
    ("log: empty", 1, empty),
];

fn traces(
    prng: &mut Prng,
    count: usize,
    mut one: impl FnMut(&mut Prng) -> Vec<u8>,
) -> Vec<Vec<u8>> {
    (0..count).map(|_| one(prng)).collect()
}

fn random_trace(prng: &mut Prng, a: u8, length: usize) -> Vec<u8> {
    (0..length)
        .map(|_| prng.below(usize::from(a)) as u8)
        .collect()
}

/// A few short traces over one to five activities: every rule meets its border here.
pub fn adversarial(prng: &mut Prng) -> Vec<u8> {
    let a = prng.within(1, 5) as u8;
    let count = prng.within(1, 4);
    let most = prng.within(1, 8);
    let all = traces(prng, count, |prng| {
        let length = prng.within(0, most);
        random_trace(prng, a, length)
    });
    log_file(a, &all)
}

pub fn one_trace(prng: &mut Prng) -> Vec<u8> {
    let a = prng.within(2, 6) as u8;
    let length = prng.within(1, 14);
    log_file(a, &[random_trace(prng, a, length)])
}

/// Traces that keep one order and leave things out, so that conditions and responses form
/// chains and much is never together.
pub fn ordered_parts(prng: &mut Prng) -> Vec<u8> {
    let a = prng.within(3, 10) as u8;
    let order = shuffled(prng, a);
    let keep = prng.within(30, 90);
    let count = prng.within(1, 6);
    let all = traces(prng, count, |prng| {
        order
            .iter()
            .copied()
            .filter(|_| prng.percent(keep))
            .collect()
    });
    log_file(a, &all)
}

/// A whole order in every trace, with a few strangers put in and some things repeated.
pub fn chains(prng: &mut Prng) -> Vec<u8> {
    let a = prng.within(3, 9) as u8;
    let order = shuffled(prng, a);
    let count = prng.within(1, 4);
    let all = traces(prng, count, |prng| {
        let mut trace = order.clone();
        for _ in 0..prng.below(4) {
            let place = prng.within(0, trace.len());
            trace.insert(place, prng.below(usize::from(a)) as u8);
        }
        if prng.percent(50) {
            trace.remove(prng.below(trace.len()));
        }
        trace
    });
    log_file(a, &all)
}

pub fn process_like(prng: &mut Prng) -> Vec<u8> {
    let a = prng.within(4, 24) as u8;
    let order = shuffled(prng, a);
    let process = build(prng, &order);
    let count = prng.within(1, 12);
    let all = traces(prng, count, |prng| run_of(&process, prng, 80));
    log_file(a, &all)
}

pub fn few_variants(prng: &mut Prng) -> Vec<u8> {
    let a = prng.within(3, 16) as u8;
    let order = shuffled(prng, a);
    let process = build(prng, &order);
    let variants = traces(prng, 3, |prng| run_of(&process, prng, 40));
    let count = prng.within(2, 12);
    let all = traces(prng, count, |prng| variants[prng.below(3)].clone());
    log_file(a, &all)
}

pub fn all_distinct(prng: &mut Prng) -> Vec<u8> {
    let a = prng.within(2, 20) as u8;
    let count = prng.within(1, 8);
    let all = traces(prng, count, |prng| {
        let mut order = shuffled(prng, a);
        order.truncate(prng.within(1, usize::from(a)));
        order
    });
    log_file(a, &all)
}

pub fn random(prng: &mut Prng) -> Vec<u8> {
    let a = prng.within(1, 64) as u8;
    let count = prng.within(0, 10);
    let all = traces(prng, count, |prng| {
        let length = prng.within(0, 40);
        random_trace(prng, a, length)
    });
    log_file(a, &all)
}

/// A is larger than what occurs; the highest numbers are used as well as the lowest.
pub fn absent(prng: &mut Prng) -> Vec<u8> {
    let a = prng.within(6, 64) as u8;
    let mut used = shuffled(prng, a);
    used.truncate(prng.within(1, 6));
    if prng.percent(50) {
        used[0] = a - 1;
    }
    let count = prng.within(1, 5);
    let all = traces(prng, count, |prng| {
        let length = prng.within(0, 9);
        (0..length).map(|_| prng.one_of(&used)).collect()
    });
    log_file(a, &all)
}

/// No trace, or only empty ones.
pub fn empty(prng: &mut Prng) -> Vec<u8> {
    let a = prng.one_of(&[0, 0, 1, 5, 63, 64]);
    let count = prng.one_of(&[0, 0, 1, 2, 7]);
    log_file(a, &vec![Vec::new(); count])
}

/// Of so many of a hundred logs the activities get other numbers, below 65 to 128.
const SPREAD: usize = 25;

/// As it is made, or spread over more activities than 64 (02, 10/12): its rules then meet at both sizes.
pub fn either_size(prng: &mut Prng, log: Vec<u8>) -> Vec<u8> {
    if prng.percent(SPREAD) {
        return spread(prng, &log);
    }
    log
}

/// The same traces over other numbers: some of them below 64, some above, the border's neighbours and the greatest often.
pub fn spread(prng: &mut Prng, log: &[u8]) -> Vec<u8> {
    let sound = judge::log::read(log).expect("sound kinds");
    let a = prng.one_of(&[65, 66, 97, 97, 127, 128]);
    let numbers = numbers_below(prng, a, usize::from(sound.a));
    let other = |e: &u8| numbers[usize::from(*e)];
    let traces: Vec<Vec<u8>> = sound
        .traces
        .iter()
        .map(|trace| trace.iter().map(other).collect())
        .collect();
    log_file(a, &traces)
}

/// So many different numbers below a, in any order: 0, 63, 64 and the greatest mostly among them.
pub fn numbers_below(prng: &mut Prng, a: u8, count: usize) -> Vec<u8> {
    let mut all = shuffled(prng, a);
    for (place, border) in [63, 64, a - 1, 0].into_iter().enumerate().take(count) {
        if prng.percent(70) {
            let at = all
                .iter()
                .position(|&e| e == border)
                .expect("all are there");
            all.swap(place, at);
        }
    }
    all.truncate(count);
    prng.shuffle(&mut all);
    all
}

/// At and just past every limit, in both editions. The number beside a log is what 01 and 02 say of it.
pub fn borders(prng: &mut Prng) -> Vec<(u8, Vec<u8>)> {
    let mut all = narrow_borders(prng);
    all.extend(edition_borders());
    all.extend(wide_borders(prng));
    all
}

fn narrow_borders(prng: &mut Prng) -> Vec<(u8, Vec<u8>)> {
    let full: Vec<Vec<u8>> = traces(prng, 64, |prng| random_trace(prng, 64, 512));
    let mut over = full.clone();
    over.push(vec![0]);
    let round: Vec<u8> = (0..512u32).map(|place| (place % 64) as u8).collect();
    let bytes_at_a = |a: u8, e: u8| log_file(a, &[vec![e]]);
    vec![
        (0, log_file(1, &[vec![0; 512]])),
        (3, log_file(1, &[vec![0; 513]])),
        (0, log_file(1, &vec![vec![0]; 1024])),
        (3, log_file(1, &vec![vec![0]; 1025])),
        (0, log_file(0, &vec![Vec::new(); 1024])),
        (0, bytes_at_a(64, 63)),
        (5, bytes_at_a(64, 64)),
        (5, bytes_at_a(0, 0)),
        (0, log_file(64, &full)),
        (3, log_file(64, &over)),
        (0, log_file(64, &vec![round; 64])),
        (
            0,
            log_file(64, &traces(prng, 1024, |prng| random_trace(prng, 64, 32))),
        ),
    ]
}

/// Each edition with each A at a border, with and without an event; faults before and after it in the order.
fn edition_borders() -> Vec<(u8, Vec<u8>)> {
    let mut all = Vec::new();
    for edition in [0, 1, 2, 3, 255] {
        for a in [0, 1, 5, 63, 64, 65, 66, 97, 127, 128, 129, 255] {
            let number = match (edition, a) {
                (1, ..=64) | (2, 65..=128) => 0,
                (1 | 2, _) => 3,
                _ => 2,
            };
            all.push((number, log_of_edition(edition, a, &[])));
            let mut cut = log_of_edition(edition, a, &[vec![0]]);
            cut.truncate(6);
            all.push((if number == 0 { 1 } else { number }, cut));
            let many = log_of_edition(edition, a, &vec![Vec::new(); 1025]);
            all.push((if number == 0 { 3 } else { number }, many));
            for e in [a.saturating_sub(1), a] {
                let judged = if number == 0 && e >= a { 5 } else { number };
                all.push((judged, log_of_edition(edition, a, &[vec![e]])));
            }
        }
    }
    all
}

/// Traces of any of 128 activities are many and short, or long and few: the judge takes its time.
fn wide_borders(prng: &mut Prng) -> Vec<(u8, Vec<u8>)> {
    let few: Vec<Vec<u8>> = traces(prng, 64, |prng| {
        let used = numbers_below(prng, 128, 4);
        (0..512).map(|_| prng.one_of(&used)).collect()
    });
    let mut over = few.clone();
    over.push(vec![127]);
    let alone: Vec<Vec<u8>> = (0..128).map(|e| vec![e]).collect();
    let round: Vec<u8> = (0..512u32).map(|place| (place % 128) as u8).collect();
    vec![
        (0, log_file(128, &few)),
        (3, log_file(128, &over)),
        (0, log_file(128, &[round])),
        // every pair is excluded, as many as a relation can have
        (0, log_file(128, &alone)),
        (3, log_file(97, &[vec![96; 513]])),
        (0, log_file(97, &[vec![96; 512]])),
        (
            0,
            log_file(97, &traces(prng, 1024, |prng| random_trace(prng, 97, 5))),
        ),
    ]
}

/// Short logs on which wrong readings of step 7 differ from 02, 7/12.
pub fn telling() -> Vec<Vec<u8>> {
    let logs: [(u8, &[&[u8]]); 10] = [
        (3, &[&[0, 1, 2]]),
        (4, &[&[0, 1, 2, 3], &[0, 1, 3]]),
        (3, &[&[0, 1, 0, 2]]),
        (3, &[&[0, 1, 2, 0, 1]]),
        (4, &[&[0, 1, 0, 1], &[0, 1, 2, 3]]),
        (3, &[&[0, 1, 2, 0]]),
        (4, &[&[0, 1, 2, 0, 2, 3]]),
        (4, &[&[0, 1, 2, 3, 0]]),
        (4, &[&[0, 1, 2, 3]]),
        (2, &[&[0, 1, 1]]),
    ];
    logs.iter()
        .map(|(a, traces)| log_file(*a, &traces.iter().map(|t| t.to_vec()).collect::<Vec<_>>()))
        .collect()
}

/// Every log of one trace over three activities up to this length, and every log of two
/// traces over two activities up to length four.
pub fn exhaustive(length: usize) -> Vec<Vec<u8>> {
    let mut logs: Vec<Vec<u8>> = words(3, length)
        .into_iter()
        .map(|trace| log_file(3, &[trace]))
        .collect();
    let short = words(2, 4);
    for first in &short {
        for second in &short {
            logs.push(log_file(2, &[first.clone(), second.clone()]));
        }
    }
    logs
}

/// All traces over a activities, up to this length.
fn words(a: u8, length: usize) -> Vec<Vec<u8>> {
    let mut all = vec![Vec::new()];
    let mut longest = vec![Vec::new()];
    for _ in 0..length {
        let mut longer = Vec::new();
        for word in &longest {
            for activity in 0..a {
                let mut grown: Vec<u8> = word.clone();
                grown.push(activity);
                longer.push(grown);
            }
        }
        all.extend(longer.iter().cloned());
        longest = longer;
    }
    all
}
