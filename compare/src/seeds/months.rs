//! Months: the calls of a log shared out among some logs, each with an A of its own, and tallies
//! that no log gives.
use super::{log_file, logs, Prng};
use crate::door::TALLY_ROOM;
use crate::judge::log;

/// Logs whose calls belong together. Each has no more activities than it needs, or as many as
/// it likes; some have no call, and A 0.
pub fn year(prng: &mut Prng) -> Vec<Vec<u8>> {
    let make = prng.one_of(&[
        logs::adversarial,
        logs::ordered_parts,
        logs::chains,
        logs::absent,
        logs::few_variants,
    ]);
    let whole = log::read(&make(prng)).expect("sound kinds");
    let mut months = vec![Vec::new(); prng.within(1, 4)];
    for trace in whole.traces {
        // a call may come again in another month
        for _ in 0..prng.within(1, 2) {
            let month = prng.below(months.len());
            months[month].push(trace.clone());
        }
    }
    months.iter().map(|traces| month(prng, traces)).collect()
}

fn month(prng: &mut Prng, traces: &[Vec<u8>]) -> Vec<u8> {
    let needed = traces.iter().flatten().map(|&e| e + 1).max().unwrap_or(0);
    let a = match prng.below(3) {
        0 => prng.within(usize::from(needed), 64) as u8,
        _ => needed,
    };
    log_file(a, traces)
}

/// Two logs of the most calls, short ones, and of more than 32,768 events together.
pub fn large(prng: &mut Prng) -> Vec<Vec<u8>> {
    let mut one = |a: u8| {
        let trace = |prng: &mut Prng| (0..20).map(|_| prng.below(usize::from(a)) as u8).collect();
        log_file(a, &(0..1024).map(|_| trace(prng)).collect::<Vec<_>>())
    };
    vec![one(5), one(7)]
}

/// Bytes that no log gives: any, few bits, or those of a tally with some turned; A is within its
/// limit but for every fourth. Events are few, because the judge takes its time over many.
pub fn damaged(prng: &mut Prng, tally: &[u8]) -> Vec<u8> {
    let density = prng.one_of(&[1, 8, 50, 92]);
    let mut bytes = match prng.below(3) {
        0 => tally.to_vec(),
        _ => words(prng, density),
    };
    for _ in 0..prng.below(200) {
        let at = prng.below(TALLY_ROOM);
        bytes[at] ^= 1 << prng.below(8);
    }
    bytes[0] = match prng.below(4) {
        0 => prng.one_of(&[65, 97, 128, 129, 255]),
        _ => prng.within(0, 64) as u8,
    };
    let share = prng.one_of(&[0, 5, 15]);
    let events = prng.sparse(share);
    bytes[8..16].copy_from_slice(&events.to_le_bytes());
    bytes
}

fn words(prng: &mut Prng, density: usize) -> Vec<u8> {
    // a few different words, in any order: 4,608 of their own would take longer than all else
    let some: Vec<u64> = (0..64).map(|_| prng.sparse(density)).collect();
    let word = |_| prng.one_of(&some).to_le_bytes();
    (0..TALLY_ROOM / 8).flat_map(word).collect()
}

/// A buffer of another length with these bytes first: too short by one, empty, or longer.
pub fn resized(prng: &mut Prng, tally: &[u8]) -> Vec<u8> {
    let mut bytes = tally.to_vec();
    let length = prng.one_of(&[TALLY_ROOM - 1, 0, TALLY_ROOM + 1, TALLY_ROOM + 40]);
    bytes.resize(length, 165);
    bytes
}
