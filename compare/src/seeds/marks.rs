//! Labels and guesses: a byte for each trace, sound and not.
use super::{damage, graphs, log_file, logs, Prng};
use crate::door::{FULL, GRAPH_ROOM, LIGHT};
use crate::judge;
use crate::yardstick::door::DOOR;

/// So many bytes of 0 and 1: by chance, all zeros, all ones.
pub fn sound(prng: &mut Prng, count: usize) -> Vec<u8> {
    let ones = prng.one_of(&[0, 30, 50, 80, 100]);
    (0..count).map(|_| u8::from(prng.percent(ones))).collect()
}

/// The same, now and then too few, too many, or with a 2 or a 255 in it; both at once too.
pub fn labels(prng: &mut Prng, count: usize) -> Vec<u8> {
    let mut bytes = sound(prng, count);
    if prng.percent(15) && count > 0 {
        let at = prng.below(count);
        bytes[at] = prng.one_of(&[2, 255, 3, 128]);
    }
    if prng.percent(15) {
        let length = prng.one_of(&[0, count.saturating_sub(1), count + 1, 2 * count + 1]);
        bytes.resize(length, prng.one_of(&[0, 1, 2]));
    }
    bytes
}

/// A graph file and a log to try it on: the graph of a log with that log or with its calls
/// changed, of another log, or any graph; with activities that the graph lacks. Now and then
/// one of them is damaged.
pub fn case(prng: &mut Prng) -> (Vec<u8>, Vec<u8>) {
    let log = prng.one_of(&[logs::adversarial, logs::process_like, logs::few_variants])(prng);
    let log = logs::either_size(prng, log);
    let file = match prng.below(4) {
        0 => graphs::file(&graphs::value(prng)),
        1 => {
            let other = logs::adversarial(prng);
            let other = logs::either_size(prng, other);
            mined(prng, &other)
        }
        _ => mined(prng, &log),
    };
    let tried = match prng.below(3) {
        0 => log,
        _ => changed(prng, &log),
    };
    match prng.below(6) {
        0 => (damage::graph(prng, &file), tried),
        1 => (file, damage::log(prng, &tried)),
        2 if prng.percent(30) => (damage::graph(prng, &file), damage::log(prng, &tried)),
        _ => (file, tried),
    }
}

fn mined(prng: &mut Prng, log: &[u8]) -> Vec<u8> {
    let mut file = vec![0; GRAPH_ROOM];
    let given = (DOOR.mine)(log, prng.one_of(&[FULL, LIGHT]), &mut file);
    file.truncate((given / 256) as usize);
    file
}

/// The log with some of its calls changed, over one activity more where there is room.
fn changed(prng: &mut Prng, log: &[u8]) -> Vec<u8> {
    let Ok(sound) = judge::log::read(log) else {
        return log.to_vec();
    };
    let a = (sound.a + 1).min(128);
    let steps = graphs::Steps {
        a,
        ..graphs::Steps::from(&sound)
    };
    let traces: Vec<Vec<u8>> = sound
        .traces
        .iter()
        .map(|trace| match prng.below(3) {
            0 => trace.clone(),
            _ => {
                let mut other = graphs::changed_trace(prng, trace, steps);
                other.retain(|&e| e < a);
                other.truncate(trace.len());
                other
            }
        })
        .collect();
    log_file(a, &traces)
}
