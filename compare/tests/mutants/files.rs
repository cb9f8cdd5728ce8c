//! Readers that judge in another order than 01's, as changes to the judge's number.
use super::{all_found, SEEDS};
use compare::door::Form;
use compare::judge::{graph_file, log, two_bytes};
use compare::seeds::{damage, graphs, logs, Prng};

type Number = fn(&[u8]) -> u8;

fn log_number(bytes: &[u8]) -> u8 {
    log::read(bytes).err().unwrap_or(0)
}

fn graph_number(bytes: &[u8]) -> u8 {
    graph_file::read(bytes).err().unwrap_or(0)
}

fn found_log(mutant: Number) -> Option<u64> {
    let mut count = 0;
    for seed in 0..SEEDS {
        let mut prng = Prng::new(seed);
        for (_, _, make) in logs::KINDS {
            let sound = make(&mut prng);
            let sound = logs::either_size(&mut prng, sound);
            let bytes = damage::log(&mut prng, &sound);
            count += 1;
            if log_number(&bytes) != mutant(&bytes) {
                return Some(count);
            }
        }
    }
    None
}

fn found_graph(mutant: Number) -> Option<u64> {
    let mut count = 0;
    for seed in 0..SEEDS {
        let mut prng = Prng::new(seed);
        let sound = graphs::file(&graphs::value(&mut prng));
        for _ in 0..12 {
            count += 1;
            let bytes = damage::graph(&mut prng, &sound);
            let untouched = graph_number(&sound) == mutant(&sound);
            if graph_number(&bytes) != mutant(&bytes) || !untouched {
                return Some(count);
            }
        }
    }
    None
}

#[test]
fn found_by_damaged_logs() {
    let mutants: [(&str, Number); 4] = [
        ("all lengths before any offset", lengths_first),
        ("bodies before the end", bodies_first),
        ("bytes after the end pass", log_tail_passes),
        ("no limit on the total", no_total),
    ];
    all_found(
        mutants
            .iter()
            .map(|&(name, mutant)| (name, found_log(mutant)))
            .collect(),
    );
}

#[test]
fn found_by_damaged_graph_files() {
    let mutants: [(&str, Number); 5] = [
        ("all 5s before any 6", fives_first),
        ("6 before 5 in a row", six_first_in_a_row),
        ("keys rise through all relations", keys_rise_on),
        ("equal keys pass", equal_keys_pass),
        ("the end before the contents", end_first),
    ];
    all_found(
        mutants
            .iter()
            .map(|&(name, mutant)| (name, found_graph(mutant)))
            .collect(),
    );
}

/// The entries of a log whose contents are all there.
fn entries(bytes: &[u8]) -> Vec<(usize, usize)> {
    let count = two_bytes(bytes, 4);
    (0..count)
        .map(|k| (two_bytes(bytes, 6 + 4 * k), two_bytes(bytes, 8 + 4 * k)))
        .collect()
}

fn lengths_first(bytes: &[u8]) -> u8 {
    match log_number(bytes) {
        4 if entries(bytes).iter().any(|&(_, length)| length > 512) => 3,
        number => number,
    }
}

/// Only where the contents were sound: there 1 and 4 are about the end.
fn bodies_first(bytes: &[u8]) -> u8 {
    let number = log_number(bytes);
    if !(number == 1 || number == 4) || bytes.len() < 6 || bytes.len() < 6 + 4 * two_bytes(bytes, 4)
    {
        return number;
    }
    let bodies = &bytes[6 + 4 * two_bytes(bytes, 4)..];
    let mut earlier = 0;
    for (offset, length) in entries(bytes) {
        if offset != earlier {
            return number;
        }
        earlier += length;
    }
    if bodies.iter().any(|&e| e >= bytes[3]) {
        return 5;
    }
    number
}

fn log_tail_passes(bytes: &[u8]) -> u8 {
    let mut shorter = bytes.to_vec();
    while log_number(&shorter) == 4 && shorter.len() > bytes.len().saturating_sub(10) {
        shorter.pop();
    }
    match log_number(&shorter) {
        0 => 0,
        _ => log_number(bytes),
    }
}

fn no_total(bytes: &[u8]) -> u8 {
    match log_number(bytes) {
        3 if graph_file::judge_activities(bytes[2], bytes[3]).is_ok()
            && two_bytes(bytes, 4) <= 1024
            && entries(bytes).iter().all(|&(_, length)| length <= 512) =>
        {
            0
        }
        number => number,
    }
}

/// The rows of a graph file that came as far as its rows: relation, key, set.
fn rows(bytes: &[u8]) -> Vec<(usize, u8, u128)> {
    let form = Form::in_file(bytes);
    let mut all = Vec::new();
    let mut at = form.first_row();
    for relation in 0..4 {
        for _ in 0..rows_of(bytes, relation) {
            all.push((relation, bytes[at], graphs::set_at(bytes, at + 1, form)));
            at += form.row();
        }
    }
    all
}

/// An entry of the contents: its offset, its number of rows.
fn offset_of(bytes: &[u8], relation: usize) -> usize {
    two_bytes(bytes, 4 + 4 * Form::in_file(bytes).set + 4 * relation)
}

fn rows_of(bytes: &[u8], relation: usize) -> usize {
    two_bytes(bytes, 6 + 4 * Form::in_file(bytes).set + 4 * relation)
}

fn stray(bytes: &[u8], key: u8, set: u128) -> bool {
    let events = graphs::set_at(bytes, 4, Form::in_file(bytes));
    key >= 128 || events >> key & 1 == 0 || set & !events != 0
}

fn fives_first(bytes: &[u8]) -> u8 {
    match graph_number(bytes) {
        6 if rows(bytes)
            .iter()
            .any(|&(_, key, set)| stray(bytes, key, set)) =>
        {
            5
        }
        number => number,
    }
}

/// A file in which only rows can be at fault, told by emptying it of them.
fn rows_reached(bytes: &[u8]) -> bool {
    let form = Form::in_file(bytes);
    let first = form.first_row();
    if bytes.len() < first || (0..4).any(|k| rows_of(bytes, k) > form.activities()) {
        return false;
    }
    let count: usize = (0..4).map(|k| rows_of(bytes, k)).sum();
    let mut head = bytes[..first].to_vec();
    head[first - 16..].fill(0);
    let offsets = (0..4).scan(0, |earlier, k| {
        let sound = offset_of(bytes, k) == form.row() * *earlier;
        *earlier += rows_of(bytes, k);
        Some(sound)
    });
    offsets.into_iter().all(|sound| sound)
        && bytes.len() == first + form.row() * count
        && graph_number(&head) == 0
}

fn six_first_in_a_row(bytes: &[u8]) -> u8 {
    if graph_number(bytes) == 5 && rows_reached(bytes) {
        let all = rows(bytes);
        let first = all.iter().position(|&(_, key, set)| stray(bytes, key, set));
        if first.is_some_and(|place| all[place].2 == 0) {
            return 6;
        }
    }
    graph_number(bytes)
}

fn keys_rise_on(bytes: &[u8]) -> u8 {
    match graph_number(bytes) {
        0 if rows(bytes).windows(2).any(|pair| pair[1].1 <= pair[0].1) => 6,
        number => number,
    }
}

fn equal_keys_pass(bytes: &[u8]) -> u8 {
    if graph_number(bytes) != 6 {
        return graph_number(bytes);
    }
    let all = rows(bytes);
    let falls = all
        .windows(2)
        .any(|pair| pair[0].0 == pair[1].0 && pair[1].1 < pair[0].1);
    let empty = all.iter().any(|&(_, _, set)| set == 0);
    if falls || empty {
        6
    } else {
        0
    }
}

fn end_first(bytes: &[u8]) -> u8 {
    let number = graph_number(bytes);
    if number != 3 || graph_file::judge_activities(bytes[2], bytes[3]).is_err() {
        return number;
    }
    let form = Form::in_file(bytes);
    let count: usize = (0..4).map(|k| rows_of(bytes, k)).sum();
    if bytes.len() < form.first_row() + form.row() * count {
        1
    } else {
        number
    }
}
