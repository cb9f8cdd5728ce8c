//! Damage to log and graph files: one or two faults at a time, so that the order of the
//! refusals is tried as well as each of them.
// All faults are of one type, and some of them change the length.
#![allow(clippy::ptr_arg)]
use super::Prng;
use crate::door::Form;

type Fault = fn(&mut Prng, &mut Vec<u8>);

const LOG_FAULTS: [Fault; 12] = [
    cut,
    longer,
    letters,
    edition,
    log_size,
    log_count,
    log_length,
    log_totals,
    log_offset,
    log_body,
    any_byte,
    shorter_by_one,
];

const GRAPH_FAULTS: [Fault; 16] = [
    cut,
    longer,
    letters,
    edition,
    cut_at_a_head,
    graph_size,
    graph_events,
    graph_marking,
    graph_count,
    graph_offset,
    graph_key,
    graph_row,
    graph_row_twice_bad,
    graph_two_rows,
    any_byte,
    shorter_by_one,
];

pub fn log(prng: &mut Prng, sound: &[u8]) -> Vec<u8> {
    damaged(prng, sound, &LOG_FAULTS)
}

pub fn graph(prng: &mut Prng, sound: &[u8]) -> Vec<u8> {
    damaged(prng, sound, &GRAPH_FAULTS)
}

fn damaged(prng: &mut Prng, sound: &[u8], faults: &[Fault]) -> Vec<u8> {
    let mut bytes = sound.to_vec();
    for _ in 0..prng.one_of(&[1, 1, 2, 2, 3]) {
        let fault = prng.one_of(faults);
        fault(prng, &mut bytes);
    }
    bytes
}

/// Writes where there is such a byte.
fn put(bytes: &mut [u8], at: usize, value: u8) {
    if let Some(place) = bytes.get_mut(at) {
        *place = value;
    }
}

fn put_two(bytes: &mut [u8], at: usize, value: usize) {
    put(bytes, at, value as u8);
    put(bytes, at + 1, (value >> 8) as u8);
}

fn get_two(bytes: &[u8], at: usize) -> usize {
    let byte = |at: usize| usize::from(bytes.get(at).copied().unwrap_or(0));
    byte(at) + 256 * byte(at + 1)
}

fn cut(prng: &mut Prng, bytes: &mut Vec<u8>) {
    let kept = prng.within(0, bytes.len());
    bytes.truncate(kept);
}

fn shorter_by_one(_: &mut Prng, bytes: &mut Vec<u8>) {
    bytes.pop();
}

fn longer(prng: &mut Prng, bytes: &mut Vec<u8>) {
    for _ in 0..prng.one_of(&[1, 1, 2, 9]) {
        bytes.push(prng.byte());
    }
}

fn letters(prng: &mut Prng, bytes: &mut Vec<u8>) {
    let at = prng.below(3);
    let value = prng.one_of(&[0, 1, 2, 3, 66, 71, 76, 255]);
    put(bytes, at, value);
}

/// The other edition, or none.
fn edition(prng: &mut Prng, bytes: &mut Vec<u8>) {
    let value = prng.one_of(&[0, 1, 2, 1, 2, 3]);
    put(bytes, 2, value);
}

/// As long as a head of either edition, or nearly.
fn cut_at_a_head(prng: &mut Prng, bytes: &mut Vec<u8>) {
    let kept = prng.one_of(&[51, 52, 83, 84]);
    bytes.resize(kept, 0);
}

fn any_byte(prng: &mut Prng, bytes: &mut Vec<u8>) {
    if !bytes.is_empty() {
        let at = prng.below(bytes.len());
        bytes[at] = prng.byte();
    }
}

fn log_size(prng: &mut Prng, bytes: &mut Vec<u8>) {
    let value = prng.one_of(&[0, 1, 2, 63, 64, 65, 97, 128, 129, 255]);
    put(bytes, 3, value);
}

fn log_count(prng: &mut Prng, bytes: &mut Vec<u8>) {
    let stood = get_two(bytes, 4);
    let value = prng.one_of(&[0, 1, 1023, 1024, 1025, 1026, 65535, stood + 1, stood + 256]);
    put_two(bytes, 4, value);
}

/// The place of a random entry; near the end of the bytes where T lies.
fn log_entry(prng: &mut Prng, bytes: &[u8]) -> usize {
    let count = get_two(bytes, 4).clamp(1, 1024);
    6 + 4 * prng.below(count)
}

fn log_length(prng: &mut Prng, bytes: &mut Vec<u8>) {
    let at = log_entry(prng, bytes) + 2;
    let stood = get_two(bytes, at);
    let value = prng.one_of(&[0, 1, 511, 512, 513, 514, 65535, stood + 1, stood + 512]);
    put_two(bytes, at, value);
}

/// Many entries of the greatest length, with sound offsets, and sometimes one wrong.
fn log_totals(prng: &mut Prng, bytes: &mut Vec<u8>) {
    let count = prng.one_of(&[63, 64, 65, 66, 100]);
    bytes.truncate(6);
    bytes.resize(6 + 4 * count, 0);
    put_two(bytes, 4, count);
    for k in 0..count {
        put_two(bytes, 6 + 4 * k, 512 * k);
        put_two(bytes, 8 + 4 * k, 512);
    }
    if prng.percent(50) {
        let at = 6 + 4 * prng.one_of(&[62, 63, 64]);
        put_two(bytes, at, 7);
    }
    // Rarely just enough: the log is then accepted, and a long one takes the judge long.
    let full = 512 * count;
    let bodies = prng.one_of(&[0, 0, 0, full - 1, full - 1, full + 1, full + 1, full]);
    bytes.resize(6 + 4 * count + bodies, 0);
}

fn log_offset(prng: &mut Prng, bytes: &mut Vec<u8>) {
    let at = log_entry(prng, bytes);
    let stood = get_two(bytes, at);
    let value = prng.one_of(&[0, 1, stood + 1, stood.wrapping_sub(1), stood + 256, 65535]);
    put_two(bytes, at, value);
}

fn log_body(prng: &mut Prng, bytes: &mut Vec<u8>) {
    let start = 6 + 4 * get_two(bytes, 4);
    if bytes.len() > start {
        let at = prng.within(start, bytes.len() - 1);
        let a = bytes[3];
        bytes[at] = prng.one_of(&[a, a.wrapping_add(1), 64, 128, 255]);
    }
}

fn graph_size(prng: &mut Prng, bytes: &mut Vec<u8>) {
    let stood = bytes.get(3).copied().unwrap_or(0);
    let value = prng.one_of(&[0, 63, 64, 65, 97, 128, 129, 255, stood.wrapping_sub(1)]);
    put(bytes, 3, value);
}

/// Turns one bit of the set that starts here.
fn turn(prng: &mut Prng, bytes: &mut [u8], at: usize) {
    let at = at + prng.below(Form::in_file(bytes).set);
    if let Some(byte) = bytes.get_mut(at) {
        *byte ^= 1 << prng.below(8);
    }
}

fn graph_events(prng: &mut Prng, bytes: &mut Vec<u8>) {
    turn(prng, bytes, 4);
}

fn graph_marking(prng: &mut Prng, bytes: &mut Vec<u8>) {
    let size = Form::in_file(bytes).set;
    let set = 4 + size * prng.within(1, 3);
    turn(prng, bytes, set);
}

/// Where a file of this edition has its entries.
fn contents(bytes: &[u8]) -> usize {
    4 + 4 * Form::in_file(bytes).set
}

fn graph_count(prng: &mut Prng, bytes: &mut Vec<u8>) {
    let at = contents(bytes) + 2 + 4 * prng.below(4);
    let stood = get_two(bytes, at);
    let value = prng.one_of(&[
        0,
        64,
        65,
        66,
        128,
        129,
        256,
        65535,
        stood + 1,
        stood.wrapping_sub(1),
    ]);
    put_two(bytes, at, value);
}

fn graph_offset(prng: &mut Prng, bytes: &mut Vec<u8>) {
    let at = contents(bytes) + 4 * prng.below(4);
    let stood = get_two(bytes, at);
    let value = prng.one_of(&[0, 9, 17, stood + 9, stood + 17, stood + 1, stood + 256]);
    put_two(bytes, at, value);
}

/// The place of a random row, where there is one.
fn graph_row_at(prng: &mut Prng, bytes: &[u8]) -> Option<usize> {
    let form = Form::in_file(bytes);
    let rows = bytes.len().saturating_sub(form.first_row()) / form.row();
    (rows > 0).then(|| form.first_row() + form.row() * prng.below(rows))
}

fn graph_key(prng: &mut Prng, bytes: &mut Vec<u8>) {
    if let Some(at) = graph_row_at(prng, bytes) {
        let stood = bytes[at];
        let value = prng.one_of(&[
            0,
            stood.wrapping_sub(1),
            stood.wrapping_add(1),
            63,
            64,
            128,
            200,
            255,
        ]);
        put(bytes, at, value);
    }
}

/// An empty row, a bit turned, or two rows of the same key.
fn graph_row(prng: &mut Prng, bytes: &mut Vec<u8>) {
    let Some(at) = graph_row_at(prng, bytes) else {
        return;
    };
    let row = Form::in_file(bytes).row();
    match prng.below(3) {
        0 => bytes[at + 1..at + row].fill(0),
        1 => turn(prng, bytes, at + 1),
        _ => {
            let key = bytes[at];
            put(bytes, at + row, key);
        }
    }
}

/// 5 and 6 in the same row: no event for a key, and empty or not above the one before.
fn graph_row_twice_bad(prng: &mut Prng, bytes: &mut Vec<u8>) {
    let Some(at) = graph_row_at(prng, bytes) else {
        return;
    };
    let row = Form::in_file(bytes).row();
    if prng.percent(50) {
        bytes[at + 1..at + row].fill(0);
        bytes[at] = prng.one_of(&[63, 64, 128, 255]);
    } else {
        bytes[at] = 0;
        bytes[at + 1..at + row].fill(255);
    }
}

/// A row with a 6, and somewhere else one with a 5: the earlier one decides.
fn graph_two_rows(prng: &mut Prng, bytes: &mut Vec<u8>) {
    if let Some(at) = graph_row_at(prng, bytes) {
        let row = Form::in_file(bytes).row();
        bytes[at + 1..at + row].fill(0);
    }
    if let Some(at) = graph_row_at(prng, bytes) {
        bytes[at] = 255;
    }
}
