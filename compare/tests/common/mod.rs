//! What the tests share: log L and its graph's file as 01 gives them, and short calls.
#![allow(dead_code)]
use compare::door::{Door, Form, FULL, GRAPH_ROOM, LISTING_ROOM};
use compare::seeds::{graphs, log_file};
use compare::value::MarkingValue;
use compare::{judge, port, yardstick};

/// Log L, byte by byte from 01.
pub const L: [u8; 19] = [66, 76, 1, 3, 2, 0, 0, 0, 3, 0, 3, 0, 2, 0, 0, 1, 2, 0, 2];

/// The file of G, put together by hand from L's listing and 01's layout.
pub fn g_file() -> Vec<u8> {
    let mut file = vec![66, 71, 1, 3];
    for low in [7, 0, 0, 7] {
        file.extend([low, 0, 0, 0, 0, 0, 0, 0]);
    }
    file.extend([0, 0, 2, 0, 18, 0, 2, 0, 36, 0, 1, 0, 45, 0, 3, 0]);
    let rows = [
        (1, 1),
        (2, 1),
        (0, 4),
        (1, 4),
        (0, 2),
        (0, 1),
        (1, 2),
        (2, 6),
    ];
    for (key, low) in rows {
        file.extend([key, low, 0, 0, 0, 0, 0, 0, 0]);
    }
    file
}

/// Judge, yardstick, and the proved code where it is linked.
pub fn doors() -> Vec<Door> {
    let mut all = vec![judge::door::DOOR, yardstick::door::DOOR];
    all.extend(port::door());
    all
}

pub fn log(a: u8, traces: &[&[u8]]) -> Vec<u8> {
    let traces: Vec<Vec<u8>> = traces.iter().map(|trace| trace.to_vec()).collect();
    log_file(a, &traces)
}

pub fn listing(door: &Door, log: &[u8]) -> String {
    listing_in(door, log, FULL)
}

pub fn listing_in(door: &Door, log: &[u8], profile: u8) -> String {
    let mut out = vec![0; LISTING_ROOM];
    let length = (door.listing)(log, profile, &mut out) / 256;
    String::from_utf8(out[..length as usize].to_vec()).expect("text")
}

/// The pairs of the listing, "C 0 1, R 0 2" and so on.
pub fn pairs(door: &Door, log: &[u8]) -> String {
    pairs_in(door, log, FULL)
}

pub fn pairs_in(door: &Door, log: &[u8], profile: u8) -> String {
    let text = listing_in(door, log, profile);
    let lines: Vec<&str> = text
        .lines()
        .skip(1)
        .filter(|line| !line.starts_with('T'))
        .collect();
    lines.join(", ")
}

/// The pairs of one relation only.
pub fn pairs_of(door: &Door, relation: char, log: &[u8]) -> String {
    let all = pairs(door, log);
    let kept: Vec<&str> = all
        .split(", ")
        .filter(|pair| pair.starts_with(relation))
        .collect();
    kept.join(", ")
}

pub fn has(door: &Door, log: &[u8], pair: &str) -> bool {
    pairs(door, log).split(", ").any(|found| found == pair)
}

/// The number of mining into a buffer with room for any graph.
pub fn mined_number(door: &Door, log: &[u8]) -> u64 {
    (door.mine)(log, FULL, &mut vec![0; GRAPH_ROOM]) % 256
}

/// A lent marking of at most 64 activities, and its length.
pub const MARKING: usize = Form::NARROW.marking();

pub fn marking_bytes(marking: &MarkingValue) -> [u8; MARKING] {
    let bytes = graphs::marking_bytes(marking, Form::NARROW);
    bytes.try_into().expect("a narrow one has 32 bytes")
}

/// number, blocker, place, accepting
pub type Outcome = (u64, u64, u64, bool);

pub fn replay(door: &Door, file: &[u8], trace: &[u8]) -> Outcome {
    let result = (door.replay)(file, trace);
    let accepting = result >> 32 & 255;
    assert!(accepting < 2, "{} {result}", door.name);
    let place = result % (1 << 32) / 256;
    (result % 256, result >> 40, place, accepting == 1)
}

/// The number of a step, and its blocker: together all that a step gives.
pub fn answer(result: u64) -> (u64, u64) {
    assert_eq!(result % (1 << 40) / 256, 0, "{result}");
    (result % 256, result >> 40)
}
