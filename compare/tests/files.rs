//! Refusals of log and graph files and of the reader, with numbers worked out from 01.
mod common;
use common::*;
use compare::door::FULL;
use compare::seeds::{logs::borders, Prng};
use compare::{judge, yardstick};

#[test]
fn borders_of_every_limit() {
    for (wanted, log) in borders(&mut Prng::new(5)) {
        for door in doors() {
            assert_eq!(
                mined_number(&door, &log),
                u64::from(wanted),
                "{}",
                door.name
            );
        }
    }
}

/// The order of 01 for logs: faults earlier in the order hide later ones.
#[test]
fn log_refusals_in_order() {
    let cases: [(u64, &[u8]); 14] = [
        (1, &[]),
        (1, &[0, 0, 0, 0, 0]),
        (2, &[66, 71, 1, 65, 0, 0]),
        (2, &[66, 76, 3, 65, 0, 0]),
        (3, &[66, 76, 1, 65, 1, 0]),
        (3, &[66, 76, 1, 64, 1, 4]),
        (1, &[66, 76, 1, 64, 0, 4]),
        (1, &[66, 76, 1, 1, 1, 0, 0, 0, 1]),
        (3, &[66, 76, 1, 1, 1, 0, 9, 0, 1, 2]),
        (4, &[66, 76, 1, 1, 2, 0, 1, 0, 1, 0, 1, 0, 1, 2]),
        (1, &[66, 76, 1, 1, 1, 0, 0, 0, 2, 0, 7]),
        (4, &[66, 76, 1, 1, 1, 0, 0, 0, 1, 0, 7, 7]),
        (5, &[66, 76, 1, 1, 1, 0, 0, 0, 1, 0, 1]),
        (0, &[66, 76, 1, 1, 1, 0, 0, 0, 1, 0, 0]),
    ];
    for (wanted, bytes) in cases {
        for door in doors() {
            assert_eq!(
                mined_number(&door, bytes),
                wanted,
                "{} {bytes:?}",
                door.name
            );
        }
    }
}

/// The total is judged with its entry: before that entry's offset, after earlier ones.
#[test]
fn the_running_total_entry_by_entry() {
    let mut long = vec![66, 76, 1, 1, 65, 0];
    for k in 0..65u32 {
        long.extend(((512 * k) as u16).to_le_bytes());
        long.extend(if k < 64 { [0, 2] } else { [1, 0] });
    }
    let mut late = long.clone();
    late[6 + 4 * 64] = 1;
    let mut early = long.clone();
    early[6 + 4 * 63] = 1;
    for door in doors() {
        assert_eq!(mined_number(&door, &long), 3, "{}", door.name);
        assert_eq!(mined_number(&door, &late), 3, "{}", door.name);
        assert_eq!(mined_number(&door, &early), 4, "{}", door.name);
    }
}

fn rewritten(door: &compare::door::Door, file: &[u8]) -> u64 {
    (door.rewrite)(file, &mut [0; 2400]) % 256
}

/// G's file with some bytes changed.
fn changed(changes: &[(usize, u8)]) -> Vec<u8> {
    let mut file = g_file();
    for &(at, value) in changes {
        file[at] = value;
    }
    file
}

/// Rows of G start at 52, 61 (C), 70, 79 (R), 88 (I), 97, 106, 115 (E).
#[test]
fn graph_refusals_in_order() {
    let cases: [(u64, Vec<u8>); 17] = [
        (0, g_file()),
        (1, g_file()[..51].to_vec()),
        (2, changed(&[(1, 76), (3, 65)])),
        (2, changed(&[(2, 3)])),
        (3, changed(&[(3, 65), (12, 8)])),
        (5, changed(&[(3, 2), (38, 65)])),
        (5, changed(&[(20, 8), (36, 1)])),
        (3, changed(&[(38, 65), (36, 1)])),
        (4, changed(&[(36, 1), (42, 65)])),
        (1, g_file()[..123].to_vec()),
        (4, [g_file(), vec![0]].concat()),
        (5, changed(&[(52, 3)])),
        (5, changed(&[(52, 255), (53, 0)])),
        (5, changed(&[(60, 1)])),
        (6, changed(&[(53, 0), (61, 3)])),
        (6, changed(&[(61, 1)])),
        (6, changed(&[(52, 2), (61, 1)])),
    ];
    for (wanted, file) in cases {
        for door in doors() {
            assert_eq!(rewritten(&door, &file), wanted, "{} {file:?}", door.name);
        }
    }
}

/// G's conditions end with key 2 and its responses begin with key 0: keys rise within a
/// relation only. Reading 14: 65 rows are 3 whatever A is; too many for the events are 5.
#[test]
fn readings_9_and_14_keys_and_counts() {
    let mut one_event = vec![66, 71, 1, 1];
    for low in [1, 0, 0, 1] {
        one_event.extend([low, 0, 0, 0, 0, 0, 0, 0]);
    }
    one_event.extend([0, 0, 2, 0, 18, 0, 0, 0, 18, 0, 0, 0, 18, 0, 0, 0]);
    one_event.extend([0, 1, 0, 0, 0, 0, 0, 0, 0, 1, 1, 0, 0, 0, 0, 0, 0, 0]);
    let mut counted = one_event.clone();
    counted[38] = 65;
    for door in doors() {
        assert_eq!(rewritten(&door, &g_file()), 0, "{}", door.name);
        assert_eq!(rewritten(&door, &one_event), 5, "{}", door.name);
        assert_eq!(rewritten(&door, &counted), 3, "{}", door.name);
    }
}

#[test]
fn buffers_of_124_and_123_bytes() {
    for door in doors() {
        let mut enough = [3; 124];
        assert_eq!(
            (door.mine)(&L, FULL, &mut enough),
            256 * 124,
            "{}",
            door.name
        );
        assert_eq!(enough[..], g_file(), "{}", door.name);
        let mut short = [3; 123];
        assert_eq!((door.mine)(&L, FULL, &mut short), 7, "{}", door.name);
        assert_eq!((door.rewrite)(&g_file(), &mut short), 7, "{}", door.name);
        assert_eq!(short, [3; 123], "{}", door.name);
    }
}

/// Bit a mod 8 of byte a / 8: activity 11 is bit 3 of byte 1.
#[test]
fn reading_16_a_set_in_bytes() {
    for door in doors() {
        let mut file = [0; 61];
        assert_eq!(
            (door.mine)(&log(12, &[&[11]]), FULL, &mut file),
            256 * 61,
            "{}",
            door.name
        );
        assert_eq!(file[4..12], [0, 8, 0, 0, 0, 0, 0, 0], "{}", door.name);
        assert_eq!(
            file[48..],
            [0, 0, 1, 0, 11, 0, 8, 0, 0, 0, 0, 0, 0],
            "{}",
            door.name
        );
    }
}

/// What the two readers answer to the same requests: number or trace, then next.
fn asked(bytes: &[u8], next: usize, request: Option<usize>) -> [(Result<Vec<u8>, u8>, usize); 2] {
    let mut ours = judge::log::LogReader { bytes, next };
    let mut theirs = yardstick::log::LogReader { bytes, next };
    let (first, second) = match request {
        Some(k) => (ours.trace(k), theirs.trace(k)),
        None => (ours.next_trace(), theirs.next_trace()),
    };
    [
        (first, ours.next),
        (second.map(<[u8]>::to_vec), theirs.next),
    ]
}

/// bytes, next, the trace asked for or none for the next; the answer, next then
type Request<'a> = (&'a [u8], usize, Option<usize>, Result<Vec<u8>, u8>, usize);

#[test]
fn reading_15_the_log_reader() {
    let cases: [Request; 8] = [
        (&L, 0, None, Ok(vec![0, 1, 2]), 1),
        (&L, 1, None, Ok(vec![0, 2]), 2),
        (&L, 2, None, Err(11), 2),
        (&L, 2, Some(0), Ok(vec![0, 1, 2]), 1),
        (&L, 1, Some(2), Err(11), 1),
        (&L, usize::MAX, None, Err(11), usize::MAX),
        (&L, 0, Some(usize::MAX), Err(11), 0),
        (&L[..18], 7, None, Err(1), 7),
    ];
    for (bytes, next, request, answer, then) in cases {
        for outcome in asked(bytes, next, request) {
            assert_eq!(outcome, (answer.clone(), then));
        }
    }
}
