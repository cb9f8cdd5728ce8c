//! 02, 10/12: up to 128 activities, with files, numbers and bytes worked out by hand.
mod common;
use common::*;
use compare::door::{Door, Form, FULL, LIGHT, LISTING_ROOM, TALLY_ROOM};
use compare::seeds::{graphs, log_of_edition, logs, Prng};
use compare::value::{GraphValue, PlainGraph};
use compare::{judge, yardstick};

const BY_NONE: u64 = 255 << 40;

/// L with 3, 64 and 127 for 0, 1 and 2. The order is the same, so no rule of 01 tells the two logs apart.
fn wide_l() -> Vec<u8> {
    log(128, &[&[3, 64, 127], &[3, 127]])
}

/// The bytes of a set.
fn set(members: &[u8]) -> [u8; 16] {
    let mut bytes = [0; 16];
    for member in members {
        bytes[usize::from(member / 8)] |= 1 << (member % 8);
    }
    bytes
}

fn marking(sets: [&[u8]; 4]) -> Vec<u8> {
    sets.map(set).concat()
}

/// Its graph's file by 02: a head of 84 bytes, rows of 17, offsets 17 a row.
fn wide_g() -> Vec<u8> {
    let mut file = vec![66, 71, 2, 128];
    for events in [&[3, 64, 127][..], &[], &[], &[3, 64, 127]] {
        file.extend(set(events));
    }
    file.extend([0, 0, 2, 0, 34, 0, 2, 0, 68, 0, 1, 0, 85, 0, 3, 0]);
    let rows: [(u8, &[u8]); 8] = [
        (64, &[3]),
        (127, &[3]),
        (3, &[127]),
        (64, &[127]),
        (3, &[64]),
        (3, &[3]),
        (64, &[64]),
        (127, &[64, 127]),
    ];
    for (key, members) in rows {
        file.push(key);
        file.extend(set(members));
    }
    file
}

#[test]
fn the_log_is_mined_and_listed() {
    let wanted = "events 3 C 2 R 2 I 1 E 4 traces 2\nC 3 64\nC 3 127\nR 3 127\nR 64 127\nI 3 64\n\
                  E 3 3\nE 64 64\nE 127 64\nE 127 127\nT 0 3 0 1\nT 1 2 0 1\n";
    for door in doors() {
        let mut file = [9; 221];
        let given = (door.mine)(&wide_l(), FULL, &mut file);
        assert_eq!(given, 256 * 220, "{}", door.name);
        assert_eq!(file[..220], wide_g(), "{}", door.name);
        assert_eq!(file[220], 9, "{}", door.name);
        let mut short = [9; 219];
        assert_eq!((door.mine)(&wide_l(), FULL, &mut short), 7, "{}", door.name);
        assert_eq!(short, [9; 219], "{}", door.name);
        assert_eq!(listing(&door, &wide_l()), wanted, "{}", door.name);
        let light = wanted.replace("E 4", "E 3").replace("E 127 64\n", "");
        assert_eq!(listing_in(&door, &wide_l(), LIGHT), light, "{}", door.name);
    }
}

/// By the log's edition, before the log is judged.
#[test]
fn room_for_a_listing() {
    let mut cut = wide_l();
    cut.pop();
    for door in doors() {
        for (log, room, wanted) in [
            (wide_l(), 671_798, 7),
            (wide_l(), 671_799, 256 * 126),
            (cut.clone(), 671_798, 7),
            (cut.clone(), 671_799, 1 + 256 * 10),
            (L.to_vec(), 147_505, 7),
            (L.to_vec(), 147_506, 256 * 108),
        ] {
            let mut out = vec![9; room];
            let given = (door.listing)(&log, FULL, &mut out);
            assert_eq!(given, wanted, "{} {room}", door.name);
            let length = (wanted / 256) as usize;
            assert!(out[length..].iter().all(|&byte| byte == 9), "{}", door.name);
        }
    }
}

/// No listing is longer than the room: all pairs excluded, 1,024 traces.
#[test]
fn the_longest_parts() {
    let alone: Vec<Vec<u8>> = (0..128).map(|e| vec![e]).collect();
    let log = compare::seeds::log_file(128, &alone);
    for door in doors() {
        let text = listing(&door, &log);
        let first = text.lines().next();
        let wanted = "events 128 C 0 R 0 I 0 E 16384 traces 128";
        assert_eq!(first, Some(wanted), "{}", door.name);
        assert_eq!(text.lines().nth(16_384), Some("E 127 127"), "{}", door.name);
    }
    assert_eq!(LISTING_ROOM, 55 + 4 * 16_384 * 10 + 1024 * 16);
}

#[test]
fn the_summary_has_two_bytes_for_each_of_128() {
    for door in doors() {
        for (profile, excluded) in [(FULL, 1), (LIGHT, 0)] {
            let mut wanted = [0; 258];
            wanted[3] = 2;
            wanted[128 + 127] = excluded;
            wanted[256..].fill(9);
            let mut room = [9; 258];
            assert_eq!(
                (door.summary)(&wide_l(), profile, &mut room),
                0,
                "{}",
                door.name
            );
            assert_eq!(room, wanted, "{}", door.name);
        }
        let mut short = [9; 255];
        assert_eq!(
            (door.summary)(&wide_l(), FULL, &mut short),
            7,
            "{}",
            door.name
        );
        assert_eq!(
            (door.summary)(&wide_l()[..14], FULL, &mut short),
            1,
            "{}",
            door.name
        );
        assert_eq!(short, [9; 255], "{}", door.name);
    }
}

/// 3 where the edition does not match A, with A: after 1 and 2, before T and the contents.
#[test]
fn log_refusals_in_order() {
    let cases: [(u64, &[u8]); 15] = [
        (1, &[66, 76, 2, 64, 0]),
        (2, &[66, 71, 2, 64, 0, 0]),
        (2, &[66, 76, 0, 65, 0, 0]),
        (2, &[66, 76, 3, 129, 0, 0]),
        (3, &[66, 76, 1, 65, 0, 0]),
        (3, &[66, 76, 1, 128, 0, 0]),
        (3, &[66, 76, 2, 64, 0, 0]),
        (3, &[66, 76, 2, 0, 0, 0]),
        (3, &[66, 76, 2, 129, 0, 0]),
        (3, &[66, 76, 2, 64, 1, 0]),
        (1, &[66, 76, 2, 65, 1, 0]),
        (3, &[66, 76, 2, 65, 1, 4]),
        (0, &[66, 76, 2, 65, 0, 0]),
        (5, &[66, 76, 2, 65, 1, 0, 0, 0, 1, 0, 65]),
        (0, &[66, 76, 2, 128, 1, 0, 0, 0, 1, 0, 127]),
    ];
    for (wanted, bytes) in cases {
        for door in doors() {
            assert_eq!(
                mined_number(&door, bytes),
                wanted,
                "{} {bytes:?}",
                door.name
            );
        }
    }
}

fn rewritten(door: &Door, file: &[u8]) -> u64 {
    (door.rewrite)(file, &mut [0; 8788]) % 256
}

/// The wide file with some bytes changed.
fn changed(changes: &[(usize, u8)]) -> Vec<u8> {
    let mut file = wide_g();
    for &(at, value) in changes {
        file[at] = value;
    }
    file
}

/// Contents start at 68, rows at 84, 101 (C), 118, 135 (R), 152 (I), 169, 186, 203 (E).
#[test]
fn graph_refusals_in_order() {
    let of = |a: u8, length: usize| {
        let mut file = vec![0; length];
        file[..4].copy_from_slice(&[66, 71, 2, a]);
        file
    };
    let cases: [(u64, Vec<u8>); 31] = [
        (0, wide_g()),
        (1, wide_g()[..51].to_vec()),
        // 1 again straight after 2, before A
        (1, wide_g()[..52].to_vec()),
        (1, of(5, 83)),
        (3, of(5, 84)),
        (1, of(65, 83)),
        (0, of(65, 84)),
        (4, of(65, 85)),
        (3, of(64, 84)),
        (3, of(129, 84)),
        (1, of(129, 83)),
        (2, changed(&[(1, 76)])[..60].to_vec()),
        (2, changed(&[(2, 3)])[..60].to_vec()),
        (2, changed(&[(1, 76), (3, 64)])),
        (2, changed(&[(2, 0)])),
        (3, changed(&[(2, 1)])),
        (3, changed(&[(3, 64), (4, 0)])),
        (5, changed(&[(3, 127), (70, 129)])),
        (5, changed(&[(20, 1), (68, 1)])),
        (3, changed(&[(70, 129), (68, 1)])),
        // 65 rows are within the limit of this edition: the next offset is wrong
        (4, changed(&[(70, 65)])),
        (4, changed(&[(70, 128)])),
        (4, changed(&[(72, 18)])),
        (1, wide_g()[..219].to_vec()),
        (4, [wide_g(), vec![0]].concat()),
        (5, changed(&[(84, 65)])),
        (5, changed(&[(84, 128), (85, 0)])),
        (5, changed(&[(93, 2)])),
        (6, changed(&[(85, 0), (101, 65)])),
        (6, changed(&[(101, 64)])),
        (6, changed(&[(84, 127), (101, 64)])),
    ];
    for (wanted, file) in cases {
        for door in doors() {
            assert_eq!(rewritten(&door, &file), wanted, "{} {file:?}", door.name);
        }
    }
}

/// The same files as those of the comparison, on every implementation.
#[test]
fn borders_of_both_editions() {
    for (wanted, file) in graphs::borders() {
        for door in doors() {
            let given = rewritten(&door, &file);
            assert_eq!(given, u64::from(wanted), "{} {file:?}", door.name);
        }
    }
}

/// "every graph still has one file": what is written has the edition for A, and a file is written again as it was.
#[test]
fn one_file_a_graph() {
    for a in [0, 1, 64, 65, 97, 128] {
        let log = log_of_edition(if a > 64 { 2 } else { 1 }, a, &[]);
        for door in doors() {
            let mut file = [9; 84];
            let given = (door.mine)(&log, FULL, &mut file);
            let length = if a > 64 { 84 } else { 52 };
            assert_eq!(given, 256 * length, "{}", door.name);
            let mut wanted = [0; 84];
            wanted[length as usize..].fill(9);
            wanted[..4].copy_from_slice(&[66, 71, if a > 64 { 2 } else { 1 }, a]);
            assert_eq!(file, wanted, "{} {a}", door.name);
            let mut again = [9; 84];
            let file = &file[..length as usize];
            assert_eq!((door.rewrite)(file, &mut again), given, "{}", door.name);
            assert_eq!(again[..], wanted, "{}", door.name);
        }
    }
}

/// 01's calls on G, with the other numbers.
#[test]
fn traces_on_the_graph() {
    let cases: [(&[u8], Outcome); 8] = [
        (&[], (0, 255, 0, true)),
        (&[3], (0, 255, 1, false)),
        (&[127], (10, 3, 0, false)),
        (&[3, 3], (9, 255, 1, false)),
        (&[3, 127, 64], (9, 255, 2, false)),
        (&[0], (8, 255, 0, false)),
        (&[128], (8, 255, 0, false)),
        (&[3, 64, 127], (0, 255, 3, true)),
    ];
    for (trace, wanted) in cases {
        for door in doors() {
            let given = replay(&door, &wide_g(), trace);
            assert_eq!(given, wanted, "{} {trace:?}", door.name);
        }
    }
}

/// A marking has 64 bytes, four sets of 16: 7 with one less; more are left alone. A narrow file still takes 32.
#[test]
fn markings_of_64_bytes() {
    let all: &[u8] = &[3, 64, 127];
    let opening = marking([&[], &[], all, &[3]]);
    let then = marking([&[3], &[127], &[64, 127], &[64, 127]]);
    let end = marking([&[3, 127], &[], &[], &[]]);
    for door in doors() {
        for room in [0, 32, 63] {
            let mut lent = vec![9; room];
            assert_eq!((door.opening)(&wide_g(), &mut lent), 7, "{}", door.name);
            let given = (door.step)(&wide_g(), &mut lent, 3);
            assert_eq!(given, 7 + BY_NONE, "{}", door.name);
            let given = (door.finish)(&wide_g(), &lent, &mut [0; 4]);
            assert_eq!(given, 7, "{}", door.name);
            assert_eq!(lent, vec![9; room], "{}", door.name);
        }
        let mut lent = [9; 65];
        assert_eq!((door.opening)(&wide_g(), &mut lent), 0, "{}", door.name);
        assert_eq!((&lent[..64], lent[64]), (&opening[..], 9), "{}", door.name);
        let given = (door.step)(&wide_g(), &mut lent, 127);
        assert_eq!(answer(given), (10, 3), "{}", door.name);
        assert_eq!(
            (door.step)(&wide_g(), &mut lent, 3),
            BY_NONE,
            "{}",
            door.name
        );
        assert_eq!((&lent[..64], lent[64]), (&then[..], 9), "{}", door.name);
        let mut way = [9; 4];
        assert_eq!(
            (door.finish)(&wide_g(), &lent, &mut way),
            0,
            "{}",
            door.name
        );
        assert_eq!(way, [127, 255, 255, 255], "{}", door.name);
        let given = (door.step)(&wide_g(), &mut lent, 127);
        assert_eq!(given, BY_NONE, "{}", door.name);
        assert_eq!((&lent[..64], lent[64]), (&end[..], 9), "{}", door.name);
        let mut narrow = [9; 32];
        assert_eq!((door.opening)(&g_file(), &mut narrow), 0, "{}", door.name);
    }
}

/// What leaves the events is seen in the upper half too, and so is a false set.
#[test]
fn strays_above_64() {
    let all: &[u8] = &[3, 64, 127];
    let cases = [
        (marking([&[], &[65], all, &[3]]), 5),
        (marking([&[126], &[], all, &[3]]), 5),
        (marking([&[], &[], &[3, 64, 100, 127], &[3]]), 5),
        (marking([&[], &[], all, &[3, 64]]), 16),
        (marking([&[], &[], all, &[3, 100]]), 16),
        (marking([&[3], &[127], &[64, 127], &[64]]), 16),
    ];
    for (from, wanted) in cases {
        for door in doors() {
            let mut lent = from.clone();
            let given = (door.step)(&wide_g(), &mut lent, 3);
            assert_eq!(given, wanted + BY_NONE, "{}", door.name);
            assert_eq!(lent, from, "{}", door.name);
        }
    }
}

/// A table has 32 places of 65 bytes by the file's edition, whatever else is wrong with the file.
#[test]
fn a_desk_of_2080_bytes() {
    let opening = marking([&[], &[], &[3, 64, 127], &[3]]);
    let mismatched = changed(&[(3, 64)]);
    for door in doors() {
        let mut short = vec![0; 2079];
        for file in [&wide_g()[..], &mismatched, &[66, 71, 2]] {
            let given = (door.desk_open)(file, &mut short);
            assert_eq!(given, 7 + 256 * 255, "{}", door.name);
            assert_eq!((door.desk_close)(file, &mut short, 99), 7, "{}", door.name);
        }
        let mut table = vec![0; 2081];
        let given = (door.desk_open)(&mismatched, &mut table);
        assert_eq!(given, 3 + 256 * 255, "{}", door.name);
        let given = (door.desk_step)(&mismatched, &mut table, 0, 3);
        assert_eq!(given, 14 + BY_NONE, "{}", door.name);
        for place in 0..2 {
            let given = (door.desk_open)(&wide_g(), &mut table);
            assert_eq!(given, 256 * place, "{}", door.name);
        }
        assert_eq!(table[65], 1, "{}", door.name);
        assert_eq!(table[66..130], opening, "{}", door.name);
        let given = (door.desk_step)(&wide_g(), &mut table, 1, 3);
        assert_eq!(given, BY_NONE, "{}", door.name);
        assert_eq!(
            (door.desk_close)(&wide_g(), &mut table, 1),
            15,
            "{}",
            door.name
        );
        let mut way = [9; 4];
        let given = (door.desk_finish)(&wide_g(), &table, 1, &mut way);
        assert_eq!((given, way), (0, [127, 255, 255, 255]), "{}", door.name);
        assert_eq!(
            (door.desk_close)(&wide_g(), &mut table, 0),
            0,
            "{}",
            door.name
        );
        assert_eq!(table[..65], [0; 65], "{}", door.name);
        assert_eq!(table[66..82], set(&[3]), "{}", door.name);
        // the narrow desk takes what it took
        let mut narrow = vec![0; 1056];
        assert_eq!((door.desk_open)(&g_file(), &mut narrow), 0, "{}", door.name);
        assert_eq!(
            (door.desk_open)(&[66, 71], &mut narrow),
            1 + 256 * 255,
            "{}",
            door.name
        );
    }
}

/// The graph as the plain engine has it, by hand: a head of 81 bytes.
fn plain_g() -> PlainGraph {
    let pair = |source: u16, target: u16| 256 * source + target;
    let all: &[u8] = &[3, 64, 127];
    PlainGraph {
        head: [vec![128], set(all).to_vec(), marking([&[], &[], all, &[3]])].concat(),
        lists: [
            vec![pair(3, 64), pair(3, 127)],
            vec![pair(3, 127), pair(64, 127)],
            vec![pair(3, 64)],
            vec![pair(3, 3), pair(64, 64), pair(127, 64), pair(127, 127)],
        ],
    }
}

#[test]
fn the_plain_engine() {
    for door in doors() {
        for (kind, list) in (0..).zip(plain_g().lists) {
            let mut memory = vec![9; 5];
            let given = (door.fill)(&wide_g(), kind, &mut memory);
            assert_eq!(given, 256 * list.len() as u64, "{}", door.name);
            assert_eq!(memory[..list.len()], list, "{}", door.name);
        }
        for trace in [&[3, 64, 127][..], &[127], &[3, 3], &[0], &[128]] {
            let on_lists = (door.plain_replay)(&plain_g(), trace);
            assert_eq!(on_lists, (door.replay)(&wide_g(), trace), "{}", door.name);
        }
        let mut lent = marking([&[], &[], &[3, 64, 127], &[3]]);
        let given = (door.plain_step)(&plain_g(), &mut lent, 3);
        assert_eq!(given, BY_NONE, "{}", door.name);
        assert_eq!(
            lent,
            marking([&[3], &[127], &[64, 127], &[64, 127]]),
            "{}",
            door.name
        );
        assert_eq!(
            (door.plain_accepting)(&plain_g(), &lent),
            0,
            "{}",
            door.name
        );
        let opening = marking([&[], &[], &[3, 64, 127], &[3]]);
        let given = (door.plain_accepting)(&plain_g(), &opening);
        assert_eq!(given, 1 << 32, "{}", door.name);
        assert_eq!(
            (door.plain_accepting)(&plain_g(), &lent[..63]),
            7,
            "{}",
            door.name
        );
        let mut short = plain_g();
        short.head.pop();
        assert_eq!((door.plain_accepting)(&short, &lent), 7, "{}", door.name);
    }
}

/// 16,384 pairs for every plain graph, also one of few activities.
#[test]
fn lists_of_16384_pairs() {
    for door in doors() {
        for a in [3, 97] {
            let graph = GraphValue {
                a,
                events: 1,
                ..GraphValue::EMPTY
            };
            let mut plain = compare::seeds::plain::of(&graph);
            let lent = vec![0; Form::of(a).marking()];
            for (length, wanted) in [(4097, 1 << 32), (16_384, 1 << 32), (16_385, 3)] {
                plain.lists[2] = vec![0; length];
                let given = (door.plain_accepting)(&plain, &lent);
                assert_eq!(given, wanted, "{} {a} {length}", door.name);
            }
        }
    }
}

/// A log of one edition on a graph of the other: an activity that the graph lacks counts as a no, an event that it has is its own.
#[test]
fn marks_across_the_editions() {
    let narrow = log(3, &[&[0, 1, 2], &[0]]);
    let over_narrow = log(128, &[&[0, 1, 2], &[0], &[0, 64], &[127]]);
    for door in doors() {
        let mut out = [9; 5];
        let given = (door.replays)(&g_file(), &over_narrow, &mut out);
        assert_eq!((given, out), (256 * 4, [128, 0, 8, 8, 9]), "{}", door.name);
        let given = (door.replays)(&wide_g(), &narrow, &mut out);
        assert_eq!((given, &out[..2]), (256 * 2, &[8, 8][..]), "{}", door.name);
        let given = (door.marks)(&g_file(), &over_narrow, &[1, 1, 0, 0]);
        assert_eq!(given, (1 << 8) + (1 << 32) + (2 << 44), "{}", door.name);
        let given = (door.shut_by)(&wide_g(), &[3, 64, 127], 64);
        assert_eq!(given, 256 * 127, "{}", door.name);
    }
}

/// "Refusals: 7 for a tally buffer under 36,864 bytes, after the log's own refusals, then 3 for a log's .. A above 64"
#[test]
fn no_tally_of_more_than_64() {
    for door in doors() {
        let mut tally = vec![9; TALLY_ROOM];
        assert_eq!((door.tally)(&wide_l(), &mut tally), 3, "{}", door.name);
        assert_eq!((door.tally)(&wide_l(), &mut tally[1..]), 7, "{}", door.name);
        assert_eq!(
            (door.tally)(&wide_l()[..14], &mut tally[1..]),
            1,
            "{}",
            door.name
        );
        assert!(tally.iter().all(|&byte| byte == 9), "{}", door.name);
    }
}

/// The same calls over other numbers in the same order give the same pairs over those numbers, in every implementation.
#[test]
fn numbers_do_not_matter() {
    for seed in 0..40 {
        let mut prng = Prng::new(seed);
        let (_, _, make) = logs::KINDS[seed as usize % logs::KINDS.len()];
        let sound = judge::log::read(&make(&mut prng)).expect("sound kinds");
        let mut numbers = logs::numbers_below(&mut prng, 128, usize::from(sound.a));
        numbers.sort_unstable();
        let other = |trace: &Vec<u8>| trace.iter().map(|&e| numbers[usize::from(e)]).collect();
        let traces: Vec<Vec<u8>> = sound.traces.iter().map(other).collect();
        let wide = compare::seeds::log_file(128, &traces);
        let narrow = compare::seeds::log_file(sound.a, &sound.traces);
        for door in doors() {
            let renamed: Vec<String> = pairs(&door, &narrow)
                .split(", ")
                .map(|pair| match pair.split(' ').collect::<Vec<_>>()[..] {
                    [name, s, t] => {
                        let to = |e: &str| numbers[e.parse::<usize>().expect("a number")];
                        format!("{name} {} {}", to(s), to(t))
                    }
                    _ => pair.to_string(),
                })
                .collect();
            assert_eq!(
                pairs(&door, &wide),
                renamed.join(", "),
                "{} {seed}",
                door.name
            );
        }
    }
}

/// As values: A is at most 128, and a graph of at most 64 activities has no event from 64 on.
#[test]
fn graphs_as_values() {
    let with = |a: u8, events: u128| GraphValue {
        a,
        events,
        ..GraphValue::EMPTY
    };
    for (graph, wanted) in [
        (with(128, u128::MAX), Ok(84)),
        (with(65, 1 << 64), Ok(84)),
        (with(64, 1 << 63), Ok(52)),
        (with(64, 1 << 64), Err(5)),
        (with(65, 1 << 65), Err(5)),
        (with(129, 0), Err(3)),
    ] {
        let (mut ours, mut theirs) = ([9; 90], [9; 90]);
        let sets = judge::graph::graph_of(&graph);
        assert_eq!(judge::graph_file::write(&sets, &mut ours), wanted);
        assert_eq!(yardstick::value::write(&graph, &mut theirs), wanted);
        assert_eq!(ours, theirs);
    }
}
