//! The call desk's functions, with results worked out by hand from 01's G and 02's 5/12.
mod common;
use common::*;
use compare::door::{Door, Form};
use compare::seeds::graphs::file;
use compare::value::{GraphValue, MarkingValue};

/// No blocker, and no place, above the number.
/// A desk of at most 64 activities.
const TABLE_ROOM: usize = Form::NARROW.table();
const PLACE: usize = Form::NARROW.place();

const BY_NONE: u64 = 255 << 40;
const NOWHERE: u64 = 255 * 256;

/// A place's bytes: its first, then four sets that only have activities below 8.
fn place(first: u8, low: [u8; 4]) -> Vec<u8> {
    let mut bytes = vec![first];
    for low in low {
        bytes.extend([low, 0, 0, 0, 0, 0, 0, 0]);
    }
    bytes
}

fn fresh() -> Vec<u8> {
    vec![0; TABLE_ROOM]
}

/// The same place 32 times.
fn all(bytes: &[u8]) -> Vec<u8> {
    bytes.repeat(32)
}

fn at(table: &[u8], number: usize) -> &[u8] {
    &table[PLACE * number..PLACE * (number + 1)]
}

/// A call on G at place 0 while place 1 stands still: 2 waits for 0; 0 is done, and 2 is owed; 2 is
/// done, and the call may end.
#[test]
fn a_call_on_g() {
    let g = g_file();
    for door in doors() {
        let mut table = fresh();
        assert_eq!((door.desk_open)(&g, &mut table), 0);
        assert_eq!((door.desk_open)(&g, &mut table), 256);
        let opening = place(1, [0, 0, 7, 1]);
        let two = [opening.clone(), opening.clone(), vec![0; 30 * 33]].concat();
        assert_eq!(table, two, "{}", door.name);
        let cases = [
            (2, 10, [0, 0, 7, 1]),
            (3, 8 + BY_NONE, [0, 0, 7, 1]),
            (0, BY_NONE, [1, 4, 6, 6]),
            (0, 9 + BY_NONE, [1, 4, 6, 6]),
        ];
        for (activity, wanted, marking) in cases {
            let given = (door.desk_step)(&g, &mut table, 0, activity);
            assert_eq!(given, wanted, "{} {activity}", door.name);
            assert_eq!(at(&table, 0), place(1, marking), "{} {activity}", door.name);
        }
        assert_eq!((door.desk_close)(&g, &mut table, 0), 15, "{}", door.name);
        assert_eq!((door.desk_step)(&g, &mut table, 1, 2), 10, "{}", door.name);
        assert_eq!((door.desk_step)(&g, &mut table, 0, 2), BY_NONE);
        assert_eq!(at(&table, 0), place(1, [5, 0, 0, 0]), "{}", door.name);
        assert_eq!((door.desk_close)(&g, &mut table, 0), 0, "{}", door.name);
        let one = [vec![0; 33], opening, vec![0; 30 * 33]].concat();
        assert_eq!(table, one, "{}", door.name);
        assert_eq!((door.desk_step)(&g, &mut table, 0, 0), 14 + BY_NONE);
        assert_eq!((door.desk_open)(&g, &mut table), 0, "{}", door.name);
        assert_eq!(table, two, "{}", door.name);
    }
}

/// 32 places, then 13; of two that are freed the lower is used first.
#[test]
fn all_places_taken() {
    let g = g_file();
    for door in doors() {
        let mut table = fresh();
        for number in 0..32 {
            assert_eq!((door.desk_open)(&g, &mut table), 256 * number);
        }
        let full = table.clone();
        assert_eq!((door.desk_open)(&g, &mut table), 13 + NOWHERE);
        assert_eq!(table, full, "{}", door.name);
        for number in [31, 7] {
            assert_eq!((door.desk_close)(&g, &mut table, number), 0);
        }
        assert_eq!((door.desk_open)(&g, &mut table), 256 * 7, "{}", door.name);
        assert_eq!((door.desk_open)(&g, &mut table), 256 * 31, "{}", door.name);
        assert_eq!(table, full, "{}", door.name);
    }
}

/// number of a step of 0 and of a close, on a table that stays as it was
fn refused(door: &Door, file: &[u8], table: &[u8], place: usize) -> (u64, u64) {
    let mut lent = table.to_vec();
    let step = (door.desk_step)(file, &mut lent, place, 0);
    let close = (door.desk_close)(file, &mut lent, place);
    assert_eq!(lent, table, "{} {place}", door.name);
    assert_eq!(step >> 8, 255 << 32, "{} {place}", door.name);
    (step % 256, close)
}

/// 7, then 14, then the file's own numbers, then the marking's 5, its 16, then 15.
#[test]
fn refusals_in_order() {
    let g = g_file();
    let mut wrong_row = g.clone();
    wrong_row[52] = 3;
    let pending = all(&place(1, [1, 4, 6, 6]));
    let stray = all(&place(9, [8, 4, 4, 4]));
    let both = all(&place(9, [8, 4, 4, 0]));
    for door in doors() {
        for short in [0, 800, 1055] {
            assert_eq!(refused(&door, &g[..51], &pending[..short], 99), (7, 7));
        }
        for number in [32, 33, 255, 256, usize::MAX] {
            assert_eq!(refused(&door, &g[..51], &pending, number), (14, 14));
        }
        assert_eq!(refused(&door, &wrong_row, &fresh(), 31), (14, 14));
        assert_eq!(refused(&door, &g[..51], &stray, 31), (1, 1));
        assert_eq!(refused(&door, &wrong_row, &pending, 31), (5, 5));
        assert_eq!(refused(&door, &g, &stray, 31), (5, 5));
        assert_eq!(refused(&door, &g, &both, 31), (5, 5));
        for set in [0, 2, 7, 14, 255] {
            let untrue = all(&place(1, [1, 4, 6, set]));
            assert_eq!(refused(&door, &g, &untrue, 31), (16, 16));
            assert_eq!(refused(&door, &g[..51], &untrue, 31), (1, 1));
            assert_eq!(refused(&door, &g, &untrue, 32), (14, 14));
        }
        assert_eq!(refused(&door, &g, &pending, 31), (9, 15));
    }
}

/// Open: 7, then the file's, then 13; and no marking is judged.
#[test]
fn open_refused_in_order() {
    let g = g_file();
    let full = all(&place(1, [8, 0, 0, 9]));
    for door in doors() {
        let cases: [(&[u8], &[u8], u64); 6] = [
            (&g[..51], &full[..1055], 7 + NOWHERE),
            (&g[..51], &full, 1 + NOWHERE),
            (&g[..51], &fresh(), 1 + NOWHERE),
            (&g, &full, 13 + NOWHERE),
            (&g, &full[..1055], 7 + NOWHERE),
            (&[], &[], 7 + NOWHERE),
        ];
        for (file, table, wanted) in cases {
            let mut lent = table.to_vec();
            assert_eq!((door.desk_open)(file, &mut lent), wanted, "{}", door.name);
            assert_eq!(lent, table, "{}", door.name);
        }
        let mut table = full.clone();
        table[0] = 0;
        assert_eq!((door.desk_open)(&g, &mut table), 0, "{}", door.name);
        assert_eq!(at(&table, 0), place(1, [0, 0, 7, 1]), "{}", door.name);
        assert_eq!(table[33..], full[33..], "{}", door.name);
    }
}

/// Any first byte but 0 says that a place is open, and a step leaves it; bytes beyond the table
/// stay; a marking that is outside the events elsewhere, or false, does not matter.
#[test]
fn any_bytes() {
    let g = g_file();
    for door in doors() {
        let mut table = all(&place(200, [255, 255, 255, 255]));
        table[PLACE * 3..PLACE * 4].copy_from_slice(&place(1, [0, 0, 7, 0]));
        table[PLACE * 4..PLACE * 5].copy_from_slice(&place(77, [0, 0, 7, 1]));
        table.extend([5; 40]);
        let before = table.clone();
        assert_eq!((door.desk_step)(&g, &mut table, 4, 0), BY_NONE);
        assert_eq!(at(&table, 4), place(77, [1, 4, 6, 6]), "{}", door.name);
        assert_eq!((door.desk_step)(&g, &mut table, 4, 2), BY_NONE);
        assert_eq!((door.desk_close)(&g, &mut table, 4), 0, "{}", door.name);
        assert_eq!(at(&table, 4), vec![0; 33], "{}", door.name);
        assert_eq!(table[..132], before[..132], "{}", door.name);
        assert_eq!(table[165..], before[165..], "{}", door.name);
    }
}

/// A graph with A 0 opens at the empty marking: open all the same, and it may end.
#[test]
fn an_empty_marking_is_no_free_place() {
    let none = file(&GraphValue::EMPTY);
    for door in doors() {
        let mut table = fresh();
        assert_eq!((door.desk_open)(&none, &mut table), 0, "{}", door.name);
        assert_eq!(at(&table, 0), place(1, [0, 0, 0, 0]), "{}", door.name);
        assert_eq!((door.desk_open)(&none, &mut table), 256, "{}", door.name);
        assert_eq!((door.desk_step)(&none, &mut table, 0, 0), 8 + BY_NONE);
        assert_eq!((door.desk_close)(&none, &mut table, 0), 0, "{}", door.name);
        assert_eq!((door.desk_close)(&none, &mut table, 0), 14, "{}", door.name);
    }
}

/// Open takes the graph's own marking, whatever it is: here 0 is executed, 1 owed, 1 included, and
/// so 1 is enabled. The file does not say that.
#[test]
fn the_opening_state() {
    let marking = MarkingValue {
        executed: 1,
        pending: 2,
        included: 2,
        enabled: 0,
    };
    let graph = file(&GraphValue {
        a: 2,
        events: 3,
        marking,
        ..GraphValue::EMPTY
    });
    for door in doors() {
        let mut table = fresh();
        assert_eq!((door.desk_open)(&graph, &mut table), 0, "{}", door.name);
        assert_eq!(at(&table, 0), place(1, [1, 2, 2, 2]), "{}", door.name);
        assert_eq!((door.desk_close)(&graph, &mut table, 0), 15);
        assert_eq!((door.desk_step)(&graph, &mut table, 0, 1), BY_NONE);
        assert_eq!((door.desk_close)(&graph, &mut table, 0), 0);
    }
}

/// The number, and six bytes that had 165, of which so many were lent.
fn way_at(door: &Door, file: &[u8], table: &[u8], place: usize, room: usize) -> (u64, [u8; 6]) {
    let (lent, mut way) = (table.to_vec(), [165; 6]);
    let number = (door.desk_finish)(file, &lent, place, &mut way[..room]);
    assert_eq!(lent, table, "{} {place}", door.name);
    (number, way)
}

const UNTOUCHED: [u8; 6] = [165; 6];

/// On G: no call, no way. Both calls may end at first; after 0 at place 0 its 2 is owed there, and nothing at place 1.
#[test]
fn ways_out_on_g() {
    let g = g_file();
    let none = [255, 255, 255, 255, 165, 165];
    for door in doors() {
        let mut table = fresh();
        assert_eq!(way_at(&door, &g, &table, 0, 6), (14, UNTOUCHED));
        for number in 0..2 {
            assert_eq!((door.desk_open)(&g, &mut table), 256 * number);
            let place = number as usize;
            assert_eq!(way_at(&door, &g, &table, place, 6), (0, none));
        }
        assert_eq!((door.desk_step)(&g, &mut table, 0, 0), BY_NONE);
        let owed = [2, 255, 255, 255, 165, 165];
        assert_eq!(way_at(&door, &g, &table, 0, 4), (0, owed), "{}", door.name);
        assert_eq!(way_at(&door, &g, &table, 1, 4), (0, none), "{}", door.name);
        assert_eq!((door.desk_step)(&g, &mut table, 0, 2), BY_NONE);
        assert_eq!((door.desk_close)(&g, &mut table, 0), 0, "{}", door.name);
        assert_eq!(way_at(&door, &g, &table, 0, 4), (14, UNTOUCHED));
        assert_eq!(way_at(&door, &g, &table, 1, 4), (0, none), "{}", door.name);
    }
}

/// 7 for a short table, 14, the file's numbers, 7 for the room, 5, 16, 17. The call of `stuck` waits for its own only step.
#[test]
fn ways_out_refused_in_order() {
    let g = g_file();
    let mut value = GraphValue {
        a: 1,
        events: 1,
        ..GraphValue::EMPTY
    };
    value.conditions[0] = 1;
    value.marking.pending = 1;
    value.marking.included = 1;
    let stuck = file(&value);
    let pending = all(&place(1, [1, 4, 6, 6]));
    let both = all(&place(9, [8, 4, 4, 0]));
    let untrue = all(&place(1, [1, 4, 6, 7]));
    for door in doors() {
        let refused = |file: &[u8], table: &[u8], place, room| {
            let (number, way) = way_at(&door, file, table, place, room);
            assert_eq!(way, UNTOUCHED, "{} {place} {room}", door.name);
            number
        };
        for short in [0, 800, 1055] {
            assert_eq!(refused(&g[..51], &pending[..short], 99, 0), 7);
        }
        for number in [32, 33, 255, 256, usize::MAX] {
            assert_eq!(refused(&g[..51], &pending, number, 0), 14);
        }
        assert_eq!(refused(&g[..51], &fresh(), 31, 0), 14);
        assert_eq!(refused(&g[..51], &both, 31, 0), 1);
        for room in 0..4 {
            assert_eq!(refused(&g, &both, 31, room), 7);
        }
        assert_eq!(refused(&g, &both, 31, 4), 5);
        assert_eq!(refused(&g, &untrue, 31, 4), 16);
        let mut table = fresh();
        assert_eq!((door.desk_open)(&stuck, &mut table), 0, "{}", door.name);
        assert_eq!(refused(&stuck, &table, 0, 3), 7);
        assert_eq!(refused(&stuck, &table, 0, 4), 17);
    }
}
