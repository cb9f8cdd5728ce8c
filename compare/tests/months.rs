//! Months put together, with results worked out by hand from 02's 12/12 and the readings.
mod common;
use common::*;
use compare::door::{Door, FULL, LIGHT, RELATIONS_ROOM, TALLY_ROOM};

fn tally(door: &Door, log: &[u8]) -> Vec<u8> {
    let mut lent = vec![165; TALLY_ROOM];
    assert_eq!((door.tally)(log, &mut lent), 0, "{}", door.name);
    lent
}

fn joined(door: &Door, tally: &[u8], other: &[u8]) -> Vec<u8> {
    let mut lent = tally.to_vec();
    let given = (door.tally_join)(&mut lent, other);
    assert_eq!(given, 0, "{}", door.name);
    lent
}

/// A, the events, and the pairs as a listing has them.
fn read(door: &Door, tally: &[u8], profile: u8) -> (u8, u64, String) {
    let mut out = [165; RELATIONS_ROOM + 1];
    let given = (door.tally_relations)(tally, profile, &mut out);
    assert_eq!((given, out[RELATIONS_ROOM]), (0, 165), "{}", door.name);
    let word = |k: usize| u64::from_le_bytes(out[1 + 8 * k..9 + 8 * k].try_into().unwrap());
    let mut pairs = Vec::new();
    for (r, letter) in ["C", "R", "I", "E"].into_iter().enumerate() {
        for source in 0..64 {
            for target in 0..64 {
                let (key, member) = if r == 0 {
                    (target, source)
                } else {
                    (source, target)
                };
                if word(1 + 64 * r + key) >> member & 1 == 1 {
                    pairs.push(format!("{letter} {source} {target}"));
                }
            }
        }
    }
    (out[0], word(0), pairs.join(", "))
}

/// Every byte of the tally of the one call 0 1 0.
#[test]
fn the_bytes_of_a_tally() {
    let all = u64::MAX;
    let rows = [
        [3, 1],
        [3, 1],
        [all, !1],
        [all, !1],
        [all, !1],
        [all, !1],
        [2, 1],
    ];
    let mut sets = vec![0u64; 4608];
    sets[1] = 3;
    for (k, [zero, one]) in rows.into_iter().enumerate() {
        sets[2 + 64 * k] = zero;
        sets[3 + 64 * k] = one;
    }
    // 1 stands between a 0 and a later 0, and nothing else stands between any two
    sets[512] = 2;
    let mut wanted: Vec<u8> = sets.into_iter().flat_map(u64::to_le_bytes).collect();
    wanted[0] = 2;
    for door in doors() {
        let given = tally(&door, &log(2, &[&[0, 1, 0]]));
        assert!(given == wanted, "{}", door.name);
    }
}

/// Reading 26: 1 without a 4 before it counts in the year, though 4 is no activity of its month.
#[test]
fn a_step_absent_in_one_month() {
    for door in doors() {
        let (may, june) = (log(2, &[&[1]]), log(5, &[&[4, 1]]));
        let (may, june) = (tally(&door, &may), tally(&door, &june));
        assert!(
            read(&door, &june, FULL).2.starts_with("C 4 1, R 4 1"),
            "{}",
            door.name
        );
        let full = (5, 18, "R 4 1, E 1 1, E 1 4, E 4 4".to_string());
        let light = (5, 18, "R 4 1, E 1 1, E 4 4".to_string());
        for year in [joined(&door, &may, &june), joined(&door, &june, &may)] {
            assert_eq!(read(&door, &year, FULL), full, "{}", door.name);
            assert_eq!(read(&door, &year, LIGHT), light, "{}", door.name);
        }
    }
}

/// L, a call a month: no condition of L comes from step 9, so its pairs are those of 01.
#[test]
fn l_in_two_months() {
    let full = "C 0 1, C 0 2, R 0 2, R 1 2, I 0 1, E 0 0, E 1 1, E 2 1, E 2 2";
    let light = "C 0 1, C 0 2, R 0 2, R 1 2, I 0 1, E 0 0, E 1 1, E 2 2";
    for door in doors() {
        let months = [log(3, &[&[0, 1, 2]]), log(3, &[&[0, 2]])];
        let [may, june] = months.map(|log| tally(&door, &log));
        let year = joined(&door, &may, &june);
        assert!(year == tally(&door, &L), "{}", door.name);
        assert_eq!(
            read(&door, &year, FULL),
            (3, 7, full.into()),
            "{}",
            door.name
        );
        assert_eq!(
            read(&door, &year, LIGHT),
            (3, 7, light.into()),
            "{}",
            door.name
        );
    }
}

/// 1 and 3 shut each other out, so step 9 makes both conditions of 2; the tally's relations have
/// what step 8 leaves.
#[test]
fn steps_9_and_10_are_not_in_it() {
    let after_eight = "C 0 1, C 0 2, C 0 3, R 0 2, R 1 2, R 3 2, I 0 1, I 0 3, \
                       E 0 0, E 1 1, E 1 3, E 2 2, E 3 1, E 3 3";
    for door in doors() {
        let both = log(4, &[&[0, 1, 2], &[0, 3, 2]]);
        assert!(pairs_in(&door, &both, LIGHT).starts_with("C 0 1, C 0 3, C 1 2, C 3 2, R"));
        let months = [log(3, &[&[0, 1, 2]]), log(4, &[&[0, 3, 2]])];
        let [may, june] = months.map(|log| tally(&door, &log));
        let year = joined(&door, &may, &june);
        assert_eq!(
            read(&door, &year, LIGHT),
            (4, 15, after_eight.into()),
            "{}",
            door.name
        );
    }
}

#[test]
fn the_laws() {
    for door in doors() {
        let [x, y, z] = [
            log(3, &[&[0, 2, 0]]),
            log(9, &[&[8, 0], &[]]),
            log(5, &[&[4]]),
        ]
        .map(|log| tally(&door, &log));
        let none = tally(&door, &log(0, &[]));
        let mut nothing = vec![0; TALLY_ROOM];
        assert!(none == nothing, "{}", door.name);
        nothing[0] = 7;
        assert!(
            tally(&door, &log(7, &[&[], &[]])) == nothing,
            "{}",
            door.name
        );
        let join = |x: &[u8], y: &[u8]| joined(&door, x, y);
        assert!(join(&x, &y) == join(&y, &x), "{}", door.name);
        assert!(
            join(&join(&x, &y), &z) == join(&x, &join(&y, &z)),
            "{}",
            door.name
        );
        assert!(join(&y, &y) == y, "{}", door.name);
        assert!(
            join(&y, &none) == y && join(&none, &y) == y,
            "{}",
            door.name
        );
        assert_eq!(join(&x, &y)[0], 9, "{}", door.name);
    }
}

/// The log's own refusals, then 7; of tallies 7, then 3; of the relations 12, 7, 3, 7. Nothing that
/// is lent changes.
#[test]
fn refused() {
    for door in doors() {
        let sound = tally(&door, &L);
        let mut short = vec![9; TALLY_ROOM - 1];
        assert_eq!((door.tally)(&L[..18], &mut short), 1, "{}", door.name);
        assert_eq!((door.tally)(&log(129, &[]), &mut short), 3, "{}", door.name);
        // an accepted log of more than 64 activities: 7, then 3
        let mut whole = vec![9; TALLY_ROOM];
        for a in [65, 97, 128] {
            let wide = log(a, &[&[a - 1]]);
            assert_eq!((door.tally)(&wide, &mut short), 7, "{}", door.name);
            assert_eq!((door.tally)(&wide, &mut whole), 3, "{}", door.name);
        }
        assert!(whole.iter().all(|&byte| byte == 9), "{}", door.name);
        assert_eq!((door.tally)(&L, &mut short), 7, "{}", door.name);
        assert_eq!((door.tally_join)(&mut short, &sound), 7, "{}", door.name);
        assert!(short.iter().all(|&byte| byte == 9), "{}", door.name);
        let mut above = sound.clone();
        above[0] = 65;
        for (tally, other, number) in [
            (&sound[..], &above[..], 3),
            (&above, &sound, 3),
            (&above, &above, 3),
            (&above, &sound[1..], 7),
            (&above[..36_863], &sound, 7),
            (&sound, &[], 7),
        ] {
            let mut lent = tally.to_vec();
            let given = (door.tally_join)(&mut lent, other);
            assert_eq!(given, number, "{}", door.name);
            assert!(lent == tally, "{}", door.name);
        }
        for (tally, profile, room, number) in [
            (&short[..], 2, 0, 12),
            (&above[..36_863], FULL, 0, 7),
            (&above, LIGHT, 0, 3),
            (&sound, FULL, RELATIONS_ROOM - 1, 7),
        ] {
            let mut out = vec![9; room];
            let given = (door.tally_relations)(tally, profile, &mut out);
            assert_eq!(given, number, "{}", door.name);
            assert!(out.iter().all(|&byte| byte == 9), "{}", door.name);
        }
    }
}

/// What stands beyond a tally stays, and is not looked at.
#[test]
fn longer_buffers() {
    for door in doors() {
        let sound = tally(&door, &L);
        let mut lent = vec![200; TALLY_ROOM + 9];
        assert_eq!((door.tally)(&L, &mut lent), 0, "{}", door.name);
        assert!(lent[..TALLY_ROOM] == sound && lent[TALLY_ROOM..] == [200; 9]);
        let longer = lent.clone();
        assert_eq!((door.tally_join)(&mut lent, &longer), 0, "{}", door.name);
        assert!(lent == longer, "{}", door.name);
        assert_eq!(
            read(&door, &lent, FULL),
            read(&door, &sound, FULL),
            "{}",
            door.name
        );
    }
}
