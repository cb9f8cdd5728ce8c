//! 01's "Calls to try", the light profile of 02 and the telling inputs of the readings on
//! mining. Every expected line was worked out by hand from the documents and the readings.
mod common;
use common::*;
use compare::door::{FULL, LIGHT};
use compare::{judge, yardstick};

#[test]
fn l_is_listed_as_in_01() {
    let wanted = "events 3 C 2 R 2 I 1 E 4 traces 2\nC 0 1\nC 0 2\nR 0 2\nR 1 2\nI 0 1\n\
                  E 0 0\nE 1 1\nE 2 1\nE 2 2\nT 0 3 0 1\nT 1 2 0 1\n";
    for door in doors() {
        assert_eq!(listing(&door, &L), wanted, "{}", door.name);
    }
}

#[test]
fn l_gives_the_file_of_g() {
    for door in doors() {
        let mut room = vec![9; 130];
        assert_eq!((door.mine)(&L, FULL, &mut room), 256 * 124, "{}", door.name);
        assert_eq!(room[..124], g_file(), "{}", door.name);
        assert_eq!(room[124..], [9; 6], "{}", door.name);
    }
}

#[test]
fn short_logs_of_01() {
    let cases: [(&[&[u8]], u8, &str); 3] = [
        (
            &[&[0, 1, 0]],
            2,
            "events 2 C 1 R 1 I 2 E 2 traces 1\nC 0 1\nR 1 0\nI 0 1\nI 1 0\nE 0 0\nE 1 1\n\
             T 0 3 0 1\n",
        ),
        (
            &[&[0], &[1]],
            2,
            "events 2 C 0 R 0 I 0 E 4 traces 2\nE 0 0\nE 0 1\nE 1 0\nE 1 1\nT 0 1 0 1\n\
             T 1 1 0 1\n",
        ),
        (
            &[&[0, 0]],
            1,
            "events 1 C 0 R 0 I 0 E 0 traces 1\nT 0 2 0 1\n",
        ),
    ];
    for (traces, a, wanted) in cases {
        for door in doors() {
            assert_eq!(listing(&door, &log(a, traces)), wanted, "{}", door.name);
        }
    }
}

#[test]
fn a_refused_log_prints_one_line() {
    for door in doors() {
        assert_eq!(listing(&door, &L[..18]), "refused 1\n", "{}", door.name);
        assert_eq!(
            listing(&door, &log(1, &[&[1]])),
            "refused 5\n",
            "{}",
            door.name
        );
    }
}

/// Step 6: u may be s or t, and t is any later t.
#[test]
fn reading_1_what_stands_between() {
    let whole = "C 0 1, C 1 2, R 0 1, R 1 2, I 0 1, I 0 2, I 1 2, E 0 2, E 1 0, E 1 1, E 2 2";
    for door in doors() {
        assert_eq!(
            pairs(&door, &log(3, &[&[0, 0, 1, 2]])),
            whole,
            "{}",
            door.name
        );
        assert!(
            has(&door, &log(3, &[&[0, 1, 2, 2]]), "I 2 2"),
            "{}",
            door.name
        );
        let later = log(4, &[&[0, 1, 2, 3, 2], &[2, 2]]);
        assert!(has(&door, &later, "I 3 2"), "{}", door.name);
    }
}

/// Step 7: u may be t, and all pairs are judged as they stood.
#[test]
fn reading_2_redundant_excludes() {
    let whole = "C 1 0, R 1 0, I 1 0, E 0 0, E 1 1";
    for door in doors() {
        assert_eq!(pairs(&door, &log(2, &[&[1, 0]])), whole, "{}", door.name);
        let at_once = log(4, &[&[0, 3, 1, 3, 3, 2, 1, 2]]);
        assert!(!has(&door, &at_once, "E 2 0"), "{}", door.name);
        assert!(!has(&door, &at_once, "E 1 0"), "{}", door.name);
        assert!(has(&door, &at_once, "E 3 0"), "{}", door.name);
    }
}

/// 02, 7/12: what another step lets in again is not redundantly excluded.
#[test]
fn reading_19_exclusions_that_were_not_redundant() {
    let whole = "C 0 1, C 1 2, R 0 1, R 1 2, I 0 1, I 1 2, E 0 0, E 0 2, E 1 1, E 2 2";
    let kept: [(u8, &[&[u8]], &str); 7] = [
        (3, &[&[0, 1, 0, 2]], "E 2 0"),
        (3, &[&[0, 1, 2, 0, 1]], "E 1 0"),
        (4, &[&[0, 1, 0, 1], &[0, 1, 2, 3]], "E 1 3"),
        (4, &[&[0, 1, 2, 0, 2, 3]], "E 3 1"),
        (4, &[&[0, 1, 2, 3, 0]], "E 2 0"),
        (2, &[&[0, 1, 1]], "E 1 0"),
        (4, &[&[0, 1, 2, 3], &[0, 1, 3]], "E 3 2"),
    ];
    let lost: [(u8, &[&[u8]], &str); 2] = [
        (4, &[&[0, 1, 2, 3]], "E 3 2"),
        (3, &[&[0, 1, 2, 0]], "E 2 1"),
    ];
    for door in doors() {
        assert_eq!(pairs(&door, &log(3, &[&[0, 1, 2]])), whole, "{}", door.name);
        for (a, traces, pair) in kept {
            assert!(has(&door, &log(a, traces), pair), "{} {pair}", door.name);
        }
        for (a, traces, pair) in lost {
            assert!(!has(&door, &log(a, traces), pair), "{} {pair}", door.name);
        }
    }
}

/// Step 5 takes a self-exclusion of step 3 for one; steps 4 and 5 look at their own pairs.
/// A full graph hides both.
#[test]
fn readings_3_and_4_in_the_light_graph() {
    for door in doors() {
        let light = |a: u8, traces: &[&[u8]]| {
            let all = pairs_in(&door, &log(a, traces), LIGHT);
            let kept: Vec<&str> = all.split(", ").filter(|p| p.starts_with('E')).collect();
            kept.join(", ")
        };
        let chained = light(5, &[&[1, 2, 1, 2, 4], &[4]]);
        assert_eq!(chained, "E 2 2, E 4 1, E 4 4", "{}", door.name);
        let apart = light(2, &[&[0], &[1]]);
        assert_eq!(apart, "E 0 0, E 0 1, E 1 0, E 1 1", "{}", door.name);
        let closed = light(3, &[&[0, 0, 1], &[0, 0, 2]]);
        assert_eq!(closed, "E 1 0, E 1 1, E 1 2, E 2 1, E 2 2", "{}", door.name);
    }
}

/// 02, 3/12: light on L has E 0 0, 1 1, 2 2 and otherwise the pairs of G.
#[test]
fn l_is_listed_lightly_as_in_02() {
    let wanted = "events 3 C 2 R 2 I 1 E 3 traces 2\nC 0 1\nC 0 2\nR 0 2\nR 1 2\nI 0 1\n\
                  E 0 0\nE 1 1\nE 2 2\nT 0 3 0 1\nT 1 2 0 1\n";
    for door in doors() {
        assert_eq!(listing_in(&door, &L, LIGHT), wanted, "{}", door.name);
    }
}

/// The summary of L: 0 is a condition for 1 and 2; in the full graph 2 excludes 1.
#[test]
fn summaries_of_l() {
    for door in doors() {
        for (profile, excluded) in [(FULL, 1), (LIGHT, 0)] {
            let mut wanted = [0; 130];
            wanted[0] = 2;
            wanted[64 + 2] = excluded;
            wanted[128..].fill(9);
            let mut room = [9; 130];
            assert_eq!((door.summary)(&L, profile, &mut room), 0, "{}", door.name);
            assert_eq!(room, wanted, "{}", door.name);
        }
    }
}

/// 12 comes before the log is read, and changes nothing lent; a summary's log comes before 7.
#[test]
fn no_such_profile() {
    for door in doors() {
        for profile in [2, 255] {
            let mut room = [9; 200];
            assert_eq!((door.mine)(&[], profile, &mut room), 12, "{}", door.name);
            assert_eq!((door.listing)(&[], profile, &mut room), 12, "{}", door.name);
            assert_eq!((door.summary)(&[], profile, &mut room), 12, "{}", door.name);
            assert_eq!(room, [9; 200], "{}", door.name);
        }
        let mut short = [9; 127];
        assert_eq!((door.summary)(&L, FULL, &mut short), 7, "{}", door.name);
        assert_eq!(
            (door.summary)(&L[..18], FULL, &mut short),
            1,
            "{}",
            door.name
        );
        assert_eq!(short, [9; 127], "{}", door.name);
    }
}

/// Step 8: the middle may be one of the two ends.
#[test]
fn reading_5_reduction_on_other_rows() {
    let events = [0, 1].into();
    assert!(judge::steps::reduced(&events, &[(0, 0), (0, 1)].into()).is_empty());
    let mut rows = [0u64; 64];
    rows[0] = 3;
    assert_eq!(yardstick::rows::reduced(&rows), [0; 64]);
}

/// Step 9: before the first t; judged before t's own effects; both halves needed.
#[test]
fn reading_6_further_conditions() {
    for door in doors() {
        let found = |traces: &[&[u8]]| pairs_of(&door, 'C', &log(3, traces));
        assert_eq!(found(&[&[0, 1, 2, 1]]), "C 0 1, C 1 2", "{}", door.name);
        assert_eq!(found(&[&[0], &[1, 0]]), "", "{}", door.name);
        assert_eq!(found(&[&[1, 0, 2]]), "C 0 2, C 1 0", "{}", door.name);
    }
}

/// The empty trace is accepted, also where the log has no trace and no activity.
#[test]
fn reading_7_the_empty_trace() {
    for door in doors() {
        for empty in [log(0, &[]), log(0, &[&[], &[]]), log(5, &[])] {
            let mut file = vec![0; 52];
            assert_eq!(
                (door.mine)(&empty, FULL, &mut file),
                256 * 52,
                "{}",
                door.name
            );
            assert_eq!(
                replay(&door, &file, &[]),
                (0, 255, 0, true),
                "{}",
                door.name
            );
        }
        let lines = "events 0 C 0 R 0 I 0 E 0 traces 2\nT 0 0 0 1\nT 1 0 0 1\n";
        assert_eq!(listing(&door, &log(0, &[&[], &[]])), lines, "{}", door.name);
    }
}

/// Transitive reduction in one go: the order of the pairs 1 2, 0 3, 1 3 would matter here.
#[test]
fn step_8_does_not_judge_while_pairs_go() {
    for door in doors() {
        let chain = log(4, &[&[1, 0, 2, 3]]);
        assert_eq!(
            pairs_of(&door, 'R', &chain),
            "R 0 2, R 1 0, R 2 3",
            "{}",
            door.name
        );
        assert_eq!(
            pairs_of(&door, 'C', &chain),
            "C 0 2, C 1 0, C 2 3",
            "{}",
            door.name
        );
    }
}
