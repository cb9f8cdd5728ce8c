//! Marks, with results worked out by hand from 02's 9/12 on 01's G.
mod common;
use common::*;
use compare::door::{Door, MARKS_ROOM};
use compare::seeds::log_file;

/// On G: yes, yes, done and not accepting, 10, yes, and an activity that G lacks: a no.
fn calls() -> Vec<u8> {
    let traces = [&[0, 1, 2][..], &[0, 2], &[0], &[2], &[], &[3]];
    log_file(4, &traces.map(<[u8]>::to_vec))
}

fn text(given: impl Fn(&Door, &mut [u8]) -> u64, wanted: (u64, &str)) {
    for door in doors() {
        let mut out = [165; MARKS_ROOM + 2];
        let number = given(&door, &mut out);
        let length = (number / 256) as usize;
        assert_eq!(number % 256, wanted.0, "{}", door.name);
        assert_eq!(&out[..length], wanted.1.as_bytes(), "{}", door.name);
        assert!(
            out[length..].iter().all(|&byte| byte == 165),
            "{}",
            door.name
        );
    }
}

fn of_graph(labels: &[u8], wanted: (u64, &str)) {
    text(
        |door, out| (door.marks_text)(&g_file(), &calls(), labels, out),
        wanted,
    );
}

fn of_guesses(guesses: &[u8], labels: &[u8], wanted: (u64, &str)) {
    text(
        |door, out| (door.guesses_text)(guesses, labels, out),
        wanted,
    );
}

const MARKS: &str = "TP 2\nFP 1\nFN 2\nTN 1\nprecision 2 3\nrecall 2 4\naccuracy 3 6\n";

#[test]
fn on_g() {
    of_graph(&[1, 0, 1, 0, 1, 1], (0, MARKS));
    of_guesses(&[1, 1, 0, 0, 1, 0], &[1, 0, 1, 0, 1, 1], (0, MARKS));
    for door in doors() {
        let given = (door.marks)(&g_file(), &calls(), &[1, 0, 1, 0, 1, 1]);
        assert_eq!(given, 2 << 8 | 1 << 20 | 2 << 32 | 1 << 44, "{}", door.name);
    }
}

/// A zero denominator prints as `none`.
#[test]
fn none() {
    let all = "TP 0\nFP 0\nFN 0\nTN 0\nprecision none\nrecall none\naccuracy none\n";
    of_guesses(&[], &[], (0, all));
    let no = "TP 0\nFP 0\nFN 2\nTN 1\nprecision none\nrecall 0 2\naccuracy 1 3\n";
    of_guesses(&[0, 0, 0], &[1, 0, 1], (0, no));
    let yes = "TP 0\nFP 2\nFN 0\nTN 0\nprecision 0 2\nrecall none\naccuracy 0 2\n";
    of_guesses(&[1, 1], &[0, 0], (0, yes));
}

/// 18 before 19; of guesses 3 before both; and 7 before all, no byte changed.
#[test]
fn refused() {
    of_graph(&[1, 0, 1, 0, 1], (18, "refused 18\n"));
    of_graph(&[2, 0, 1, 0, 1, 1, 1], (18, "refused 18\n"));
    of_graph(&[1, 0, 1, 0, 1, 2], (19, "refused 19\n"));
    of_graph(&[255, 0, 1, 0, 1, 1], (19, "refused 19\n"));
    of_guesses(&[1], &[2, 1], (18, "refused 18\n"));
    of_guesses(&[1, 2], &[1, 1], (19, "refused 19\n"));
    of_guesses(&[1, 1], &[1, 2], (19, "refused 19\n"));
    of_guesses(&[1; 1024], &[2; 1025], (3, "refused 3\n"));
    for door in doors() {
        let mut out = [165; MARKS_ROOM - 1];
        let given = (door.guesses_text)(&[2], &[], &mut out);
        assert_eq!((given, out), (7, [165; MARKS_ROOM - 1]), "{}", door.name);
        let refused = (door.marks)(&g_file()[1..], &calls()[1..], &[]);
        assert_eq!(refused, 2, "{}: the log before the file", door.name);
    }
}

/// A byte for each trace; 7 for one too few.
#[test]
fn replays() {
    for door in doors() {
        let mut out = [165; 7];
        let given = (door.replays)(&g_file(), &calls(), &mut out);
        assert_eq!(given, 6 << 8, "{}", door.name);
        assert_eq!(out, [128, 128, 0, 10, 128, 8, 165], "{}", door.name);
        let mut out = [165; 5];
        let given = (door.replays)(&g_file(), &calls(), &mut out);
        assert_eq!((given, out), (7, [165; 5]), "{}", door.name);
    }
}
