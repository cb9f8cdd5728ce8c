//! 02, 6/12: the set of enabled steps that a marking holds, with sets and numbers worked out by hand.
mod common;
use common::*;
use compare::door::{Door, Form};
use compare::judge::graph::{graph_of, marking_of, marking_value};
use compare::seeds::graphs::file;
use compare::seeds::plain;
use compare::value::{Answer, GraphValue, MarkingValue, Replayed};
use compare::{judge, yardstick};

const BY_NONE: u64 = 255 << 40;

/// executed, pending, included, enabled
fn marking([executed, pending, included, enabled]: [u128; 4]) -> MarkingValue {
    MarkingValue {
        executed,
        pending,
        included,
        enabled,
    }
}

/// A graph of three events, 0, 1, 2, no pair.
fn three(opening: [u128; 4]) -> GraphValue {
    GraphValue {
        a: 3,
        events: 7,
        marking: marking(opening),
        ..GraphValue::EMPTY
    }
}

/// A step of a door's three engines, from a marking to one and with the same answer.
fn steps(door: &Door, graph: &GraphValue, from: [u128; 4], e: u8, wanted: u64, then: [u128; 4]) {
    let (from, then) = (marking_bytes(&marking(from)), marking_bytes(&marking(then)));
    let at = (door.name, from, e);
    let mut lent = from;
    assert_eq!((door.step)(&file(graph), &mut lent, e), wanted, "{at:?}");
    assert_eq!(lent, then, "{at:?}");
    let mut lent = from;
    let given = (door.plain_step)(&plain::of(graph), &mut lent, e);
    assert_eq!(given, wanted, "plain {at:?}");
    assert_eq!(lent, then, "plain {at:?}");
    let mut table = vec![0; Form::NARROW.table()];
    table[33] = 1;
    table[34..66].copy_from_slice(&from);
    let given = (door.desk_step)(&file(graph), &mut table, 1, e);
    assert_eq!(given, wanted, "desk {at:?}");
    assert_eq!(table[34..66], then, "desk {at:?}");
}

/// On G 1 and 2 wait for 0. 0 shuts itself out and leaves 2 owed; 1 shuts itself out; 2 shuts out 1
/// and itself.
#[test]
fn a_call_on_g() {
    let g = yardstick::value::read(&g_file()).expect("G is accepted");
    assert_eq!(g.marking, marking([0, 0, 7, 1]));
    let call = [
        ([0, 0, 7, 1], 0, [1, 4, 6, 6]),
        ([1, 4, 6, 6], 1, [3, 4, 4, 4]),
        ([3, 4, 4, 4], 2, [7, 0, 0, 0]),
        ([1, 4, 6, 6], 2, [5, 0, 0, 0]),
    ];
    let refused = [
        ([0, 0, 7, 1], 2, 10),
        ([1, 4, 6, 6], 0, 9 + BY_NONE),
        ([1, 4, 6, 6], 3, 8 + BY_NONE),
        ([1, 4, 6, 6], 255, 8 + BY_NONE),
    ];
    for door in doors() {
        for (from, e, then) in call {
            steps(&door, &g, from, e, BY_NONE, then);
        }
        for (from, e, number) in refused {
            steps(&door, &g, from, e, number, from);
        }
    }
}

/// Each way in which a step of 0 changes what is enabled.
#[test]
fn what_a_step_changes() {
    let waits = |target: usize, source: u128| {
        let mut graph = three([0; 4]);
        graph.conditions[target] = 1 << source;
        graph
    };
    let mut lets_in = three([0; 4]);
    lets_in.includes[0] = 2;
    let mut shuts_out = three([0; 4]);
    shuts_out.excludes[0] = 2;
    // 1 waits for 2
    let mut shuts_out_what_holds_up = waits(1, 2);
    shuts_out_what_holds_up.excludes[0] = 4;
    let mut lets_in_what_holds_up = waits(1, 2);
    lets_in_what_holds_up.includes[0] = 4;
    // 1 waits for 2, and is let in
    let mut lets_in_what_waits = waits(1, 2);
    lets_in_what_waits.includes[0] = 2;
    let mut itself = waits(1, 0);
    itself.excludes[0] = 1;
    let cases = [
        (&lets_in, [0, 0, 1, 1], [1, 0, 3, 3]),
        (&shuts_out, [0, 0, 3, 3], [1, 0, 1, 1]),
        (&waits(1, 0), [0, 0, 3, 1], [1, 0, 3, 3]),
        (&shuts_out_what_holds_up, [0, 0, 7, 5], [1, 0, 3, 3]),
        (&lets_in_what_holds_up, [0, 0, 3, 3], [1, 0, 7, 5]),
        (&lets_in_what_holds_up, [4, 0, 3, 3], [5, 0, 7, 7]),
        (&lets_in_what_waits, [0, 0, 5, 5], [1, 0, 7, 5]),
        (&lets_in_what_waits, [4, 0, 5, 5], [5, 0, 7, 7]),
        (&itself, [0, 0, 3, 1], [1, 0, 2, 2]),
        (&three([0; 4]), [0, 0, 7, 7], [1, 0, 7, 7]),
        // what was done before stays enabled
        (&three([0; 4]), [7, 0, 5, 5], [7, 0, 5, 5]),
    ];
    for door in doors() {
        for (graph, from, then) in &cases {
            steps(&door, graph, *from, 0, BY_NONE, *then);
        }
    }
}

/// Events 0 and 2 of A 3, both included, 2 waits for 0: 0 alone is enabled.
#[test]
fn a_false_set_is_not_believed() {
    let mut graph = three([0, 0, 5, 1]);
    graph.events = 5;
    graph.conditions[2] = 1;
    let all = u128::from(u64::MAX);
    for door in doors() {
        steps(&door, &graph, [0, 0, 5, 1], 0, BY_NONE, [1, 0, 5, 5]);
        // none, one too many, another, no event, not below A, the last that a set can hold, all
        for set in [0, 5, 4, 3, 9, 1 + (1 << 63), all] {
            let untrue = [0, 0, 5, set];
            for e in [0, 1, 2, 200] {
                steps(&door, &graph, untrue, e, 16 + BY_NONE, untrue);
            }
            // every 5 first: of executed, pending, included
            for stray in [[2, 0, 5, set], [0, 8, 5, set], [0, 0, 7, set]] {
                steps(&door, &graph, stray, 0, 5 + BY_NONE, stray);
            }
        }
        // the empty marking is true
        steps(&door, &graph, [0; 4], 0, 9 + BY_NONE, [0; 4]);
    }
}

/// The opening marking of a file: the file's refusals, 7, else 32 bytes and no more.
#[test]
fn the_opening_of_a_file() {
    let g = g_file();
    let opening = marking_bytes(&marking([0, 0, 7, 1]));
    // the paper's graph: 0 and 1 wait for each other, and 1 is not included
    let mut paper = GraphValue {
        a: 4,
        events: 15,
        marking: marking([0, 1, 13, 0]),
        ..GraphValue::EMPTY
    };
    paper.conditions[0] = 2;
    paper.conditions[1] = 1;
    for door in doors() {
        let mut lent = [165; 40];
        assert_eq!((door.opening)(&g, &mut lent), 0, "{}", door.name);
        assert_eq!(lent[..32], opening, "{}", door.name);
        assert_eq!(lent[32..], [165; 8], "{}", door.name);
        assert_eq!((door.opening)(&g, &mut lent[..32]), 0, "{}", door.name);
        for (file, room, wanted) in [(&g[..], 31, 7), (&g, 24, 7), (&g, 0, 7), (&g[..123], 0, 1)] {
            let mut lent = vec![165; room];
            assert_eq!((door.opening)(file, &mut lent), wanted, "{}", door.name);
            assert_eq!(lent, vec![165; room], "{}", door.name);
        }
        let mut lent = [165; 32];
        assert_eq!((door.opening)(&file(&paper), &mut lent), 0);
        let wanted = marking_bytes(&marking([0, 1, 13, 13]));
        assert_eq!(lent, wanted, "{}", door.name);
    }
}

/// Judge and yardstick on a value.
fn replayed(graph: &GraphValue, trace: &[u8]) -> [Replayed; 2] {
    let done = judge::engine::replay(&graph_of(graph), trace);
    let ours = Replayed {
        answer: done.answer,
        place: done.place,
        marking: marking_value(&done.marking),
        accepting: done.accepting,
    };
    [ours, yardstick::engine::replay(graph, trace)]
}

/// Replay gives its marking with the set, also where a step is refused; and the empty marking
/// where the graph's own set is false, after 3 and 5.
#[test]
fn replays_of_values() {
    let g = yardstick::value::read(&g_file()).expect("G is accepted");
    let cases: [(&[u8], u8, [u128; 4]); 5] = [
        (&[], 0, [0, 0, 7, 1]),
        (&[0], 0, [1, 4, 6, 6]),
        (&[0, 0], 9, [1, 4, 6, 6]),
        (&[0, 2, 1], 9, [5, 0, 0, 0]),
        (&[2], 10, [0, 0, 7, 1]),
    ];
    for (trace, number, then) in cases {
        for done in replayed(&g, trace) {
            let given = (done.answer.number, done.marking);
            assert_eq!(given, (number, marking(then)), "{trace:?}");
        }
    }
    let mut untrue = g.clone();
    untrue.marking.enabled = 7;
    let mut stray = untrue.clone();
    stray.excludes[2] = 8;
    for (graph, trace, number) in [
        (&untrue, &[0; 512][..], 16),
        (&untrue, &[0; 513], 3),
        (&stray, &[0], 5),
    ] {
        for done in replayed(graph, trace) {
            assert_eq!(done, Replayed::refused(number));
        }
    }
}

/// A write: 3, 5, 16, then 7. The file has no place for the set, so a true one leaves no trace.
#[test]
fn reading_22_write() {
    let g = yardstick::value::read(&g_file()).expect("G is accepted");
    let with = |change: fn(&mut GraphValue)| {
        let mut graph = g.clone();
        graph.marking.enabled = 9;
        change(&mut graph);
        graph
    };
    for (graph, room, wanted) in [
        (with(|g| g.a = 129), 0, 3),
        (with(|g| g.excludes[2] = 8), 0, 5),
        (with(|_| ()), 0, 16),
        (with(|_| ()), 124, 16),
        (with(|g| g.marking.enabled = 1), 123, 7),
    ] {
        let (mut ours, mut theirs) = (vec![9; room], vec![9; room]);
        let judged = judge::graph_file::write(&graph_of(&graph), &mut ours);
        let measured = yardstick::value::write(&graph, &mut theirs);
        assert_eq!((judged, measured), (Err(wanted), Err(wanted)));
        assert_eq!((&ours, &theirs), (&vec![9; room], &vec![9; room]));
    }
    let mut file = [0; 124];
    assert_eq!(judge::graph_file::write(&graph_of(&g), &mut file), Ok(124));
    assert_eq!(file[..], g_file());
}

/// A graph and a marking beside it: the graph's 5, the marking's 5, the graph's 16, the marking's 16,
/// then 8.
#[test]
fn every_five_before_any_sixteen() {
    let sound = three([0, 0, 7, 7]);
    let mut untrue = sound.clone();
    untrue.marking.enabled = 15;
    let mut stray = untrue.clone();
    stray.marking.pending = 8;
    let cases = [
        (&stray, [0, 0, 7, 7], 5),
        (&stray, [0, 0, 7, 6], 5),
        (&untrue, [8, 0, 7, 7], 5),
        (&untrue, [8, 0, 7, 6], 5),
        (&sound, [8, 0, 7, 6], 5),
        (&untrue, [0, 0, 7, 7], 16),
        (&untrue, [0, 0, 7, 6], 16),
        (&sound, [0, 0, 7, 6], 16),
        (&sound, [0, 0, 7, 7], 8),
    ];
    for (graph, from, number) in cases {
        let from = marking(from);
        let wanted = Err(Answer::from(number));
        let mut sets = marking_of(&from);
        let mut words = from;
        assert_eq!(judge::engine::enabled(&graph_of(graph), &sets, 3), wanted);
        assert_eq!(
            judge::engine::execute(&graph_of(graph), &mut sets, 3),
            wanted
        );
        assert_eq!(yardstick::engine::execute(graph, &mut words, 3), wanted);
        assert_eq!((marking_value(&sets), words), (from, from));
        let done = if number == 8 { Ok(true) } else { Err(number) };
        assert_eq!(judge::engine::accepting(&graph_of(graph), &sets), done);
        assert_eq!(yardstick::engine::accepting(graph, &words), done);
    }
}
