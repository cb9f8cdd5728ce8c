//! Steps, replay and graphs as values, with results worked out by hand from 01.
mod common;
use common::*;
use compare::judge::graph::{graph_of, marking_of, marking_value};
use compare::seeds::graphs::file;
use compare::value::{Answer, GraphValue, MarkingValue, Replayed};
use compare::yardstick::engine::kept;
use compare::{judge, yardstick};

fn set(members: &[u8]) -> u128 {
    members.iter().map(|a| 1u128 << a).sum()
}

/// What is enabled then stands in `tests/enabled.rs` by hand; here it is worked out.
fn marking(graph: &GraphValue, executed: &[u8], pending: &[u8], included: &[u8]) -> MarkingValue {
    let sets = MarkingValue {
        executed: set(executed),
        pending: set(pending),
        included: set(included),
        enabled: 0,
    };
    kept(graph, sets)
}

/// Judge and yardstick on a step of a value.
fn executed(
    graph: &GraphValue,
    from: MarkingValue,
    e: u8,
) -> [(Result<(), Answer>, MarkingValue); 2] {
    let mut sets = marking_of(&from);
    let ours = judge::engine::execute(&graph_of(graph), &mut sets, e);
    let mut words = from;
    let theirs = yardstick::engine::execute(graph, &mut words, e);
    [(ours, marking_value(&sets)), (theirs, words)]
}

fn replayed(graph: &GraphValue, trace: &[u8]) -> [Replayed; 2] {
    let done = judge::engine::replay(&graph_of(graph), trace);
    let ours = Replayed {
        answer: done.answer,
        place: done.place,
        marking: marking_value(&done.marking),
        accepting: done.accepting,
    };
    [ours, yardstick::engine::replay(graph, trace)]
}

fn g() -> GraphValue {
    yardstick::value::read(&g_file()).expect("G is accepted")
}

#[test]
fn traces_on_g() {
    let cases: [(&[u8], Outcome); 8] = [
        (&[], (0, 255, 0, true)),
        (&[0], (0, 255, 1, false)),
        (&[2], (10, 0, 0, false)),
        (&[0, 0], (9, 255, 1, false)),
        (&[0, 2, 1], (9, 255, 2, false)),
        (&[3], (8, 255, 0, false)),
        (&[255], (8, 255, 0, false)),
        (&[0, 1, 2], (0, 255, 3, true)),
    ];
    for (trace, wanted) in cases {
        for door in doors() {
            assert_eq!(
                replay(&door, &g_file(), trace),
                wanted,
                "{} {trace:?}",
                door.name
            );
        }
    }
}

/// After 0 on G: 2 pending, 0 shut out. A refusal gives the marking before its event.
#[test]
fn reading_12_marking_of_a_replay() {
    let after_0 = marking(&g(), &[0], &[2], &[1, 2]);
    for done in replayed(&g(), &[0]) {
        assert_eq!(
            done,
            Replayed {
                answer: 0.into(),
                place: 1,
                marking: after_0,
                accepting: false
            }
        );
    }
    for done in replayed(&g(), &[0, 0, 1]) {
        assert_eq!(
            done,
            Replayed {
                answer: 9.into(),
                place: 1,
                marking: after_0,
                accepting: false
            }
        );
    }
}

/// The paper's Table 3, strings read from the left.
#[test]
fn table_3() {
    let mut graph = GraphValue {
        a: 8,
        events: 255,
        ..GraphValue::EMPTY
    };
    graph.responses[4] = set(&[2]);
    graph.includes[4] = set(&[2]);
    graph.excludes[4] = set(&[7]);
    let from = marking(&graph, &[0], &[1, 4], &[1, 4, 7]);
    let then = marking(&graph, &[0, 4], &[1, 2], &[1, 2, 4]);
    for outcome in executed(&graph, from, 4) {
        assert_eq!(outcome, (Ok(()), then));
    }
    for door in doors() {
        let mut lent = marking_bytes(&from);
        assert_eq!(
            answer((door.step)(&file(&graph), &mut lent, 4)),
            (0, 255),
            "{}",
            door.name
        );
        assert_eq!(lent, marking_bytes(&then), "{}", door.name);
    }
}

/// a, b, c, d of the paper's example are 0, 1, 2, 3.
fn paper_graph() -> GraphValue {
    let mut graph = GraphValue {
        a: 4,
        events: 15,
        ..GraphValue::EMPTY
    };
    graph.conditions[1] = set(&[0]);
    graph.conditions[0] = set(&[1]);
    graph.responses[0] = set(&[1]);
    graph.responses[1] = set(&[0]);
    graph.includes[2] = set(&[1]);
    graph.excludes[3] = set(&[1, 3]);
    graph.marking = marking(&graph, &[], &[0], &[0, 2, 3]);
    graph
}

#[test]
fn the_papers_graph() {
    let cases: [(&[u8], Outcome); 7] = [
        (&[0], (0, 255, 1, true)),
        (&[0, 2, 1, 3, 0], (0, 255, 5, true)),
        (&[2, 3, 2], (0, 255, 3, false)),
        (&[2, 3, 2, 0], (10, 1, 3, false)),
        (&[2, 3, 2, 1], (10, 0, 3, false)),
        (&[2, 3, 2, 3], (9, 255, 3, false)),
        (&[], (0, 255, 0, false)),
    ];
    let bytes = file(&paper_graph());
    for (trace, wanted) in cases {
        for door in doors() {
            assert_eq!(
                replay(&door, &bytes, trace),
                wanted,
                "{} {trace:?}",
                door.name
            );
        }
    }
}

/// An include wins over an exclude of the same pair; a self-response stays pending.
#[test]
fn order_of_the_effects() {
    let mut graph = GraphValue {
        a: 2,
        events: 3,
        ..GraphValue::EMPTY
    };
    graph.responses[0] = set(&[0]);
    graph.includes[0] = set(&[1]);
    graph.excludes[0] = set(&[0, 1]);
    graph.marking = kept(&graph, graph.marking);
    let from = marking(&graph, &[], &[0, 1], &[0]);
    let then = marking(&graph, &[0], &[0, 1], &[1]);
    for outcome in executed(&graph, from, 0) {
        assert_eq!(outcome, (Ok(()), then));
    }
}

#[test]
fn lengths_512_and_513() {
    let mut graph = GraphValue {
        a: 1,
        events: 1,
        ..GraphValue::EMPTY
    };
    graph.marking = marking(&graph, &[], &[], &[0]);
    let bytes = file(&graph);
    for door in doors() {
        assert_eq!(
            replay(&door, &bytes, &[0; 512]),
            (0, 255, 512, true),
            "{}",
            door.name
        );
        assert_eq!(
            replay(&door, &bytes, &[0; 513]),
            (3, 255, 0, false),
            "{}",
            door.name
        );
    }
    for done in replayed(&graph, &[0; 513]) {
        assert_eq!(done, Replayed::refused(3));
    }
}

/// Values that readings 10 and 11 refuse, and the empty row that they don't.
#[test]
fn readings_10_and_11_graph_values() {
    let sound = GraphValue {
        a: 3,
        events: set(&[0, 2]),
        ..GraphValue::EMPTY
    };
    let with = |change: fn(&mut GraphValue)| {
        let mut graph = sound.clone();
        change(&mut graph);
        graph
    };
    let cases = [
        (8, sound.clone()),
        (3, with(|g| g.a = 129)),
        (5, with(|g| g.a = 2)),
        (5, with(|g| g.marking.executed = 2)),
        (5, with(|g| g.marking.pending = 2)),
        (5, with(|g| g.marking.included = 8)),
        (5, with(|g| g.conditions[0] = 2)),
        (5, with(|g| g.responses[1] = 1)),
        (5, with(|g| g.includes[63] = 4)),
        (5, with(|g| g.excludes[2] = 1 << 63)),
        (8, with(|g| g.excludes[2] = 5)),
    ];
    for (wanted, graph) in cases {
        for done in replayed(&graph, &[255]) {
            assert_eq!((done.answer, done.place), (wanted.into(), 0), "{graph:?}");
        }
        for (outcome, _) in executed(&graph, MarkingValue::default(), 1) {
            assert_eq!(outcome, Err(wanted.into()), "{graph:?}");
        }
    }
}

/// A marking of too few bytes gives 7, after the file's own refusals and before 5.
#[test]
fn a_marking_too_short() {
    let stray = marking_bytes(&marking(&g(), &[63], &[], &[]));
    for door in doors() {
        for (file, length, wanted) in [
            (&g_file()[..51], 31, 1),
            (&g_file(), 31, 7),
            (&g_file(), 24, 7),
            (&g_file(), 0, 7),
            (&g_file(), 32, 5),
        ] {
            let mut lent = stray[..length].to_vec();
            let given = answer((door.step)(file, &mut lent, 0));
            assert_eq!(given, (wanted, 255), "{}", door.name);
            assert_eq!(lent, stray[..length], "{}", door.name);
        }
    }
}

/// The marking handed beside a graph: 5 after the graph's own, before 8; left as it was.
#[test]
fn a_marking_beside_the_graph() {
    let stray = marking(&g(), &[], &[], &[0, 3]);
    for outcome in executed(&g(), stray, 200) {
        assert_eq!(outcome, (Err(5.into()), stray));
    }
    for door in doors() {
        let mut lent = marking_bytes(&stray);
        let given = answer((door.step)(&g_file(), &mut lent, 200));
        assert_eq!(given, (5, 255), "{}", door.name);
        assert_eq!(lent, marking_bytes(&stray), "{}", door.name);
    }
    for (e, number, blocker) in [(3, 8, 255), (0, 9, 255), (2, 10, 0)] {
        let wanted = Answer { number, blocker };
        let included: &[u8] = if e == 0 { &[1] } else { &[0, 1, 2] };
        let from = marking(&g(), &[], &[1], included);
        for outcome in executed(&g(), from, e) {
            assert_eq!(outcome, (Err(wanted), from));
        }
    }
}

/// 02, 2/12: conditions 1, 3, 5 and 63 to 2. The smallest that is included and not executed.
#[test]
fn the_smallest_blocks() {
    let all = set(&[1, 2, 3, 5, 63]);
    let mut graph = GraphValue {
        a: 64,
        events: all,
        ..GraphValue::EMPTY
    };
    graph.conditions[2] = set(&[1, 3, 5, 63]);
    let cases: [(&[u8], &[u8], (u64, u64)); 7] = [
        (&[], &[1, 2, 3, 5, 63], (10, 1)),
        (&[1], &[1, 2, 3, 5, 63], (10, 3)),
        (&[], &[2, 5, 63], (10, 5)),
        (&[3], &[2, 3, 63], (10, 63)),
        (&[1, 3, 5, 63], &[1, 2, 3, 5, 63], (0, 255)),
        (&[], &[2], (0, 255)),
        (&[], &[1, 3, 5, 63], (9, 255)),
    ];
    for (executed, included, wanted) in cases {
        for door in doors() {
            let mut lent = marking_bytes(&marking(&graph, executed, &[], included));
            let given = answer((door.step)(&file(&graph), &mut lent, 2));
            assert_eq!(given, wanted, "{} {executed:?} {included:?}", door.name);
        }
    }
}

/// A write judges 3 and 5 before 7.
#[test]
fn reading_13_write() {
    let mut large = g();
    large.a = 129;
    let mut stray = g();
    stray.excludes[2] = 8;
    for (graph, wanted) in [(large, 3), (stray, 5), (g(), 7)] {
        let mut none = [];
        assert_eq!(
            judge::graph_file::write(&graph_of(&graph), &mut none),
            Err(wanted)
        );
        assert_eq!(yardstick::value::write(&graph, &mut none), Err(wanted));
    }
}
