//! The way out, and what shut a step out, with results worked out by hand from 02's 8/12.
mod common;
use common::*;
use compare::door::Door;
use compare::seeds::graphs::file;
use compare::value::{GraphValue, MarkingValue};
use compare::yardstick::engine::kept;

const NONE: [u8; 4] = [255; 4];

/// A graph of three events, 0, 1, 2, all included, with these pending.
fn three(pending: u128) -> GraphValue {
    let mut graph = GraphValue {
        a: 3,
        events: 7,
        ..GraphValue::EMPTY
    };
    graph.marking.pending = pending;
    graph.marking.included = 7;
    graph
}

/// The number, and four bytes that had 165, at the graph's marking with its set.
fn finish(door: &Door, graph: &GraphValue) -> (u64, [u8; 4]) {
    let mut way = [165; 4];
    let marking = marking_bytes(&kept(graph, graph.marking));
    let number = (door.finish)(&file(graph), &marking, &mut way);
    (number, way)
}

fn gives(graph: &GraphValue, way: &[u8]) {
    let mut wanted = NONE;
    wanted[..way.len()].copy_from_slice(way);
    for door in doors() {
        let given = finish(&door, graph);
        assert_eq!(given, (0, wanted), "{}", door.name);
    }
}

/// On G after ⟨0⟩ 2 is owed and enabled: ⟨2⟩. Before it nothing is owed: ⟨⟩.
#[test]
fn on_g() {
    let g = g_file();
    for door in doors() {
        let mut way = [165; 6];
        let begun = marking_bytes(&MarkingValue {
            executed: 1,
            pending: 4,
            included: 6,
            enabled: 6,
        });
        assert_eq!((door.finish)(&g, &begun, &mut way), 0, "{}", door.name);
        assert_eq!(way, [2, 255, 255, 255, 165, 165], "{}", door.name);
        let mut opening = [0; MARKING];
        assert_eq!((door.opening)(&g, &mut opening), 0, "{}", door.name);
        assert_eq!((door.finish)(&g, &opening, &mut way), 0, "{}", door.name);
        assert_eq!(way, [255, 255, 255, 255, 165, 165], "{}", door.name);
    }
}

/// Five graphs on which a search that cuts too much loses its answer.
#[test]
fn prunings_that_look_right() {
    // 1 changes executed alone, and frees 0
    let mut graph = three(1);
    graph.conditions[0] = 2;
    gives(&graph, &[1, 0]);
    // 1 leaves 0 owed, so 0 comes after it
    let mut graph = three(2);
    graph.responses[1] = 1;
    gives(&graph, &[1, 0]);
    // two are owed, and one step settles both: 1 shuts 0 out
    let mut graph = three(3);
    graph.excludes[1] = 1;
    gives(&graph, &[1]);
    // 0 frees 1, and leaves 2 owed beside it
    let mut graph = three(2);
    graph.conditions[1] = 1;
    graph.responses[0] = 4;
    gives(&graph, &[0, 1, 2]);
    // 0 was done and is not owed, but it shuts 1 out, which waits for 2; 2 waits for itself
    let mut graph = three(2);
    graph.marking.executed = 1;
    graph.excludes[0] = 2;
    gives(&graph, &[0]);
}

/// Of equally short ways the first by numbers, read from the left: 0 and 1 both shut 2 out.
#[test]
fn first_by_numbers() {
    let mut graph = three(4);
    graph.excludes[1] = 4;
    gives(&graph, &[1]);
    graph.excludes[0] = 4;
    gives(&graph, &[0]);
    // the shortest before the first: ⟨2⟩, not ⟨0,2⟩
    gives(&three(4), &[2]);
    // two owed, in any order: the lower first
    gives(&three(6), &[1, 2]);
}

/// Five steps owed that nothing shuts out need five steps: 17, and the bytes stay. Four are
/// settled by four. A step that waits for itself is never done.
#[test]
fn none_within_four() {
    let mut graph = GraphValue {
        a: 6,
        events: 63,
        ..GraphValue::EMPTY
    };
    graph.marking.included = 63;
    graph.marking.pending = 0b11110;
    gives(&graph, &[1, 2, 3, 4]);
    graph.marking.pending = 0b11111;
    let mut stuck = three(1);
    stuck.conditions[0] = 1;
    for door in doors() {
        for graph in [&graph, &stuck] {
            let given = finish(&door, graph);
            assert_eq!(given, (17, [165; 4]), "{}", door.name);
        }
    }
    // pending and shut out is not owed
    stuck.marking.included = 6;
    gives(&stuck, &[]);
}

/// The file's refusals, then 7, for the marking or the way, then the marking's 5, its 16, then 17.
#[test]
fn refusals_in_order() {
    let mut stuck = three(1);
    stuck.conditions[0] = 1;
    let sound = file(&stuck);
    let mut large = sound.clone();
    large[3] = 65;
    let mut outside = sound.clone();
    outside[4] = 15;
    // 0 waits for itself: 1 and 2 are enabled
    stuck.marking.enabled = 6;
    let marking = marking_bytes(&stuck.marking);
    let mut stray = marking;
    stray[0] = 8;
    let mut untrue = marking;
    untrue[24] = 7;
    let mut both = stray;
    both[24] = 7;
    let cases: [(&[u8], &[u8], usize, u64); 13] = [
        (&[], &stray[..31], 3, 1),
        (&large, &stray[..31], 3, 3),
        (&outside, &stray[..31], 3, 5),
        (&sound, &stray[..31], 4, 7),
        (&sound, &stray[..24], 4, 7),
        (&sound, &stray, 3, 7),
        (&sound, &stray, 0, 7),
        (&sound, &stray, 4, 5),
        (&sound, &both, 4, 5),
        (&sound, &untrue, 3, 7),
        (&sound, &untrue, 4, 16),
        (&sound, &marking, 4, 17),
        (&sound, &marking, 9, 17),
    ];
    for door in doors() {
        for (file, marking, room, wanted) in cases {
            let mut way = vec![165; room];
            let given = (door.finish)(file, marking, &mut way);
            assert_eq!((given, way), (wanted, vec![165; room]), "{}", door.name);
        }
    }
}

/// 0 shuts 2 out, 1 lets it in, 2 does both to itself, which lets in.
#[test]
fn what_shut_it_out() {
    let mut graph = three(0);
    graph.excludes[0] = 4;
    graph.includes[1] = 4;
    graph.excludes[2] = 5;
    graph.includes[2] = 4;
    let none = 256 * 255;
    let cases: [(&[u8], u8, u64); 10] = [
        (&[], 2, none),
        (&[0], 2, 0),
        (&[0, 1], 2, none),
        (&[1, 0], 2, 0),
        (&[0, 1, 0], 2, 0),
        (&[0, 2], 2, none),
        (&[0, 2], 0, 256 * 2),
        (&[0, 200, 64], 2, 0),
        (&[0], 200, none),
        (&[0], 1, none),
    ];
    for door in doors() {
        for (trace, activity, wanted) in cases {
            let given = (door.shut_by)(&file(&graph), trace, activity);
            assert_eq!(given, wanted, "{} {trace:?} {activity}", door.name);
        }
        assert_eq!((door.shut_by)(&[66], &[0], 2), 1 + none, "{}", door.name);
        let long = [0; 2000];
        assert_eq!((door.shut_by)(&file(&graph), &long, 2), 0, "{}", door.name);
    }
}
