//! The plain engine's functions, with results worked out by hand from 01 and 02's 1/12.
mod common;
use common::*;
use compare::door::Door;
use compare::seeds::graphs::file;
use compare::seeds::plain::{borders, form_of};
use compare::value::{GraphValue, PlainGraph};

/// Where accepting.
const YES: u64 = 1 << 32;

/// A blocker of 0, and no blocker, above the rest of the number.
const BY_0: u64 = 0;
const BY_NONE: u64 = 255 << 40;

fn pair(source: u16, target: u16) -> u16 {
    256 * source + target
}

/// The bytes of sets that only have activities below 8: of a marking four, of a head five.
fn low_sets(sets: &[u8]) -> Vec<u8> {
    sets.iter()
        .flat_map(|&low| [low, 0, 0, 0, 0, 0, 0, 0])
        .collect()
}

/// G of 01 by its listing: C 0 1, 0 2; R 0 2, 1 2; I 0 1; E 0 0, 1 1, 2 1, 2 2.
fn g() -> PlainGraph {
    PlainGraph {
        head: [vec![3], low_sets(&[7, 0, 0, 7, 1])].concat(),
        lists: [
            vec![pair(0, 1), pair(0, 2)],
            vec![pair(0, 2), pair(1, 2)],
            vec![pair(0, 1)],
            vec![pair(0, 0), pair(1, 1), pair(2, 1), pair(2, 2)],
        ],
    }
}

/// The same, each list from the end and every pair twice.
fn g_doubled() -> PlainGraph {
    let mut graph = g();
    for list in &mut graph.lists {
        list.reverse();
        list.extend(list.clone());
    }
    graph
}

fn step(door: &Door, graph: &PlainGraph, marking: &[u8], activity: u8) -> (u64, Vec<u8>) {
    let mut lent = marking.to_vec();
    let number = (door.plain_step)(graph, &mut lent, activity);
    (number, lent)
}

/// 01, "Calls to try": number, place, accepting, and 02's blocker.
#[test]
fn traces_on_g() {
    let cases: [(&[u8], u64); 8] = [
        (&[], YES + BY_NONE),
        (&[0], 256 + BY_NONE),
        (&[2], 10 + BY_0),
        (&[0, 0], 9 + 256 + BY_NONE),
        (&[0, 2, 1], 9 + 512 + BY_NONE),
        (&[3], 8 + BY_NONE),
        (&[255], 8 + BY_NONE),
        (&[0, 1, 2], 3 * 256 + YES + BY_NONE),
    ];
    for door in doors() {
        for graph in [g(), g_doubled()] {
            for (trace, wanted) in cases {
                let given = (door.plain_replay)(&graph, trace);
                assert_eq!(given, wanted, "{} {trace:?}", door.name);
            }
        }
    }
}

/// The paper's Table 3: executed 0, pending 1 4, included 1 4 7; then event 4.
#[test]
fn table_3() {
    let graph = PlainGraph {
        head: [vec![8], low_sets(&[255, 0, 0, 0, 0])].concat(),
        lists: [vec![], vec![pair(4, 2)], vec![pair(4, 2)], vec![pair(4, 7)]],
    };
    // without conditions all that is included is enabled
    let from = low_sets(&[1, 2 + 16, 2 + 16 + 128, 2 + 16 + 128]);
    let then = low_sets(&[1 + 16, 2 + 4, 2 + 4 + 16, 2 + 4 + 16]);
    for door in doors() {
        assert_eq!(step(&door, &graph, &from, 4), (BY_NONE, then.clone()));
        assert_eq!((door.plain_accepting)(&graph, &from), 0);
        // 2 and 5 pending, 1 included: a pending step that is shut out does not matter
        let shut_out = low_sets(&[0, 4 + 32, 2, 2]);
        assert_eq!((door.plain_accepting)(&graph, &shut_out), YES);
    }
}

/// Lose first, then gain: a self-response stays, and an include wins.
#[test]
fn lose_then_gain() {
    let graph = PlainGraph {
        head: [vec![2], low_sets(&[3, 0, 0, 3, 3])].concat(),
        lists: [
            vec![],
            vec![pair(0, 0)],
            vec![pair(0, 1)],
            vec![pair(0, 1), pair(0, 0)],
        ],
    };
    for door in doors() {
        let given = step(&door, &graph, &low_sets(&[0, 1, 3, 3]), 0);
        assert_eq!(given, (BY_NONE, low_sets(&[1, 1, 2, 2])), "{}", door.name);
    }
}

/// Condition 0 to 1: it holds up while 0 is included and not executed.
#[test]
fn a_condition_counts_while_its_source_is_in() {
    let graph = PlainGraph {
        head: [vec![2], low_sets(&[3, 0, 0, 3, 1])].concat(),
        lists: [vec![pair(0, 1)], vec![], vec![], vec![]],
    };
    let cases = [
        (low_sets(&[0, 0, 3, 1]), 1, 10 + BY_0),
        (low_sets(&[1, 0, 3, 3]), 1, BY_NONE),
        (low_sets(&[0, 0, 2, 2]), 1, BY_NONE),
        (low_sets(&[0, 0, 3, 1]), 0, BY_NONE),
        (low_sets(&[0, 0, 1, 1]), 1, 9 + BY_NONE),
        (low_sets(&[0, 0, 3, 1]), 2, 8 + BY_NONE),
        (low_sets(&[0, 0, 3, 1]), 64, 8 + BY_NONE),
        (low_sets(&[0, 0, 3, 1]), 255, 8 + BY_NONE),
    ];
    for door in doors() {
        for (marking, activity, wanted) in &cases {
            let (number, lent) = step(&door, &graph, marking, *activity);
            assert_eq!(number, *wanted, "{} {marking:?} {activity}", door.name);
            assert!(number == BY_NONE || lent == *marking, "{}", door.name);
        }
    }
}

/// 02, 2/12: conditions 4, 0 and 2 to 3, in this order. The smallest that is included and not
/// executed, wherever its pair stands.
#[test]
fn the_smallest_blocks() {
    let graph = PlainGraph {
        head: [vec![5], low_sets(&[31, 0, 0, 31, 23])].concat(),
        lists: [
            vec![pair(4, 3), pair(0, 3), pair(2, 3)],
            vec![],
            vec![],
            vec![],
        ],
    };
    let cases = [
        (low_sets(&[0, 0, 31, 23]), 10 + BY_0),
        (low_sets(&[1, 0, 31, 23]), 10 + (2 << 40)),
        (low_sets(&[0, 0, 30, 22]), 10 + (2 << 40)),
        (low_sets(&[1, 0, 27, 19]), 10 + (4 << 40)),
        (low_sets(&[21, 0, 31, 31]), BY_NONE),
        (low_sets(&[0, 0, 10, 10]), BY_NONE),
        (low_sets(&[0, 0, 23, 23]), 9 + BY_NONE),
    ];
    for door in doors() {
        for (marking, wanted) in &cases {
            let (given, _) = step(&door, &graph, marking, 3);
            assert_eq!(given, *wanted, "{} {marking:?}", door.name);
        }
    }
}

/// 3 before 5 before 16, a list at its limit and past it, heads of every length, A at its limit,
/// opening markings with a false set.
#[test]
fn borders_of_every_limit() {
    for door in doors() {
        for (wanted, graph) in borders() {
            let marking = vec![0; form_of(&graph).marking()];
            let given = (door.plain_accepting)(&graph, &marking);
            assert_eq!(given % 256, u64::from(wanted), "{} {graph:?}", door.name);
            assert_eq!(given / YES, u64::from(wanted == 0), "{}", door.name);
        }
    }
}

/// A short marking gives 7, after all of the graph's own. A whole one: every 5, the graph's and its
/// own, then every 16; then 8.
#[test]
fn refusals_in_order() {
    let mut outside = g();
    outside.lists[3].push(pair(3, 0));
    let mut long = outside.clone();
    long.lists[0] = vec![pair(0, 1); 16_385];
    let mut untrue = g();
    untrue.head[33] = 3;
    let mut both = outside.clone();
    both.head[33] = 3;
    let stray = low_sets(&[8, 0, 7, 1]);
    let whole = low_sets(&[0, 0, 7, 1]);
    let false_one = low_sets(&[0, 0, 7, 5]);
    let stray_and_false = low_sets(&[8, 0, 7, 5]);
    let cases: [(&PlainGraph, &[u8], u64); 18] = [
        (&long, &stray[..31], 3),
        (&long, &false_one, 3),
        (&outside, &stray[..31], 5),
        (&outside, &false_one, 5),
        (&both, &whole, 5),
        (&both, &whole[..31], 5),
        (&untrue, &stray, 5),
        (&untrue, &stray_and_false, 5),
        (&g(), &stray_and_false, 5),
        (&g(), &stray, 5),
        (&untrue, &whole, 16),
        (&untrue, &stray[..31], 16),
        (&untrue, &[], 16),
        (&g(), &false_one, 16),
        (&g(), &stray[..31], 7),
        (&g(), &[], 7),
        (&g(), &whole, 8),
        (&g(), &[&whole[..], &[255]].concat(), 8),
    ];
    for door in doors() {
        for (graph, marking, wanted) in cases {
            let given = step(&door, graph, marking, 200);
            assert_eq!(given, (wanted + BY_NONE, marking.to_vec()));
            let verdict = (door.plain_accepting)(graph, marking);
            let done = if wanted == 8 { YES } else { wanted };
            assert_eq!(verdict, done, "{}", door.name);
        }
    }
}

/// A trace's length is among the 3s: before a pair outside the events and a false set, after a cut
/// head.
#[test]
fn a_trace_too_long() {
    let mut graph = PlainGraph {
        head: [vec![1], low_sets(&[1, 0, 0, 1, 1])].concat(),
        ..PlainGraph::default()
    };
    for door in doors() {
        assert_eq!(
            (door.plain_replay)(&graph, &[0; 512]),
            512 * 256 + YES + BY_NONE
        );
        assert_eq!((door.plain_replay)(&graph, &[0; 513]), 3 + BY_NONE);
    }
    graph.head[33] = 0;
    for door in doors() {
        assert_eq!((door.plain_replay)(&graph, &[0; 512]), 16 + BY_NONE);
        assert_eq!((door.plain_replay)(&graph, &[]), 16 + BY_NONE);
        assert_eq!((door.plain_replay)(&graph, &[0; 513]), 3 + BY_NONE);
    }
    graph.lists[1].push(65535);
    for door in doors() {
        assert_eq!((door.plain_replay)(&graph, &[0; 512]), 5 + BY_NONE);
        assert_eq!((door.plain_replay)(&graph, &[0; 513]), 3 + BY_NONE);
    }
    graph.head.pop();
    for door in doors() {
        assert_eq!((door.plain_replay)(&graph, &[0; 513]), 7 + BY_NONE);
    }
}

/// The relations of G's file, rising by source, then target; the rest of the memory stays.
#[test]
fn fill_from_g() {
    let file = g_file();
    for door in doors() {
        for (kind, wanted) in g().lists.iter().enumerate() {
            let count = wanted.len();
            let mut memory = vec![7; count + 2];
            let given = (door.fill)(&file, kind as u8, &mut memory);
            assert_eq!(given, 256 * count as u64, "{}", door.name);
            assert_eq!(memory[..count], wanted[..], "{}", door.name);
            assert_eq!(memory[count..], [7, 7], "{}", door.name);
            let mut exact = vec![7; count];
            assert_eq!((door.fill)(&file, kind as u8, &mut exact), given);
            assert_eq!(exact, *wanted, "{}", door.name);
            let mut small = vec![7; count - 1];
            assert_eq!((door.fill)(&file, kind as u8, &mut small), 7);
            assert_eq!(small, vec![7; count - 1], "{}", door.name);
        }
        for kind in 4..=255 {
            assert_eq!((door.fill)(&file, kind, &mut []), 0, "{}", door.name);
        }
        assert_eq!((door.fill)(&file[..51], 0, &mut []), 1, "{}", door.name);
        assert_eq!((door.fill)(&file[..123], 9, &mut []), 1, "{}", door.name);
    }
}

/// Conditions 0 to 2 and 1 to 0: the file has them by target, the list by source.
#[test]
fn conditions_turned() {
    let mut graph = GraphValue {
        a: 3,
        events: 7,
        ..GraphValue::EMPTY
    };
    graph.conditions[0] = 2;
    graph.conditions[2] = 1;
    for door in doors() {
        let mut memory = [7; 2];
        assert_eq!((door.fill)(&file(&graph), 0, &mut memory), 512);
        assert_eq!(memory, [pair(0, 2), pair(1, 0)], "{}", door.name);
    }
}
