//! Half-done calls: graphs and markings at which a way out is asked for. The judge tries every
//! sequence of four steps, so the graphs are small, or few of their steps are open.
use super::{graphs, Prng};
use crate::door::Form;
use crate::value::{GraphValue, MarkingValue};
use crate::yardstick::engine::kept;

/// Graph k of two events, 0 and 1: each of the 16 bits is a pair of a relation.
pub fn of_two(k: u16) -> GraphValue {
    let mut graph = GraphValue {
        a: 2,
        events: 3,
        ..GraphValue::EMPTY
    };
    let row = |at: u16| u128::from(k >> at & 3);
    for key in 0..2 {
        let at = 2 * key as u16;
        graph.conditions[key] = row(at);
        graph.responses[key] = row(4 + at);
        graph.includes[key] = row(8 + at);
        graph.excludes[key] = row(12 + at);
    }
    graph
}

/// Marking k of such a graph, k below 64: the events stand side by side, from the first on.
pub fn marking_of_two(graph: &GraphValue, k: u128) -> MarkingValue {
    let first = graph.events.trailing_zeros();
    let sets = MarkingValue {
        executed: (k & 3) << first,
        pending: (k >> 2 & 3) << first,
        included: (k >> 4 & 3) << first,
        enabled: 0,
    };
    kept(graph, sets)
}

/// A small graph with so few pairs that some ways are long. Most of its steps are included.
pub fn small(prng: &mut Prng) -> GraphValue {
    let a = prng.within(1, 7) as u8;
    let events = (1u128 << a) - 1;
    let mut graph = GraphValue {
        a,
        events,
        ..GraphValue::EMPTY
    };
    let shares = [5, 10, 20, 35];
    for rows in [
        &mut graph.conditions,
        &mut graph.responses,
        &mut graph.includes,
        &mut graph.excludes,
    ] {
        let share = prng.one_of(&shares);
        for row in rows.iter_mut().take(usize::from(a)) {
            *row = prng.set(share, usize::from(a));
        }
    }
    graph.marking = kept(&graph, sets(prng, usize::from(a)));
    graph
}

/// Something owed, mostly.
fn sets(prng: &mut Prng, a: usize) -> MarkingValue {
    let (done, owed, inside) = (
        prng.one_of(&[0, 20, 60]),
        prng.one_of(&[15, 30, 60]),
        prng.one_of(&[60, 90, 100]),
    );
    MarkingValue {
        executed: prng.set(done, a),
        pending: prng.set(owed, a),
        included: prng.set(inside, a),
        enabled: 0,
    }
}

/// A chain: each of some steps waits for the one before, and the last is owed. Numbers are
/// given out by chance, so that the first way by numbers is not the first that one thinks of.
pub fn chain(prng: &mut Prng) -> GraphValue {
    let a = prng.within(2, 7);
    let mut order: Vec<usize> = (0..a).collect();
    prng.shuffle(&mut order);
    let links = prng.within(1, a - 1);
    let events = (1u128 << a) - 1;
    let mut graph = GraphValue {
        a: a as u8,
        events,
        ..GraphValue::EMPTY
    };
    graph.marking.included = events;
    for pair in order[..=links].windows(2) {
        graph.conditions[pair[1]] |= 1 << pair[0];
        if prng.percent(30) {
            graph.responses[pair[0]] |= 1 << pair[1];
        }
    }
    graph.marking.pending = 1 << order[links];
    if prng.percent(30) {
        graph.excludes[prng.below(a)] |= 1 << prng.below(a);
    }
    graph.marking = kept(&graph, graph.marking);
    graph
}

/// Hard: one step is owed and waits for one that is never done, and 62 others are free. There
/// is no way out, and a plain search tries 62 x 62 x 62 x 62 sequences. For the benchmark.
pub fn hopeless() -> GraphValue {
    let mut graph = GraphValue {
        a: 64,
        events: u128::from(u64::MAX),
        ..GraphValue::EMPTY
    };
    graph.marking.included = graph.events;
    graph.marking.pending = 1;
    // 0 waits for 1, and 1 for itself
    graph.conditions[0] = 2;
    graph.conditions[1] = 2;
    graph.marking = kept(&graph, graph.marking);
    graph
}

/// The same, but every free step leaves another owed: nothing is settled by what is done.
pub fn restless() -> GraphValue {
    let mut graph = hopeless();
    for e in 2..64 {
        graph.responses[e] = 1 << if e == 63 { 2 } else { e + 1 };
    }
    graph
}

/// As it is, or over more activities than 64.
pub fn either_size(prng: &mut Prng, graph: GraphValue) -> GraphValue {
    if prng.percent(25) {
        return graphs::spread(prng, &graph);
    }
    graph
}

pub fn bytes(graph: &GraphValue) -> (Vec<u8>, Vec<u8>) {
    let marking = graphs::marking_bytes(&graph.marking, Form::of(graph.a));
    (graphs::file(graph), marking)
}
