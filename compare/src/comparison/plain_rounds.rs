//! Which plain graphs are tried: the borders once, then seeded ones; and the graphs of files,
//! handed to the plain engine by `fill`.
use super::Comparison;
use crate::door::{Form, MOST_PAIRS};
use crate::judge;
use crate::seeds::{graphs, plain, Prng};
use crate::value::PlainGraph;

/// How many sound plain graphs a round has, and how many damaged ones are made of each.
const GRAPHS: usize = 3;
const DAMAGES: usize = 3;

pub fn once(comparison: &mut Comparison, prng: &mut Prng) {
    for (number, graph) in plain::borders() {
        comparison.input("plain: border");
        let form = plain::form_of(&graph);
        let judged = comparison.plain_accepting(&graph, &vec![0; form.marking()]) as u8;
        if judged != number {
            comparison.differ("plain border", "02", || {
                format!("wanted {number}, judge {judged}, {graph:?}")
            });
        }
        for trace in [&[][..], &[1, 2, 1], &[2; 512], &[2; 513]] {
            comparison.plain_replay(&graph, trace);
        }
        for marking in markings(form) {
            comparison.plain_accepting(&graph, &marking);
            comparison.plain_step(&graph, &marking, 1);
        }
    }
    every_activity(comparison, prng);
}

/// For a border's graph, of events 0, 1, 2 mostly: one that is true, one that leaves the events,
/// one with a false set, one with both faults; each whole, cut, and with more bytes than it needs.
fn markings(form: Form) -> Vec<Vec<u8>> {
    let mut all = Vec::new();
    for (included, enabled) in [(0, 0), (7, 7), (15, 0), (0, 1), (0, 255), (15, 1)] {
        for length in [0, 24, 31, 32, 33, 63, 64, 65] {
            let mut marking = vec![0; form.marking()];
            (marking[2 * form.set], marking[3 * form.set]) = (included, enabled);
            marking.resize(length, 7);
            all.push(marking);
        }
    }
    all
}

/// All 256 numbers on a graph of few and one of many pairs, also where the marking is outside.
fn every_activity(comparison: &mut Comparison, prng: &mut Prng) {
    for a in [3, 64, 65, 97, 128] {
        let value = graphs::value_of_size(prng, a);
        let mut graph = plain::of(&value);
        plain::reordered(prng, &mut graph);
        for activity in 0..=255 {
            let marking = plain::marking(prng, &graph);
            comparison.plain_step(&graph, &marking, activity);
            comparison.plain_replay(&graph, &[activity]);
        }
    }
}

pub fn round(comparison: &mut Comparison, prng: &mut Prng) {
    for _ in 0..GRAPHS {
        let value = graphs::value(prng);
        let mut graph = plain::of(&value);
        plain::reordered(prng, &mut graph);
        let length = prng.one_of(&[2, 5, 9, 30, 60, 512]);
        let walk = plain::walk(prng, &value, length);
        on_plain(comparison, prng, "plain: sound", &graph, &walk);
        for _ in 0..DAMAGES {
            let mut damaged = graph.clone();
            plain::damage(prng, &mut damaged);
            on_plain(comparison, prng, "plain: damaged", &damaged, &walk);
        }
    }
}

fn on_plain(
    comparison: &mut Comparison,
    prng: &mut Prng,
    kind: &'static str,
    graph: &PlainGraph,
    walk: &[u8],
) {
    comparison.input(kind);
    let steps = graphs::Steps::from(&plain::value_in(graph));
    let changed = graphs::changed_trace(prng, walk, steps);
    for trace in [walk, &changed, &graphs::trace(prng, steps)] {
        comparison.plain_replay(graph, trace);
    }
    for _ in 0..3 {
        let marking = plain::marking(prng, graph);
        let activity = graphs::activity(prng, steps);
        comparison.plain_step(graph, &marking, activity);
        comparison.plain_accepting(graph, &marking);
    }
}

/// A relation of any file into memory with and without room; a trace on both engines.
pub fn on_graph_file(comparison: &mut Comparison, prng: &mut Prng, file: &[u8], trace: Vec<u8>) {
    let kind = prng.one_of(&plain::KINDS);
    let (result, _) = comparison.fill(file, kind, MOST_PAIRS);
    let room = plain::room(prng, (result / 256) as usize);
    comparison.fill(file, kind, room);
    if judge::graph_file::read(file).is_ok() {
        on_traces(comparison, prng, file, &[trace]);
    }
}

/// Every fifth accepted file on both engines. Recorded traces go far; with a change they go
/// wrong late.
pub fn on_traces(comparison: &mut Comparison, prng: &mut Prng, file: &[u8], traces: &[Vec<u8>]) {
    if !prng.percent(20) {
        return;
    }
    let mut graph = comparison.lists_of(file);
    if prng.percent(50) {
        plain::reordered(prng, &mut graph);
    }
    let steps = graphs::Steps::from(&plain::value_in(&graph));
    for trace in traces.iter().take(2) {
        let changed = graphs::changed_trace(prng, trace, steps);
        for trace in [trace, &changed] {
            let marking = plain::marking(prng, &graph);
            let activity = graphs::activity(prng, steps);
            comparison.on_both(file, &graph, trace, &marking, activity);
        }
    }
}
