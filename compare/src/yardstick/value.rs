//! Graphs as values, which have room for either size: the wide kind of the engine, whatever A is.
use super::engine::judge;
use super::graph_file;
use crate::door::Form;
use crate::value::{GraphOf, GraphValue, MarkingOf, MarkingValue};

pub fn read(bytes: &[u8]) -> Result<GraphValue, u8> {
    match Form::in_file(bytes) {
        Form::WIDE => graph_file::read(bytes),
        _ => graph_file::read(bytes).map(|graph| widened(&graph)),
    }
}

pub fn write(graph: &GraphValue, lent: &mut [u8]) -> Result<usize, u8> {
    judge(graph)?;
    match Form::of(graph.a) {
        Form::WIDE => graph_file::write_judged(graph, lent),
        _ => graph_file::write_judged(&narrowed(graph), lent),
    }
}

fn widened(graph: &GraphOf<u64, 64>) -> GraphValue {
    let rows = |rows: &[u64; 64]| {
        let mut all = [0; 128];
        for (row, &narrow) in all.iter_mut().zip(rows) {
            *row = u128::from(narrow);
        }
        all
    };
    let m = &graph.marking;
    GraphValue {
        a: graph.a,
        events: u128::from(graph.events),
        marking: MarkingValue {
            executed: u128::from(m.executed),
            pending: u128::from(m.pending),
            included: u128::from(m.included),
            enabled: u128::from(m.enabled),
        },
        conditions: rows(&graph.conditions),
        responses: rows(&graph.responses),
        includes: rows(&graph.includes),
        excludes: rows(&graph.excludes),
    }
}

/// Of a graph with no event from 64 on.
fn narrowed(graph: &GraphValue) -> GraphOf<u64, 64> {
    let rows = |rows: &[u128; 128]| std::array::from_fn(|key| rows[key] as u64);
    let m = &graph.marking;
    GraphOf {
        a: graph.a,
        events: graph.events as u64,
        marking: MarkingOf {
            executed: m.executed as u64,
            pending: m.pending as u64,
            included: m.included as u64,
            enabled: m.enabled as u64,
        },
        conditions: rows(&graph.conditions),
        responses: rows(&graph.responses),
        includes: rows(&graph.includes),
        excludes: rows(&graph.excludes),
    }
}
