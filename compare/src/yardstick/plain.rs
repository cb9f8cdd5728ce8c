//! The plain engine's functions on words: the lists become rows once, then the engine's step
//! needs no list.
use super::engine;
use super::graph_file::marking_at;
use super::rows::{count, transposed, Bits};
use super::word::Word;
use crate::door::MOST_PAIRS;
use crate::value::{GraphOf, PlainGraph};

/// 7, 3, 5, or the graph of a head with sets of this word; its 16 comes after the 5 of what stands beside it.
pub fn read<W: Word, const N: usize>(
    plain: &PlainGraph,
    trace_length: usize,
) -> Result<GraphOf<W, N>, u8> {
    let PlainGraph { head, lists } = plain;
    if head.len() < W::FORM.head() {
        return Err(7);
    }
    if head[0] > W::MOST || trace_length > 512 || lists.iter().any(|list| list.len() > MOST_PAIRS) {
        return Err(3);
    }
    let graph = GraphOf {
        a: head[0],
        events: W::at(head, 1),
        marking: marking_at(head, W::FORM.head_marking()),
        conditions: transposed(&rows(&lists[0])?),
        responses: rows(&lists[1])?,
        includes: rows(&lists[2])?,
        excludes: rows(&lists[3])?,
    };
    engine::judge_sets(&graph)?;
    Ok(graph)
}

/// By source. What no set can hold is no event.
fn rows<W: Word, const N: usize>(list: &[u16]) -> Result<[W; N], u8> {
    let beyond = 257 * (256 - N as u16);
    let mut rows = [W::NONE; N];
    for pair in list {
        if pair & beyond != 0 {
            return Err(5);
        }
        rows[usize::from(pair >> 8) & (N - 1)] |= W::ONE << (usize::from(*pair) & (N - 1));
    }
    Ok(rows)
}

pub fn fill<W: Word, const N: usize>(
    graph: &GraphOf<W, N>,
    kind: u8,
    memory: &mut [u16],
) -> Result<usize, u8> {
    let rows = match kind {
        0 => transposed(&graph.conditions),
        1 => graph.responses,
        2 => graph.includes,
        3 => graph.excludes,
        _ => return Ok(0),
    };
    if memory.len() < count(&rows) {
        return Err(7);
    }
    let mut length = 0;
    for (source, row) in rows.iter().enumerate() {
        for target in Bits(*row) {
            memory[length] = (source << 8 | target) as u16;
            length += 1;
        }
    }
    Ok(length)
}
