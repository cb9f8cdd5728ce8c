//! The plain engine (02, 1/12): a graph handed over as a head and four lists of pairs. What a
//! list says is the set of its pairs, and on sets of pairs 01's rules are those of `engine`.
use super::graph::{judge_members, judge_size, Graph};
use super::graph_file::{read_marking, read_set};
use super::{Pairs, Relations};
use crate::door::{Form, MOST_PAIRS};
use crate::value::PlainGraph;

/// A pair is source x 256 + target; order and repetition do not count.
fn pairs_in(list: &[u16]) -> Pairs {
    let mut pairs = Pairs::new();
    for number in list {
        let [target, source] = number.to_le_bytes();
        pairs.insert((source, target));
    }
    pairs
}

fn relations_in(lists: &[Vec<u16>; 4]) -> Relations {
    let [conditions, responses, includes, excludes] = lists;
    Relations {
        conditions: pairs_in(conditions),
        responses: pairs_in(responses),
        includes: pairs_in(includes),
        excludes: pairs_in(excludes),
    }
}

/// By its A: sets of 16 bytes above 64.
pub fn form_of(plain: &PlainGraph) -> Form {
    Form::of(plain.head.first().copied().unwrap_or(0))
}

/// 7 where there is no whole head; then every 3, of A, of a trace's length, of a list's; then
/// the graph's 5s. Its 16 comes after the 5 of a marking beside it, so it is not judged here.
pub fn read(plain: &PlainGraph, trace_length: usize) -> Result<Graph, u8> {
    let form = form_of(plain);
    if plain.head.len() < form.head() {
        return Err(7);
    }
    let opening = &plain.head[form.head_marking()..form.head()];
    let mut graph = Graph {
        a: plain.head[0],
        events: read_set(&plain.head[1..form.head_marking()]),
        marking: read_marking(opening, form.set),
        relations: Relations::default(),
    };
    judge_size(&graph)?;
    if trace_length > 512 {
        return Err(3);
    }
    for list in &plain.lists {
        if list.len() > MOST_PAIRS {
            return Err(3);
        }
    }
    graph.relations = relations_in(&plain.lists);
    judge_members(&graph)?;
    Ok(graph)
}

/// The pairs of a relation by its number in 01's order; no other number has any.
pub fn relation(relations: &Relations, kind: u8) -> Pairs {
    match kind {
        0 => relations.conditions.clone(),
        1 => relations.responses.clone(),
        2 => relations.includes.clone(),
        3 => relations.excludes.clone(),
        _ => Pairs::new(),
    }
}

/// The pairs rising by source, then target, in the first places; 7 where they have no room.
/// Gives how many there are.
pub fn fill(pairs: &Pairs, memory: &mut [u16]) -> Result<usize, u8> {
    if memory.len() < pairs.len() {
        return Err(7);
    }
    for (place, &(source, target)) in pairs.iter().enumerate() {
        memory[place] = 256 * u16::from(source) + u16::from(target);
    }
    Ok(pairs.len())
}
