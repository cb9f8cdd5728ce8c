//! How a half-done call can still finish (02, 8/12), and what shut a step out: word for word.
use super::engine::{accepting, at_rest, blocked, with_effects};
use super::graph::{Graph, Marking};

/// "a sequence of at most 4 activities"
const MOST: usize = 4;

/// "unused places of the four hold 255"
const UNUSED: u8 = 255;

/// Every sequence of steps, each enabled in its turn, with the marking after it: those of one
/// step more, in the order of their numbers, read from the left.
fn longer(graph: &Graph, shorter: &[(Vec<u8>, Marking)]) -> Vec<(Vec<u8>, Marking)> {
    let mut all = Vec::new();
    for (steps, marking) in shorter {
        for &e in &graph.events {
            if blocked(graph, marking, e).is_ok() {
                let more = [&steps[..], &[e]].concat();
                all.push((more, with_effects(&graph.relations, marking, e)));
            }
        }
    }
    all
}

/// "The shortest wins, and among equally short ones the first by activity numbers"; 17 where
/// there is none. For a graph and a marking that were judged.
pub fn finish(graph: &Graph, marking: &Marking) -> Result<[u8; MOST], u8> {
    let mut all = vec![(Vec::new(), marking.clone())];
    for length in 0..=MOST {
        if let Some((steps, _)) = all.iter().find(|(_, marking)| at_rest(marking)) {
            let mut way = [UNUSED; MOST];
            way[..length].copy_from_slice(steps);
            return Ok(way);
        }
        if length < MOST {
            all = longer(graph, &all);
        }
    }
    Err(17)
}

/// The same into lent room: 7 where it is too little, then 3, 5 and 16, then 17.
pub fn finish_within(graph: &Graph, marking: &Marking, room: usize) -> Result<[u8; MOST], u8> {
    if room < MOST {
        return Err(7);
    }
    accepting(graph, marking)?;
    finish(graph, marking)
}

/// What shut a step out last and was not followed by what lets it in. An include wins, so what
/// has both lets in.
pub fn shut_by(graph: &Graph, trace: &[u8], a: u8) -> u8 {
    let lets_in = |e: u8| graph.relations.includes.contains(&(e, a));
    let shuts_out = |e: u8| graph.relations.excludes.contains(&(e, a)) && !lets_in(e);
    match trace.iter().rposition(|&e| shuts_out(e)) {
        Some(last) if !trace[last + 1..].iter().any(|&e| lets_in(e)) => trace[last],
        _ => UNUSED,
    }
}
