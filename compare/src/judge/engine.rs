//! The engine: enabled, execute, accepting, replay, on a graph handed over as a value.
use super::graph::{judge_marking, judge_members, judge_size, Graph, Marking};
use super::{Pairs, Relations, Set};
use crate::value::Answer;

/// The condition sources of e that are included and not executed.
fn blockers(graph: &Graph, marking: &Marking, e: u8) -> Set {
    let mut blockers = Set::new();
    for &source in &marking.included {
        let leads_to_e = graph.relations.conditions.contains(&(source, e));
        if leads_to_e && !marking.executed.contains(&source) {
            blockers.insert(source);
        }
    }
    blockers
}

/// 8, 9, 10 in that order; 10 with the smallest blocker.
pub fn blocked(graph: &Graph, marking: &Marking, e: u8) -> Result<(), Answer> {
    if !graph.events.contains(&e) {
        return Err(8.into());
    }
    if !marking.included.contains(&e) {
        return Err(9.into());
    }
    let number = 10;
    match blockers(graph, marking, e).first() {
        Some(&blocker) => Err(Answer { number, blocker }),
        None => Ok(()),
    }
}

/// "the set of events that enabled would say yes to" (02, 6/12), whatever the marking says of it
pub fn enabled_events(graph: &Graph, marking: &Marking) -> Set {
    let mut enabled = Set::new();
    for &e in &graph.events {
        if blocked(graph, marking, e).is_ok() {
            enabled.insert(e);
        }
    }
    enabled
}

/// The marking with its set as it is kept.
pub fn kept(graph: &Graph, mut marking: Marking) -> Marking {
    marking.enabled = enabled_events(graph, &marking);
    marking
}

/// The graph with the set of its opening marking.
pub fn opened(mut graph: Graph) -> Graph {
    graph.marking = kept(&graph, graph.marking.clone());
    graph
}

/// The marking after e, with its set.
pub fn stepped(graph: &Graph, marking: &Marking, e: u8) -> Marking {
    kept(graph, with_effects(&graph.relations, marking, e))
}

/// The effects of e in the order of 01: lose, then gain. The set of enabled events stays as it
/// stood: a marking that is handed on has it worked out anew.
pub fn with_effects(relations: &Relations, marking: &Marking, e: u8) -> Marking {
    let mut after = marking.clone();
    after.executed.insert(e);
    after.pending.remove(&e);
    for target in targets(&relations.responses, e) {
        after.pending.insert(target);
    }
    for target in targets(&relations.excludes, e) {
        after.included.remove(&target);
    }
    for target in targets(&relations.includes, e) {
        after.included.insert(target);
    }
    after
}

/// The targets of the pairs with this source.
fn targets(pairs: &Pairs, source: u8) -> impl Iterator<Item = u8> + '_ {
    let of_source = pairs.range((source, 0)..=(source, 255));
    of_source.map(|&(_, target)| target)
}

/// "A marking handed over with a false set is not believed": 16.
fn judge_truth(graph: &Graph, marking: &Marking) -> Result<(), u8> {
    if marking.enabled != enabled_events(graph, marking) {
        return Err(16);
    }
    Ok(())
}

/// A graph by itself: 3, 5, and 16 for "a graph's own opening one too".
pub fn judge_graph(graph: &Graph) -> Result<(), u8> {
    judge_size(graph)?;
    judge_members(graph)?;
    judge_truth(graph, &graph.marking)
}

/// A graph and a marking beside it: 3, then every 5, then every 16.
fn judge(graph: &Graph, marking: &Marking) -> Result<(), u8> {
    judge_size(graph)?;
    judge_members(graph)?;
    judge_marking(&graph.events, marking)?;
    judge_truth(graph, &graph.marking)?;
    judge_truth(graph, marking)
}

pub fn enabled(graph: &Graph, marking: &Marking, e: u8) -> Result<(), Answer> {
    judge(graph, marking)?;
    blocked(graph, marking, e)
}

/// Alters the lent marking, and only when enabled.
pub fn execute(graph: &Graph, marking: &mut Marking, e: u8) -> Result<(), Answer> {
    enabled(graph, marking, e)?;
    *marking = stepped(graph, marking, e);
    Ok(())
}

/// No step is both pending and included.
pub fn at_rest(marking: &Marking) -> bool {
    marking.pending.is_disjoint(&marking.included)
}

pub fn accepting(graph: &Graph, marking: &Marking) -> Result<bool, u8> {
    judge(graph, marking)?;
    Ok(at_rest(marking))
}

#[derive(Clone, PartialEq, Eq, Debug)]
pub struct Replay {
    pub answer: Answer,
    pub place: usize,
    pub marking: Marking,
    pub accepting: bool,
}

pub fn replay(graph: &Graph, trace: &[u8]) -> Replay {
    let refused = |number: u8| Replay {
        answer: number.into(),
        place: 0,
        marking: Marking::default(),
        accepting: false,
    };
    if judge_size(graph).is_err() || trace.len() > 512 {
        return refused(3);
    }
    if let Err(number) = judge_graph(graph) {
        return refused(number);
    }
    let mut marking = graph.marking.clone();
    for (place, &e) in trace.iter().enumerate() {
        if let Err(answer) = blocked(graph, &marking, e) {
            return Replay {
                answer,
                place,
                marking: kept(graph, marking),
                accepting: false,
            };
        }
        marking = with_effects(&graph.relations, &marking, e);
    }
    Replay {
        answer: 0.into(),
        place: trace.len(),
        accepting: at_rest(&marking),
        marking: kept(graph, marking),
    }
}
