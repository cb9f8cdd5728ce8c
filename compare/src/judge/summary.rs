//! The summary (02, 3/12): for each event, how many other events it is a condition for, and
//! how many others it excludes.
use super::graph::Graph;
use super::Pairs;

#[derive(Clone, Copy, PartialEq, Eq, Debug)]
pub struct Counts {
    pub conditions: u8,
    pub excludes: u8,
}

/// The counts of activity s. What is no event has no pair.
pub fn counts(graph: &Graph, s: u8) -> Counts {
    Counts {
        conditions: others(&graph.relations.conditions, s),
        excludes: others(&graph.relations.excludes, s),
    }
}

/// How many pairs s to t there are with t other than s.
fn others(pairs: &Pairs, s: u8) -> u8 {
    let mut count = 0;
    for &(source, target) in pairs {
        if source == s && target != s {
            count += 1;
        }
    }
    count
}
