//! A graph and a marking as sets, and what makes them acceptable.
use super::{Pairs, Relations, Set};
use crate::value::{GraphValue, MarkingValue, Rows};

/// The last set is the marking's own word for what is enabled (02, 6/12): it may be false.
#[derive(Clone, PartialEq, Eq, Debug, Default)]
pub struct Marking {
    pub executed: Set,
    pub pending: Set,
    pub included: Set,
    pub enabled: Set,
}

#[derive(Clone, PartialEq, Eq, Debug)]
pub struct Graph {
    pub a: u8,
    pub events: Set,
    pub marking: Marking,
    pub relations: Relations,
}

/// The 5s of a graph: events below A, then the marking, then both ends of every pair.
pub fn judge_members(graph: &Graph) -> Result<(), u8> {
    for &event in &graph.events {
        if event >= graph.a {
            return Err(5);
        }
    }
    judge_marking(&graph.events, &graph.marking)?;
    let r = &graph.relations;
    for pairs in [&r.conditions, &r.responses, &r.includes, &r.excludes] {
        for (source, target) in pairs {
            if !graph.events.contains(source) || !graph.events.contains(target) {
                return Err(5);
            }
        }
    }
    Ok(())
}

/// A marking outside the events is refused with 5, which judges executed, pending and included
/// only.
pub fn judge_marking(events: &Set, marking: &Marking) -> Result<(), u8> {
    for set in [&marking.executed, &marking.pending, &marking.included] {
        if !set.is_subset(events) {
            return Err(5);
        }
    }
    Ok(())
}

/// A as 3 judges it: "Raise A to 128" (02, 10/12).
pub fn judge_size(graph: &Graph) -> Result<(), u8> {
    if graph.a > 128 {
        return Err(3);
    }
    Ok(())
}

pub fn set_of(value: u128) -> Set {
    (0..128).filter(|a| value >> a & 1 == 1).collect()
}

pub fn value_of(set: &Set) -> u128 {
    set.iter().map(|&a| 1u128 << a).sum()
}

pub fn marking_of(value: &MarkingValue) -> Marking {
    Marking {
        executed: set_of(value.executed),
        pending: set_of(value.pending),
        included: set_of(value.included),
        enabled: set_of(value.enabled),
    }
}

pub fn marking_value(marking: &Marking) -> MarkingValue {
    MarkingValue {
        executed: value_of(&marking.executed),
        pending: value_of(&marking.pending),
        included: value_of(&marking.included),
        enabled: value_of(&marking.enabled),
    }
}

/// The pairs of key and member, key first.
fn keyed(rows: &Rows) -> Pairs {
    let mut pairs = Pairs::new();
    for (key, &row) in rows.iter().enumerate() {
        for member in set_of(row) {
            pairs.insert((key as u8, member));
        }
    }
    pairs
}

fn rows_of(pairs: &Pairs) -> Rows {
    let mut rows = [0; 128];
    for &(key, member) in pairs {
        rows[usize::from(key)] |= 1u128 << member;
    }
    rows
}

/// Source and target change places.
pub fn turned(pairs: &Pairs) -> Pairs {
    pairs.iter().map(|&(x, y)| (y, x)).collect()
}

pub fn graph_of(value: &GraphValue) -> Graph {
    Graph {
        a: value.a,
        events: set_of(value.events),
        marking: marking_of(&value.marking),
        relations: Relations {
            conditions: turned(&keyed(&value.conditions)),
            responses: keyed(&value.responses),
            includes: keyed(&value.includes),
            excludes: keyed(&value.excludes),
        },
    }
}

pub fn graph_value(graph: &Graph) -> GraphValue {
    GraphValue {
        a: graph.a,
        events: value_of(&graph.events),
        marking: marking_value(&graph.marking),
        conditions: rows_of(&turned(&graph.relations.conditions)),
        responses: rows_of(&graph.relations.responses),
        includes: rows_of(&graph.relations.includes),
        excludes: rows_of(&graph.relations.excludes),
    }
}
