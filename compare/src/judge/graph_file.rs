//! The graph file, read and written in 01's order.
use super::engine::{judge_graph, opened};
use super::graph::{judge_marking, turned, Graph, Marking};
use super::{two_bytes, Pairs, Relations, Set};
use std::collections::BTreeMap;

/// "Edition 1 stays for A up to 64 and edition 2 is only for 65 to 128" (02, 10/12), with sets of 8 and
/// of 16 bytes: where the contents begin, where the rows begin, how long a row is and how many a relation may have.
#[derive(Clone, Copy, PartialEq, Eq, Debug)]
pub struct Layout {
    pub edition: u8,
    pub set: usize,
    pub contents: usize,
    pub first_row: usize,
    pub row: usize,
    pub most_rows: usize,
}

pub const EDITION_1: Layout = Layout {
    edition: 1,
    set: 8,
    contents: 36,
    first_row: 52,
    row: 9,
    most_rows: 64,
};

pub const EDITION_2: Layout = Layout {
    edition: 2,
    set: 16,
    contents: 68,
    first_row: 84,
    row: 17,
    most_rows: 128,
};

/// The layout for A.
pub fn layout_for(a: u8) -> Layout {
    if a <= 64 {
        EDITION_1
    } else {
        EDITION_2
    }
}

/// Of a log and of a graph file: 3 "when the edition doesn't match A, tested with A".
pub fn judge_activities(edition: u8, a: u8) -> Result<(), u8> {
    let matches = match edition {
        1 => a <= 64,
        _ => (65..=128).contains(&a),
    };
    if !matches {
        return Err(3);
    }
    Ok(())
}

/// Activity a is bit a mod 8 of byte a / 8, of as many bytes as there are.
pub fn read_set(bytes: &[u8]) -> Set {
    let mut set = Set::new();
    for a in 0..8 * bytes.len() {
        if bytes[a / 8] >> (a % 8) & 1 == 1 {
            set.insert(a as u8);
        }
    }
    set
}

/// In so many bytes. A set that has no room there is never asked for.
pub fn set_bytes(set: &Set, length: usize) -> Vec<u8> {
    let mut bytes = vec![0; length];
    for a in set {
        bytes[usize::from(a / 8)] += 1 << (a % 8);
    }
    bytes
}

/// The three sets of a marking that a file stores: "The graph file doesn't store" the fourth.
fn stored_marking(bytes: &[u8], set: usize) -> Marking {
    Marking {
        executed: read_set(&bytes[0..set]),
        pending: read_set(&bytes[set..2 * set]),
        included: read_set(&bytes[2 * set..3 * set]),
        enabled: Set::new(),
    }
}

/// A marking by itself, of sets of so many bytes, has the fourth behind the three.
pub fn read_marking(bytes: &[u8], set: usize) -> Marking {
    Marking {
        enabled: read_set(&bytes[3 * set..4 * set]),
        ..stored_marking(bytes, set)
    }
}

pub fn read(bytes: &[u8]) -> Result<Graph, u8> {
    let layout = judge_head(bytes)?;
    let a = bytes[3];
    let set = layout.set;
    let events = read_set(&bytes[4..4 + set]);
    if events.iter().any(|&event| event >= a) {
        return Err(5);
    }
    let marking = stored_marking(&bytes[4 + set..4 + 4 * set], set);
    judge_marking(&events, &marking)?;
    let counts = judge_entries(bytes, layout)?;
    judge_end(bytes, layout, counts.iter().sum())?;
    let [by_target, responses, includes, excludes] = read_rows(bytes, layout, counts, &events)?;
    let conditions = turned(&by_target);
    let relations = Relations {
        conditions,
        responses,
        includes,
        excludes,
    };
    Ok(opened(Graph {
        a,
        events,
        marking,
        relations,
    }))
}

/// 1, 2, "for a graph file of edition 2, 1 again when under 84 bytes, straight after 2", then 3 of A.
fn judge_head(bytes: &[u8]) -> Result<Layout, u8> {
    if bytes.len() < EDITION_1.first_row {
        return Err(1);
    }
    if bytes[0] != 66 || bytes[1] != 71 || (bytes[2] != 1 && bytes[2] != 2) {
        return Err(2);
    }
    if bytes[2] == 2 && bytes.len() < EDITION_2.first_row {
        return Err(1);
    }
    judge_activities(bytes[2], bytes[3])?;
    Ok(layout_for(bytes[3]))
}

/// Entry by entry: 3 for the number of rows, 4 for the offset.
fn judge_entries(bytes: &[u8], layout: Layout) -> Result<[usize; 4], u8> {
    let mut counts = [0; 4];
    let mut earlier = 0;
    for (relation, count) in counts.iter_mut().enumerate() {
        let offset = two_bytes(bytes, layout.contents + 4 * relation);
        *count = two_bytes(bytes, layout.contents + 4 * relation + 2);
        if *count > layout.most_rows {
            return Err(3);
        }
        if offset != layout.row * earlier {
            return Err(4);
        }
        earlier += *count;
    }
    Ok(counts)
}

fn judge_end(bytes: &[u8], layout: Layout, rows: usize) -> Result<(), u8> {
    let end = layout.first_row + layout.row * rows;
    if bytes.len() < end {
        return Err(1);
    }
    if bytes.len() > end {
        return Err(4);
    }
    Ok(())
}

/// Row by row 5, 6; in each relation the first key has none before it.
fn read_rows(
    bytes: &[u8],
    layout: Layout,
    counts: [usize; 4],
    events: &Set,
) -> Result<[Pairs; 4], u8> {
    let mut relations: [Pairs; 4] = Default::default();
    let mut at = layout.first_row;
    for (relation, count) in counts.iter().enumerate() {
        let mut key_before = None;
        for _ in 0..*count {
            let key = bytes[at];
            let set = read_set(&bytes[at + 1..at + layout.row]);
            if !events.contains(&key) || !set.is_subset(events) {
                return Err(5);
            }
            if set.is_empty() || key_before.is_some_and(|before| key <= before) {
                return Err(6);
            }
            for member in set {
                relations[relation].insert((key, member));
            }
            key_before = Some(key);
            at += layout.row;
        }
    }
    Ok(relations)
}

/// A graph as a value: 3, 5, 16, then 7. Fills the first bytes and gives the file's length.
pub fn write(graph: &Graph, lent: &mut [u8]) -> Result<usize, u8> {
    judge_graph(graph)?;
    let file = file_of(graph);
    if lent.len() < file.len() {
        return Err(7);
    }
    for (place, &byte) in file.iter().enumerate() {
        lent[place] = byte;
    }
    Ok(file.len())
}

fn file_of(graph: &Graph) -> Vec<u8> {
    let layout = layout_for(graph.a);
    let mut file = vec![66, 71, layout.edition, graph.a];
    let m = &graph.marking;
    for set in [&graph.events, &m.executed, &m.pending, &m.included] {
        file.extend(set_bytes(set, layout.set));
    }
    let r = &graph.relations;
    let keyed = [
        turned(&r.conditions),
        r.responses.clone(),
        r.includes.clone(),
        r.excludes.clone(),
    ];
    let mut rows = Vec::new();
    for pairs in &keyed {
        let by_key = rows_of(pairs);
        file.extend((rows.len() as u16).to_le_bytes());
        file.extend((by_key.len() as u16).to_le_bytes());
        for (key, set) in by_key {
            rows.push(key);
            rows.extend(set_bytes(&set, layout.set));
        }
    }
    file.extend(rows);
    file
}

/// Keys rise, and a key without members has no row.
fn rows_of(pairs: &Pairs) -> BTreeMap<u8, Set> {
    let mut rows: BTreeMap<u8, Set> = BTreeMap::new();
    for &(key, member) in pairs {
        rows.entry(key).or_default().insert(member);
    }
    rows
}
