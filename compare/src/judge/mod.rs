//! The judge: documents 01 and 02 written down as literally as Rust allows. Sets of numbers, sets
//! of pairs, plain loops. Clarity decides, speed does not; nothing here is shared with the
//! yardstick.
use std::collections::BTreeSet;

pub mod desk;
pub mod door;
pub mod engine;
pub mod facts;
pub mod finish;
pub mod graph;
pub mod graph_file;
pub mod listing;
pub mod log;
pub mod marks;
pub mod miner;
pub mod months;
pub mod plain;
pub mod steps;
pub mod summary;

/// A set of activities.
pub type Set = BTreeSet<u8>;

/// A relation: pairs of source and target.
pub type Pairs = BTreeSet<(u8, u8)>;

/// The four relations of a graph.
#[derive(Clone, Default, PartialEq, Eq, Debug)]
pub struct Relations {
    pub conditions: Pairs,
    pub responses: Pairs,
    pub includes: Pairs,
    pub excludes: Pairs,
}

/// Two bytes of a file as a number, the low byte first.
pub fn two_bytes(bytes: &[u8], at: usize) -> usize {
    usize::from(bytes[at]) + 256 * usize::from(bytes[at + 1])
}
