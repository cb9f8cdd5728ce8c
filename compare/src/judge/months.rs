//! Months put together (02, 12/12): the tally's bytes as docs/FORMATS.md has them, filled from a
//! log's facts, joined, and read back as facts, from which steps 1 to 8 are made.
use super::facts::{gather_asking, nothing_seen, Facts, Table};
use super::graph_file::{read_set, set_bytes};
use super::log::Log;
use super::miner::{relations_by, Profile};
use super::steps::Step;
use super::{Relations, Set};
use crate::door::TALLY_ROOM;

/// A tally is so many sets of 8 bytes: the first is A's, then come the events, seven tables of
/// 64 rows, spare ones, and from `PAIRS` on one for each two activities.
const SETS: usize = TALLY_ROOM / 8;
const EVENTS: usize = 1;
const ROWS: usize = 2;
const PAIRS: usize = 512;

/// All that steps 1 to 8 need to know of these traces. A fact of absence ranges over all 64
/// activities: "Mind a step absent in one month: its absence before another step counts".
pub fn facts_of(traces: &[Vec<u8>]) -> Facts {
    gather_asking(traces, (0..64).collect(), 64)
}

pub fn filled(log: &Log) -> Vec<u8> {
    bytes(log.a, &facts_of(&log.traces))
}

/// "with A and all that steps 1 to 8 need to know", "spare bytes 0"
pub fn bytes(a: u8, facts: &Facts) -> Vec<u8> {
    let mut sets = vec![Set::new(); SETS];
    sets[EVENTS] = facts.events.clone();
    let tables = [
        by_second(&facts.before),
        by_first(&facts.later),
        by_second(&facts.lacks_earlier),
        by_first(&facts.lacks_later),
        by_second(&facts.lacks_directly_before),
        by_second(&facts.lacks_alternate),
        by_first(&facts.directly_followed),
    ];
    for (k, row) in tables.concat().into_iter().enumerate() {
        sets[ROWS + k] = row;
    }
    for u in 0..64 {
        for s in 0..64 {
            sets[pair(u, s)] = members(|v| facts.between.has(u, v, s));
        }
    }
    let mut bytes: Vec<u8> = sets.iter().flat_map(|set| set_bytes(set, 8)).collect();
    bytes[0] = a;
    bytes
}

fn pair(u: u8, s: u8) -> usize {
    PAIRS + 64 * usize::from(u) + usize::from(s)
}

fn members(test: impl Fn(u8) -> bool) -> Set {
    (0..64).filter(|&x| test(x)).collect()
}

/// A row for each first of a pair, and for each second.
fn by_first(table: &Table) -> Vec<Set> {
    let row = |s| members(|t| table.contains(&(s, t)));
    (0..64).map(row).collect()
}

fn by_second(table: &Table) -> Vec<Set> {
    let row = |t| members(|s| table.contains(&(s, t)));
    (0..64).map(row).collect()
}

/// The facts that a tally holds, whatever its bytes are.
pub fn facts_in(tally: &[u8]) -> Facts {
    let set = |k: usize| read_set(&tally[8 * k..8 * k + 8]);
    let by_first = |k: usize| {
        let mut table = Table::below(64);
        for s in 0..64 {
            for t in set(ROWS + 64 * k + usize::from(s)) {
                table.insert((s, t));
            }
        }
        table
    };
    let by_second = |k: usize| {
        let mut table = Table::below(64);
        for t in 0..64 {
            for s in set(ROWS + 64 * k + usize::from(t)) {
                table.insert((s, t));
            }
        }
        table
    };
    let mut facts = Facts {
        events: set(EVENTS),
        before: by_second(0),
        later: by_first(1),
        lacks_earlier: by_second(2),
        lacks_later: by_first(3),
        lacks_directly_before: by_second(4),
        lacks_alternate: by_second(5),
        directly_followed: by_first(6),
        ..nothing_seen(64)
    };
    facts.twice = members(|s| facts.before.contains(&(s, s)));
    for u in 0..64 {
        for s in 0..64 {
            for v in set(pair(u, s)) {
                facts.between.tick(u, v, s);
            }
        }
    }
    facts
}

/// "7 for a tally buffer under 36,864 bytes", "then 3 for a log's or a tally's A above 64"
pub fn judge(rooms: &[usize], activities: impl Fn() -> Vec<u8>) -> Result<(), u8> {
    if rooms.iter().any(|&room| room < TALLY_ROOM) {
        return Err(7);
    }
    if activities().iter().any(|&a| a > 64) {
        return Err(3);
    }
    Ok(())
}

/// "A joined tally has the larger A"; all else that either knows, the other's bytes too, is
/// joined bit by bit.
pub fn joined(tally: &[u8], other: &[u8]) -> Vec<u8> {
    let or = |k: usize| tally[k] | other[k];
    let mut bytes: Vec<u8> = (0..TALLY_ROOM).map(or).collect();
    bytes[0] = tally[0].max(other[0]);
    bytes
}

/// "The relations after step 8": the light profile skips step 6.
pub fn first_eight(profile: Profile) -> Vec<Step> {
    let mut steps = profile.steps();
    steps.truncate(steps.len() - 2);
    steps
}

pub fn relations(facts: &Facts, profile: Profile) -> Relations {
    relations_by(facts, &first_eight(profile))
}
