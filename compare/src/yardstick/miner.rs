//! The ten steps on rows. Conditions are kept by target, the others by source.
use super::facts::{gather, Fact, Facts};
use super::log::Log;
use super::redundant::{not_redundant, Around};
use super::replayed_pass::{between, held_up};
use super::rows::{reduced, transposed, Bits};
use super::word::Word;
use crate::value::{GraphOf, MarkingOf};

pub fn mine<W: Word, const N: usize>(log: &Log) -> GraphOf<W, N> {
    mined::<W, N, true>(log)
}

/// Light: without step 6 and its pass.
pub fn mine_light<W: Word, const N: usize>(log: &Log) -> GraphOf<W, N> {
    mined::<W, N, false>(log)
}

/// By the number of the profile, where there is one.
pub fn mine_in<W: Word, const N: usize>(log: &Log, profile: u8) -> GraphOf<W, N> {
    if profile == 0 {
        mine(log)
    } else {
        mine_light(log)
    }
}

#[inline(always)]
fn mined<W: Word, const N: usize, const STEP6: bool>(log: &Log) -> GraphOf<W, N> {
    let facts = gather::<W, N>(log);
    let mut graph = opened(log.a, facts.events);
    steps_1_to_3(&facts, &mut graph);
    steps_4_and_5(&facts, &mut graph.excludes);
    if STEP6 {
        step6(log, &facts, &mut graph);
    }
    let around = Around {
        before: row_of_each(&facts, |fact| fact.before),
        alternately: row_of_each(&facts, |fact| fact.alternately_before()),
    };
    graph.excludes = not_redundant(log, facts.events, &around, &graph.includes, &graph.excludes);
    graph.responses = reduced(&graph.responses);
    graph.conditions = reduced(&graph.conditions);
    let held = held_up(log, facts.events, &graph.includes, &graph.excludes);
    for t in Bits(facts.events) {
        graph.conditions[t] |= facts.of[t].before_first & !held[t];
    }
    graph.conditions = reduced(&graph.conditions);
    graph
}

/// Before there is a relation. What is mined is written or replayed, and neither asks for the set
/// of the opening marking.
fn opened<W: Word, const N: usize>(a: u8, events: W) -> GraphOf<W, N> {
    let marking = MarkingOf {
        executed: W::NONE,
        pending: W::NONE,
        included: events,
        enabled: W::NONE,
    };
    GraphOf {
        a,
        events,
        marking,
        ..GraphOf::empty()
    }
}

/// Rows of the events; what is no event has the empty row.
#[inline(always)]
fn row_of_each<W: Word, const N: usize>(
    facts: &Facts<W, N>,
    row: impl Fn(&Fact<W>) -> W,
) -> [W; N] {
    let mut rows = [W::NONE; N];
    for e in Bits(facts.events) {
        rows[e] = row(&facts.of[e]);
    }
    rows
}

/// A first e has no e before it and a last one none after, so no pair of step 2 is a
/// self-pair, and neither is one of step 3.
fn steps_1_to_3<W: Word, const N: usize>(facts: &Facts<W, N>, graph: &mut GraphOf<W, N>) {
    for e in Bits(facts.events) {
        let fact = &facts.of[e];
        let here = W::ONE << e;
        graph.excludes[e] = here & !facts.twice;
        graph.conditions[e] = fact.always_before;
        graph.responses[e] = fact.always_after;
        let one_before = fact.directly_before.is_one() && facts.starts & here == W::NONE;
        if one_before {
            graph.includes[fact.directly_before.least()] |= here;
            graph.excludes[e] |= here;
        }
    }
}

/// Each target takes its smallest source. Neither step adds or asks for a pair that the
/// other could change: step 4 has no self-pairs and step 5 reads only those.
fn steps_4_and_5<W: Word, const N: usize>(facts: &Facts<W, N>, excludes: &mut [W; N]) {
    let before = row_of_each(facts, |fact| fact.before);
    let after = transposed(&before);
    for target in Bits(facts.events) {
        let here = W::ONE << target;
        let never_together = facts.events & !(before[target] | after[target] | here);
        if never_together != W::NONE {
            excludes[never_together.least()] |= here;
        }
        let only_after = after[target] & !before[target];
        if only_after != W::NONE && excludes[target] & here == W::NONE {
            excludes[only_after.least()] |= here;
        }
    }
}

fn step6<W: Word, const N: usize>(log: &Log, facts: &Facts<W, N>, graph: &mut GraphOf<W, N>) {
    let directly_before = row_of_each(facts, |fact| fact.directly_before);
    let followed = transposed(&directly_before);
    let mut never = [W::NONE; N];
    for s in Bits(facts.events) {
        never[s] = facts.events & !followed[s];
        graph.excludes[s] |= never[s];
    }
    between(log, &never, &mut graph.includes);
}
