//! Wrong tallies, joins and readings, tried on the years of the comparison's rounds.
use super::wrong_steps::step7_of_01;
use super::{all_found, SEEDS};
use compare::door::TALLY_ROOM;
use compare::judge::facts::{gather_asking, nothing_seen};
use compare::judge::log::{read, Log};
use compare::judge::miner::{relations_by, Profile};
use compare::judge::months::{bytes, facts_in, facts_of, filled, first_eight, joined, relations};
use compare::judge::Relations;
use compare::seeds::{months, Prng};

#[derive(Clone, Copy)]
struct Months {
    fill: fn(&Log) -> Vec<u8>,
    join: fn(&[u8], &[u8]) -> Vec<u8>,
    relations: fn(&[u8], Profile) -> Relations,
}

const RIGHT: Months = Months {
    fill: filled,
    join: joined,
    relations: |tally, profile| relations(&facts_in(tally), profile),
};

impl Months {
    fn tally(&self, logs: &[Log]) -> Vec<u8> {
        let tallies: Vec<Vec<u8>> = logs.iter().map(self.fill).collect();
        let (first, rest) = tallies.split_first().expect("a year has a month");
        rest.iter()
            .fold(first.clone(), |year, month| (self.join)(&year, month))
    }

    fn read(&self, tally: &[u8]) -> [Relations; 2] {
        [Profile::Full, Profile::Light].map(|profile| (self.relations)(tally, profile))
    }
}

fn years() -> impl Iterator<Item = (u64, Vec<Log>)> {
    (0..SEEDS).map(|seed| {
        let logs = months::year(&mut Prng::new(seed));
        let sound = logs.iter().map(|log| read(log).expect("sound")).collect();
        (seed, sound)
    })
}

fn filling(fill: fn(&Log) -> Vec<u8>) -> Months {
    Months { fill, ..RIGHT }
}

fn joining(join: fn(&[u8], &[u8]) -> Vec<u8>) -> Months {
    Months { join, ..RIGHT }
}

fn reading(relations: fn(&[u8], Profile) -> Relations) -> Months {
    Months { relations, ..RIGHT }
}

/// What stands between two activities by another test of the places of u, v and s in a trace.
fn between(log: &Log, counts: fn(&[u8], usize, usize, usize) -> bool) -> Vec<u8> {
    let mut facts = facts_of(&log.traces);
    facts.between = nothing_seen(64).between;
    for trace in &log.traces {
        for to in 0..trace.len() {
            for v in 0..to {
                for u in (0..v).filter(|&u| counts(trace, u, v, to)) {
                    facts.between.tick(trace[u], trace[v], trace[to]);
                }
            }
        }
    }
    bytes(log.a, &facts)
}

/// Another way to join the bytes of one part.
fn part(from: usize, to: usize, one: fn(u8, u8) -> u8, x: &[u8], y: &[u8]) -> Vec<u8> {
    let mut tally = joined(x, y);
    for k in from..to {
        tally[k] = one(x[k], y[k]);
    }
    tally
}

/// Each shows in the relations of some year.
fn told_by_relations() -> Vec<(&'static str, Months)> {
    vec![
        (
            "absence limited to the month's A",
            filling(|log| bytes(log.a, &gather_asking(&log.traces, (0..log.a).collect(), 64))),
        ),
        (
            "absence limited to the month's events",
            filling(|log| {
                let events = log.traces.iter().flatten().copied().collect();
                bytes(log.a, &gather_asking(&log.traces, events, 64))
            }),
        ),
        (
            "what stands between, from the nearest u",
            filling(|log| between(log, |trace, u, _, s| !trace[u + 1..s].contains(&trace[u]))),
        ),
        (
            "what stands between, to the next s",
            filling(|log| between(log, |trace, u, _, s| !trace[u + 1..s].contains(&trace[s]))),
        ),
        (
            "what stands between, but for s",
            filling(|log| between(log, |trace, _, v, s| trace[v] != trace[s])),
        ),
        (
            "a table added instead of joined",
            joining(|x, y| part(16, 16 + 512, u8::wrapping_add, x, y)),
        ),
        (
            "the events of the first month alone",
            joining(|x, y| part(8, 16, |x, _| x, x, y)),
        ),
        (
            "what breaks a rule must break it in both",
            joining(|x, y| part(16 + 2 * 512, 16 + 3 * 512, |x, y| x & y, x, y)),
        ),
        (
            "the pairs of the last month alone",
            joining(|x, y| part(4096, TALLY_ROOM, |_, y| y, x, y)),
        ),
        (
            "step 7 by 01's old rule",
            reading(|tally, profile| {
                let mut steps = first_eight(profile);
                let seventh = steps.len() - 2;
                steps[seventh] = step7_of_01;
                relations_by(&facts_in(tally), &steps)
            }),
        ),
        (
            "step 6 left out of full",
            reading(|tally, _| relations(&facts_in(tally), Profile::Light)),
        ),
        (
            "step 8 left out",
            reading(|tally, profile| {
                let mut steps = first_eight(profile);
                steps.pop();
                relations_by(&facts_in(tally), &steps)
            }),
        ),
    ]
}

/// These show in the bytes alone.
fn told_by_bytes() -> Vec<(&'static str, Months)> {
    vec![
        (
            "the smaller A",
            joining(|x, y| part(0, 1, |x, y| x.min(y), x, y)),
        ),
        (
            "A bit by bit",
            joining(|x, y| part(0, 1, |x, y| x | y, x, y)),
        ),
        (
            "A of the first month",
            joining(|x, y| part(0, 1, |x, _| x, x, y)),
        ),
        (
            "spare bytes not 0",
            filling(|log| {
                let mut tally = filled(log);
                tally[8 * 450..8 * 512].fill(165);
                tally
            }),
        ),
        (
            "spare bytes of A not 0",
            filling(|log| {
                let mut tally = filled(log);
                tally[1..8].fill(165);
                tally
            }),
        ),
    ]
}

#[test]
fn wrong_relations() {
    let years: Vec<_> = years()
        .map(|(seed, logs)| (seed, RIGHT.read(&RIGHT.tally(&logs)), logs))
        .collect();
    let found = |wrong: Months| {
        let told = years
            .iter()
            .find(|(_, right, logs)| wrong.read(&wrong.tally(logs)) != *right);
        told.map(|(seed, _, _)| *seed)
    };
    let all = told_by_relations();
    all_found(all.into_iter().map(|(name, m)| (name, found(m))).collect());
}

#[test]
fn wrong_bytes() {
    let found = |wrong: Months| {
        let told = years().find(|(_, logs)| wrong.tally(logs) != RIGHT.tally(logs));
        told.map(|(seed, _)| seed)
    };
    let all = told_by_bytes();
    all_found(all.into_iter().map(|(name, m)| (name, found(m))).collect());
}
