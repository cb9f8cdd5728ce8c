//! Wrong plain engines: most read the lists wrongly and are right otherwise, so they hand the
//! judge another graph than they were handed.
use super::engine::{right, Execute, MUTANTS};
use super::{all_found, SEEDS};
use compare::door::{self, Door, MOST_PAIRS};
use compare::judge::door::DOOR as JUDGE;
use compare::judge::graph_file::read_marking;
use compare::judge::plain::read;
use compare::seeds::plain::form_of;
use compare::seeds::{graphs, plain, Prng};
use compare::value::PlainGraph;
use std::collections::BTreeSet;

/// Another graph in the place of this one, or a number straight away.
type Reading = fn(&PlainGraph) -> Result<PlainGraph, u8>;

/// The seeded inputs of the comparison: sound, then damaged graphs, with the borders first.
pub fn graphs_of(seed: u64) -> Vec<PlainGraph> {
    let mut prng = Prng::new(seed);
    let value = graphs::value(&mut prng);
    let mut graph = plain::of(&value);
    plain::reordered(&mut prng, &mut graph);
    let mut all = vec![graph.clone()];
    for _ in 0..3 {
        let mut damaged = graph.clone();
        plain::damage(&mut prng, &mut damaged);
        all.push(damaged);
    }
    all
}

/// A step and a verdict at markings, and a replay, as the comparison makes them.
fn told_apart(prng: &mut Prng, graph: &PlainGraph, mutant: Reading) -> bool {
    let steps = graphs::Steps::from(&plain::value_in(graph));
    for _ in 0..3 {
        let marking = plain::marking(prng, graph);
        let activity = graphs::activity(prng, steps);
        let mut lent = [marking.clone(), marking.clone()];
        let wanted = (JUDGE.plain_step)(graph, &mut lent[0], activity);
        let given = match mutant(graph) {
            Ok(other) => (JUDGE.plain_step)(&other, &mut lent[1], activity),
            Err(number) => door::stepped(Err(number.into())),
        };
        if wanted != given || lent[0] != lent[1] {
            return true;
        }
    }
    let trace = graphs::trace(prng, steps);
    let given = match mutant(graph) {
        Ok(other) => (JUDGE.plain_replay)(&other, &trace),
        Err(number) => door::replayed(number, 0, false),
    };
    given != (JUDGE.plain_replay)(graph, &trace)
}

fn found(mutant: Reading) -> Option<u64> {
    for seed in 0..SEEDS {
        let mut prng = Prng::new(seed + SEEDS);
        for graph in graphs_of(seed) {
            if told_apart(&mut prng, &graph, mutant) {
                return Some(seed);
            }
        }
    }
    None
}

const READINGS: [(&str, Reading); 26] = [
    ("a pair listed twice is none", |g| lists(g, odd)),
    ("only the first pair of a source", |g| {
        lists(g, first_of_source)
    }),
    ("only the last pair of a source", |g| {
        lists(g, last_of_source)
    }),
    ("only the first pair of a target", |g| {
        lists(g, first_of_target)
    }),
    ("the first pair is left out", |g| {
        lists(g, |l| l.iter().skip(1).copied().collect())
    }),
    ("the last pair is left out", |g| {
        lists(g, |l| l[..l.len().saturating_sub(1)].to_vec())
    }),
    ("nothing after a fall", |g| lists(g, rising_part)),
    ("source and target swapped", |g| {
        lists(g, |l| l.iter().map(|p| p.swap_bytes()).collect())
    }),
    ("target modulo 64", |g| {
        lists(g, |l| l.iter().map(|p| p & 0xFF3F).collect())
    }),
    ("source modulo 64", |g| {
        lists(g, |l| l.iter().map(|p| p & 0x3FFF).collect())
    }),
    ("target modulo 128", |g| {
        lists(g, |l| l.iter().map(|p| p & 0xFF7F).collect())
    }),
    ("source modulo 128", |g| {
        lists(g, |l| l.iter().map(|p| p & 0x7FFF).collect())
    }),
    ("limit 4,096 as before", |g| limited(g, 4096)),
    ("limit 4,096 up to 64 activities", |g| {
        limited(
            g,
            if form_of(g).set == 8 {
                4096
            } else {
                MOST_PAIRS
            },
        )
    }),
    ("target not judged", |g| {
        judged_without(g, |events, [_, source]| holds(events, source))
    }),
    ("source not judged", |g| {
        judged_without(g, |events, [target, _]| holds(events, target))
    }),
    ("pairs not judged", |g| judged_without(g, |_, _| true)),
    ("5 before 3", five_first),
    ("limit 16,383", |g| limited(g, MOST_PAIRS - 1)),
    ("limit 16,385", |g| limited(g, MOST_PAIRS + 1)),
    ("no limit", |g| limited(g, usize::MAX)),
    ("limit on different pairs", |g| lists(g, once_each)),
    ("limit on conditions alone", |g| limit_on(g, 0)),
    ("limit on excludes alone", |g| limit_on(g, 3)),
    ("opening marking not judged", opening_passes),
    ("a head a byte short is enough", short_head),
];

#[test]
fn found_by_lists() {
    all_found(
        READINGS
            .iter()
            .map(|&(name, mutant)| (name, found(mutant)))
            .collect(),
    );
}

/// So that the others are not found for another reason than theirs.
#[test]
fn right_readings_are_not_told_apart() {
    let right: [Reading; 3] = [
        |g| Ok(g.clone()),
        |g| lists(g, |l| l.iter().rev().copied().collect()),
        |g| limited(g, MOST_PAIRS),
    ];
    for reading in right {
        assert_eq!(found(reading), None);
    }
}

/// Each list limited by itself: the borders have each of them one too long.
const LIMITS: [(&str, Reading); 8] = [
    ("limit on conditions alone", |g| limit_on(g, 0)),
    ("limit on responses alone", |g| limit_on(g, 1)),
    ("limit on includes alone", |g| limit_on(g, 2)),
    ("limit on excludes alone", |g| limit_on(g, 3)),
    ("limit 16,383", |g| limited(g, MOST_PAIRS - 1)),
    ("limit 16,385", |g| limited(g, MOST_PAIRS + 1)),
    ("5 before 3", five_first),
    ("a head a byte short is enough", short_head),
];

#[test]
fn found_by_the_borders() {
    let found = |mutant: Reading| {
        let differs = |g: &PlainGraph| {
            let given = mutant(g).map_or_else(u64::from, |g| number_of(&g));
            given != number_of(g)
        };
        let place = plain::borders().iter().position(|(_, g)| differs(g));
        place.map(|place| place as u64)
    };
    all_found(
        LIMITS
            .iter()
            .map(|&(name, mutant)| (name, found(mutant)))
            .collect(),
    );
}

fn number_of(graph: &PlainGraph) -> u64 {
    (JUDGE.plain_accepting)(graph, &vec![0; form_of(graph).marking()]) % 256
}

fn lists(graph: &PlainGraph, change: fn(&[u16]) -> Vec<u16>) -> Result<PlainGraph, u8> {
    let mut other = graph.clone();
    other.lists = other.lists.map(|list| change(&list));
    Ok(other)
}

fn odd(list: &[u16]) -> Vec<u16> {
    let mut in_it = BTreeSet::new();
    for pair in list {
        if !in_it.remove(pair) {
            in_it.insert(*pair);
        }
    }
    in_it.into_iter().collect()
}

/// In any order but the list's: the set decides.
fn once_each(list: &[u16]) -> Vec<u16> {
    let pairs: BTreeSet<u16> = list.iter().copied().collect();
    pairs.into_iter().collect()
}

fn first_by(list: impl Iterator<Item = u16>, key: fn(u16) -> u16) -> Vec<u16> {
    let mut seen = BTreeSet::new();
    list.filter(|&pair| seen.insert(key(pair))).collect()
}

fn first_of_source(list: &[u16]) -> Vec<u16> {
    first_by(list.iter().copied(), |pair| pair / 256)
}

fn last_of_source(list: &[u16]) -> Vec<u16> {
    first_by(list.iter().rev().copied(), |pair| pair / 256)
}

fn first_of_target(list: &[u16]) -> Vec<u16> {
    first_by(list.iter().copied(), |pair| pair % 256)
}

/// An engine that takes lists to be rising.
fn rising_part(list: &[u16]) -> Vec<u16> {
    let fall = list.windows(2).position(|two| two[1] < two[0]);
    list[..fall.map_or(list.len(), |place| place + 1)].to_vec()
}

fn events_of(graph: &PlainGraph) -> u128 {
    plain::value_in(graph).events
}

fn holds(events: u128, activity: u8) -> bool {
    activity < 128 && events >> activity & 1 == 1
}

fn within(events: u128, pair: u16) -> bool {
    let [target, source] = pair.to_le_bytes();
    holds(events, source) && holds(events, target)
}

/// A pair outside the events that passes has no effect.
fn judged_without(graph: &PlainGraph, passes: fn(u128, [u8; 2]) -> bool) -> Result<PlainGraph, u8> {
    let events = events_of(graph);
    let mut other = graph.clone();
    if other.lists.iter().all(|list| list.len() <= MOST_PAIRS) {
        for list in &mut other.lists {
            list.retain(|&pair| within(events, pair) || !passes(events, pair.to_le_bytes()));
        }
    }
    Ok(other)
}

fn five_first(graph: &PlainGraph) -> Result<PlainGraph, u8> {
    let events = events_of(graph);
    let stray = |list: &Vec<u16>| list.iter().any(|&pair| !within(events, pair));
    if graph.head.len() >= form_of(graph).head() && graph.lists.iter().any(stray) {
        return Err(5);
    }
    Ok(graph.clone())
}

fn limited(graph: &PlainGraph, limit: usize) -> Result<PlainGraph, u8> {
    let whole = graph.head.len() >= form_of(graph).head();
    if whole && graph.lists.iter().any(|list| list.len() > limit) {
        return Err(3);
    }
    lists(graph, once_each)
}

/// All other lists may be as long as they like.
fn limit_on(graph: &PlainGraph, kind: usize) -> Result<PlainGraph, u8> {
    let mut other = lists(graph, once_each)?;
    other.lists[kind] = graph.lists[kind].clone();
    Ok(other)
}

/// What is outside the events is not marked.
fn opening_passes(graph: &PlainGraph) -> Result<PlainGraph, u8> {
    let mut other = graph.clone();
    let form = form_of(graph);
    if other.head.len() >= form.head() {
        for place in form.head_marking()..form.head() - form.set {
            other.head[place] &= graph.head[1 + (place - 1) % form.set];
        }
    }
    Ok(other)
}

fn short_head(graph: &PlainGraph) -> Result<PlainGraph, u8> {
    let mut other = graph.clone();
    if other.head.len() == form_of(graph).head() - 1 {
        other.head.push(0);
    }
    Ok(other)
}

/// The step rules written wrong, at the markings and activities of the plain inputs.
pub fn found_step(mutant: Execute) -> Option<u64> {
    for seed in 0..SEEDS {
        let mut prng = Prng::new(seed + SEEDS);
        for graph in graphs_of(seed) {
            let steps = graphs::Steps::from(&plain::value_in(&graph));
            let Ok(judged) = read(&graph, 0) else {
                continue;
            };
            for _ in 0..3 {
                let bytes = plain::marking(&mut prng, &graph);
                let activity = graphs::activity(&mut prng, steps);
                if (JUDGE.plain_accepting)(&graph, &bytes) % 256 != 0 {
                    continue;
                }
                let m = read_marking(&bytes, form_of(&graph).set);
                if right(&judged, &m, activity) != mutant(&judged, &m, activity) {
                    return Some(seed);
                }
            }
        }
    }
    None
}

#[test]
fn found_by_steps_on_lists() {
    all_found(
        MUTANTS
            .iter()
            .map(|&(name, mutant)| (name, found_step(mutant)))
            .collect(),
    );
}

type Accepting = fn(&PlainGraph, &[u8]) -> u64;

/// number + 2^32 where the pending and included sets that were picked have nothing in common.
fn accepting_by(graph: &PlainGraph, bytes: &[u8], open: fn(u128, u128, u128) -> bool) -> u64 {
    let number = (JUDGE.plain_accepting)(graph, bytes) % 256;
    if number != 0 {
        return number;
    }
    let m = plain::marking_at(bytes, 0, form_of(graph));
    u64::from(!open(m.executed, m.pending, m.included)) << 32
}

const VERDICTS: [(&str, Accepting); 5] = [
    ("pending and excluded keeps it open", |g, m| {
        accepting_by(g, m, |_, pending, _| pending != 0)
    }),
    ("pending and executed does not", |g, m| {
        accepting_by(g, m, |executed, pending, included| {
            pending & included & !executed != 0
        })
    }),
    ("always", |g, m| accepting_by(g, m, |_, _, _| false)),
    ("the marking's 7 before the graph's 5", |g, m| {
        let number = (JUDGE.plain_accepting)(g, m);
        if number == 5 && m.len() < form_of(g).marking() {
            7
        } else {
            number
        }
    }),
    ("the marking's 5 passes", |g, m| {
        let number = (JUDGE.plain_accepting)(g, m);
        if number == 5 && read(g, 0).is_ok() {
            0
        } else {
            number
        }
    }),
];

#[test]
fn found_by_verdicts() {
    let found = |mutant: Accepting| {
        for seed in 0..SEEDS {
            let mut prng = Prng::new(seed + SEEDS);
            for graph in graphs_of(seed) {
                let bytes = plain::marking(&mut prng, &graph);
                if (JUDGE.plain_accepting)(&graph, &bytes) != mutant(&graph, &bytes) {
                    return Some(seed);
                }
            }
        }
        None
    };
    all_found(
        VERDICTS
            .iter()
            .map(|&(name, mutant)| (name, found(mutant)))
            .collect(),
    );
}

type Fill = fn(&[u8], u8, &mut [u16]) -> u64;

/// The judge's fill, then its list changed.
fn changed(file: &[u8], kind: u8, memory: &mut [u16], change: fn(&mut [u16])) -> u64 {
    let given = (JUDGE.fill)(file, kind, memory);
    change(&mut memory[..(given / 256) as usize]);
    given
}

const FILLS: [(&str, Fill); 8] = [
    ("source and target swapped", |f, k, m| {
        changed(f, k, m, |list| {
            list.iter_mut().for_each(|p| *p = p.swap_bytes())
        })
    }),
    ("falling", |f, k, m| changed(f, k, m, |list| list.reverse())),
    ("rising by target, then source", |f, k, m| {
        changed(f, k, m, |list| list.sort_by_key(|p| p.swap_bytes()))
    }),
    ("conditions by target", |f, k, m| {
        let by_target: fn(&mut [u16]) = |list| list.sort_by_key(|p| p.swap_bytes());
        changed(f, k, m, if k == 0 { by_target } else { |_| () })
    }),
    ("fills what fits, then 7", fills_what_fits),
    ("no room for the last", |f, k, m| {
        let given = (JUDGE.fill)(f, k, &mut m.to_vec());
        if given / 256 == m.len() as u64 && given > 255 {
            7
        } else {
            (JUDGE.fill)(f, k, m)
        }
    }),
    ("clears the rest", |f, k, m| {
        let given = (JUDGE.fill)(f, k, m);
        if given % 256 == 0 {
            m[(given / 256) as usize..].fill(0);
        }
        given
    }),
    ("the kinds go round", |f, k, m| (JUDGE.fill)(f, k % 4, m)),
];

#[test]
fn found_by_filling() {
    all_found(
        FILLS
            .iter()
            .map(|&(name, mutant)| (name, found_fill(mutant)))
            .collect(),
    );
}

fn fills_what_fits(file: &[u8], kind: u8, memory: &mut [u16]) -> u64 {
    let mut room = vec![0; MOST_PAIRS];
    let pairs = (JUDGE.fill)(file, kind, &mut room) / 256;
    let given = (JUDGE.fill)(file, kind, memory);
    if given == 7 {
        let fits = memory.len().min(pairs as usize);
        memory[..fits].copy_from_slice(&room[..fits]);
    }
    given
}

fn found_fill(mutant: Fill) -> Option<u64> {
    let judge: Door = JUDGE;
    for seed in 0..SEEDS {
        let mut prng = Prng::new(seed);
        let file = graphs::file(&graphs::value(&mut prng));
        let kind = prng.one_of(&plain::KINDS);
        let pairs = (judge.fill)(&file, kind, &mut vec![0; MOST_PAIRS]) / 256;
        let room = plain::room(&mut prng, pairs as usize);
        let (mut wanted, mut given) = (vec![7; room], vec![7; room]);
        if (judge.fill)(&file, kind, &mut wanted) != mutant(&file, kind, &mut given)
            || wanted != given
        {
            return Some(seed);
        }
    }
    None
}
