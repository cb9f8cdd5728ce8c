//! Wrong versions of a step and of enabled.
use super::{all_found, SEEDS};
use compare::door::Form;
use compare::judge::door::DOOR as JUDGE;
use compare::judge::engine::{blocked, stepped};
use compare::judge::graph::{graph_of, marking_of, Graph, Marking};
use compare::judge::{Pairs, Set};
use compare::seeds::{graphs, Prng};
use compare::value::Answer;

/// The number and the blocker, or the marking where the step is done.
pub type Execute = fn(&Graph, &Marking, u8) -> Result<Marking, Answer>;

pub fn right(graph: &Graph, marking: &Marking, e: u8) -> Result<Marking, Answer> {
    blocked(graph, marking, e)?;
    Ok(stepped(graph, marking, e))
}

/// Graphs, markings and activities as the comparison makes them.
pub fn found(mutant: Execute) -> Option<u64> {
    for seed in 0..SEEDS {
        let mut prng = Prng::new(seed);
        let value = graphs::value(&mut prng);
        let graph = graph_of(&value);
        for _ in 0..3 {
            let marking = marking_of(&graphs::marking(&mut prng, &value));
            let e = graphs::activity(&mut prng, &value);
            if right(&graph, &marking, e) != mutant(&graph, &marking, e) {
                return Some(seed);
            }
        }
    }
    None
}

/// The plain engine's inputs must find them too.
pub const MUTANTS: [(&str, Execute); 12] = [
    ("changes nothing", |g, m, e| {
        blocked(g, m, e).map(|()| m.clone())
    }),
    ("excludes after includes", excludes_last),
    ("pending cleared last", pending_cleared_last),
    ("pending not cleared", pending_kept),
    (
        "conditions of excluded sources count",
        excluded_sources_count,
    ),
    ("executed sources still hold up", executed_sources_count),
    ("10 before 9", ten_before_nine),
    ("9 before 8", nine_before_eight),
    ("the largest blocks", |g, m, e| {
        named(
            g,
            m,
            e,
            |s| m.included.contains(s) && !m.executed.contains(s),
            Set::last,
        )
    }),
    ("an excluded source is named", |g, m, e| {
        named(g, m, e, |s| !m.executed.contains(s), Set::first)
    }),
    ("an executed source is named", |g, m, e| {
        named(g, m, e, |s| m.included.contains(s), Set::first)
    }),
    ("0 for no blocker", |g, m, e| match right(g, m, e) {
        Err(answer) if answer.number != 10 => Err(Answer {
            blocker: 0,
            ..answer
        }),
        other => other,
    }),
];

#[test]
fn found_by_random_graphs() {
    all_found(
        MUTANTS
            .iter()
            .map(|&(name, mutant)| (name, found(mutant)))
            .collect(),
    );
}

fn of(pairs: &Pairs, e: u8) -> Set {
    pairs
        .iter()
        .filter(|pair| pair.0 == e)
        .map(|pair| pair.1)
        .collect()
}

fn excludes_last(graph: &Graph, marking: &Marking, e: u8) -> Result<Marking, Answer> {
    let mut after = right(graph, marking, e)?;
    let shut_out = of(&graph.relations.excludes, e);
    after.included.retain(|a| !shut_out.contains(a));
    Ok(after)
}

fn pending_cleared_last(graph: &Graph, marking: &Marking, e: u8) -> Result<Marking, Answer> {
    let mut after = right(graph, marking, e)?;
    after.pending.remove(&e);
    Ok(after)
}

fn pending_kept(graph: &Graph, marking: &Marking, e: u8) -> Result<Marking, Answer> {
    let mut after = right(graph, marking, e)?;
    after.pending.extend(&marking.pending);
    Ok(after)
}

/// The condition sources of e that count.
fn sources(graph: &Graph, e: u8, counts: impl Fn(&u8) -> bool) -> Set {
    let leading = graph.relations.conditions.iter().filter(|pair| pair.1 == e);
    leading.map(|pair| pair.0).filter(counts).collect()
}

/// 10 where some source counts, with the smallest.
fn waits(sources: &Set) -> Result<(), Answer> {
    let number = 10;
    match sources.first() {
        Some(&blocker) => Err(Answer { number, blocker }),
        None => Ok(()),
    }
}

fn excluded_sources_count(graph: &Graph, marking: &Marking, e: u8) -> Result<Marking, Answer> {
    let done = right(graph, marking, e)?;
    waits(&sources(graph, e, |s| !marking.executed.contains(s)))?;
    Ok(done)
}

fn executed_sources_count(graph: &Graph, marking: &Marking, e: u8) -> Result<Marking, Answer> {
    let done = right(graph, marking, e)?;
    waits(&sources(graph, e, |s| marking.included.contains(s)))?;
    Ok(done)
}

/// Right but for the blocker beside 10, which is picked of the sources that count.
fn named(
    graph: &Graph,
    marking: &Marking,
    e: u8,
    counts: impl Fn(&u8) -> bool,
    pick: fn(&Set) -> Option<&u8>,
) -> Result<Marking, Answer> {
    right(graph, marking, e).map_err(|answer| match answer.number {
        10 => Answer {
            blocker: *pick(&sources(graph, e, counts)).expect("some source blocks"),
            ..answer
        },
        _ => answer,
    })
}

fn ten_before_nine(graph: &Graph, marking: &Marking, e: u8) -> Result<Marking, Answer> {
    let mut open = marking.clone();
    open.included.insert(e);
    match blocked(graph, &open, e) {
        Err(answer) if answer.number == 10 => Err(answer),
        _ => right(graph, marking, e),
    }
}

fn nine_before_eight(graph: &Graph, marking: &Marking, e: u8) -> Result<Marking, Answer> {
    match right(graph, marking, e) {
        Err(answer) if answer.number == 8 && !marking.included.contains(&e) => Err(9.into()),
        other => other,
    }
}

/// What a step or a replay gives in all, changed: the bits that no other mutant here touches.
#[test]
fn found_in_the_number() {
    let mutants: [(&str, fn(u64) -> u64); 3] = [
        ("0 for no blocker where done", |given| match given % 256 {
            0 => given % (1 << 40),
            _ => given,
        }),
        (
            "0 for no blocker where the file is refused",
            |given| match given % 256 {
                1..=7 => given % (1 << 40),
                _ => given,
            },
        ),
        ("the blocker 8 bits too low", |given| {
            given % (1 << 40) + (given >> 40 << 32)
        }),
    ];
    let told_apart = |mutant: fn(u64) -> u64, seed| {
        let mut prng = Prng::new(seed);
        let value = graphs::value(&mut prng);
        let file = graphs::file(&value);
        let trace = graphs::trace(&mut prng, &value);
        let mut given = vec![(JUDGE.replay)(&file, &trace)];
        given.push((JUDGE.replay)(&file[..file.len() - 1], &trace));
        let marking = graphs::marking(&mut prng, &value);
        let mut lent = graphs::marking_bytes(&marking, Form::of(value.a));
        let activity = graphs::activity(&mut prng, &value);
        given.push((JUDGE.step)(&file, &mut lent, activity));
        given.iter().any(|&number| mutant(number) != number)
    };
    all_found(
        mutants
            .iter()
            .map(|&(name, mutant)| (name, (0..SEEDS).find(|&seed| told_apart(mutant, seed))))
            .collect(),
    );
}
