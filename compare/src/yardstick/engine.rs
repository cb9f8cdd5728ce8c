//! The engine on words. A graph as a value is of the wide kind, whatever its A; one of a file is of the file's own.
use super::rows::Bits;
use super::word::{below, bit, index, Word};
use crate::value::{Answer, GraphOf, MarkingOf, ReplayedOf};

/// 3 for A, 5 for the graph, 16 for its opening marking.
pub fn judge<W: Word, const N: usize>(graph: &GraphOf<W, N>) -> Result<(), u8> {
    judge_sets(graph)?;
    judge_truth(graph, &graph.marking)
}

/// 3 and 5 alone.
pub fn judge_sets<W: Word, const N: usize>(graph: &GraphOf<W, N>) -> Result<(), u8> {
    if graph.a > 128 {
        return Err(3);
    }
    judge_members(graph)
}

fn judge_members<W: Word, const N: usize>(graph: &GraphOf<W, N>) -> Result<(), u8> {
    let m = &graph.marking;
    let mut used = m.executed | m.pending | m.included;
    let mut keys = W::NONE;
    for key in 0..N {
        let row = graph.conditions[key]
            | graph.responses[key]
            | graph.includes[key]
            | graph.excludes[key];
        used |= row;
        keys |= W::one_if(row != W::NONE) << key;
    }
    if graph.events & !below::<W>(graph.a) != W::NONE || (used | keys) & !graph.events != W::NONE {
        return Err(5);
    }
    Ok(())
}

/// 3, every 5, then 16 for the graph's marking or for the one beside it.
fn judge_beside<W: Word, const N: usize>(
    graph: &GraphOf<W, N>,
    m: &MarkingOf<W>,
) -> Result<(), u8> {
    judge_sets(graph)?;
    within(graph, m)?;
    judge_truth(graph, &graph.marking)?;
    judge_truth(graph, m)
}

/// 5 for a marking that leaves the events; the enabled ones are not looked at.
#[inline(always)]
pub fn within<W: Word, const N: usize>(graph: &GraphOf<W, N>, m: &MarkingOf<W>) -> Result<(), u8> {
    if (m.executed | m.pending | m.included) & !graph.events != W::NONE {
        return Err(5);
    }
    Ok(())
}

/// 16 for a false set.
#[inline(always)]
pub fn judge_truth<W: Word, const N: usize>(
    graph: &GraphOf<W, N>,
    m: &MarkingOf<W>,
) -> Result<(), u8> {
    if m.enabled != enabled_set(graph, m) {
        return Err(16);
    }
    Ok(())
}

/// What holds up those that have it as a condition.
#[inline(always)]
fn holding_up<W: Word>(m: &MarkingOf<W>) -> W {
    m.included & !m.executed
}

/// The members of a set that pass, without a branch.
#[inline(always)]
fn those<W: Word>(set: W, passes: impl Fn(usize) -> bool) -> W {
    Bits(set).fold(W::NONE, |all, k| all | W::one_if(passes(k)) << k)
}

/// What is included and waits for nothing, for a graph and a marking within the events.
#[inline(always)]
pub fn enabled_set<W: Word, const N: usize>(graph: &GraphOf<W, N>, m: &MarkingOf<W>) -> W {
    let up = holding_up(m);
    those(m.included, |k| graph.conditions[k] & up == W::NONE)
}

/// The marking with its set worked out.
#[inline(always)]
pub fn kept<W: Word, const N: usize>(graph: &GraphOf<W, N>, m: MarkingOf<W>) -> MarkingOf<W> {
    let enabled = enabled_set(graph, &m);
    MarkingOf { enabled, ..m }
}

/// 8, 9, 10, or the marking after e, whose set is left as it stood.
#[inline(always)]
pub fn step<W: Word, const N: usize>(
    graph: &GraphOf<W, N>,
    m: MarkingOf<W>,
    e: u8,
) -> Result<MarkingOf<W>, Answer> {
    if usize::from(e) >= N || graph.events & bit(e) == W::NONE {
        return Err(8.into());
    }
    if m.included & bit(e) == W::NONE {
        return Err(9.into());
    }
    let k = index::<N>(e);
    let blocking = graph.conditions[k] & m.included & !m.executed;
    if blocking != W::NONE {
        return Err(Answer {
            number: 10,
            blocker: blocking.least() as u8,
        });
    }
    Ok(MarkingOf {
        executed: m.executed | bit(e),
        pending: m.pending & !bit::<W>(e) | graph.responses[k],
        included: m.included & !graph.excludes[k] | graph.includes[k],
        enabled: m.enabled,
    })
}

/// A step that keeps the set, of a marking whose set is true: only what the step can have changed
/// is asked again. That is quicker than working the set out anew.
#[inline(always)]
pub fn step_keeping<W: Word, const N: usize>(
    graph: &GraphOf<W, N>,
    m: MarkingOf<W>,
    e: u8,
) -> Result<MarkingOf<W>, Answer> {
    let after = step(graph, m, e)?;
    let enabled = still_enabled(graph, &m, &after) | newly_enabled(graph, &m, &after);
    Ok(MarkingOf { enabled, ..after })
}

/// What was enabled and is still included, but for what waits for something that was let in.
#[inline(always)]
fn still_enabled<W: Word, const N: usize>(
    graph: &GraphOf<W, N>,
    m: &MarkingOf<W>,
    after: &MarkingOf<W>,
) -> W {
    let stays = m.enabled & after.included;
    let anew = holding_up(after) & !holding_up(m);
    if anew == W::NONE {
        return stays;
    }
    those(stays, |k| graph.conditions[k] & anew == W::NONE)
}

/// What was let in; and what has waited, where something was executed or shut out that held up.
#[inline(always)]
fn newly_enabled<W: Word, const N: usize>(
    graph: &GraphOf<W, N>,
    m: &MarkingOf<W>,
    after: &MarkingOf<W>,
) -> W {
    let up = holding_up(after);
    let frees = holding_up(m) & !up != W::NONE;
    let asked = after.included & !if frees { m.enabled } else { m.included };
    those(asked, |k| graph.conditions[k] & up == W::NONE)
}

pub fn enabled<W: Word, const N: usize>(
    graph: &GraphOf<W, N>,
    marking: &MarkingOf<W>,
    e: u8,
) -> Result<(), Answer> {
    judge_beside(graph, marking)?;
    step(graph, *marking, e).map(|_| ())
}

pub fn execute<W: Word, const N: usize>(
    graph: &GraphOf<W, N>,
    marking: &mut MarkingOf<W>,
    e: u8,
) -> Result<(), Answer> {
    judge_beside(graph, marking)?;
    *marking = step_keeping(graph, *marking, e)?;
    Ok(())
}

#[inline(always)]
fn at_rest<W: Word>(marking: &MarkingOf<W>) -> bool {
    marking.pending & marking.included == W::NONE
}

pub fn accepting<W: Word, const N: usize>(
    graph: &GraphOf<W, N>,
    marking: &MarkingOf<W>,
) -> Result<bool, u8> {
    judge_beside(graph, marking)?;
    Ok(at_rest(marking))
}

pub fn replay<W: Word, const N: usize>(graph: &GraphOf<W, N>, trace: &[u8]) -> ReplayedOf<W> {
    if graph.a > 128 || trace.len() > 512 {
        return ReplayedOf::refused(3);
    }
    match judge(graph) {
        Err(number) => ReplayedOf::refused(number),
        Ok(()) => {
            let done = replay_judged(graph, trace);
            ReplayedOf {
                marking: kept(graph, done.marking),
                ..done
            }
        }
    }
}

/// For a graph that was judged or mined, and a trace within its limit. No step keeps the set, and
/// the marking given back has none: who hands it on works it out, once.
#[inline]
pub fn replay_judged<W: Word, const N: usize>(
    graph: &GraphOf<W, N>,
    trace: &[u8],
) -> ReplayedOf<W> {
    let mut marking = graph.marking;
    for (place, &e) in trace.iter().enumerate() {
        match step(graph, marking, e) {
            Ok(after) => marking = after,
            Err(answer) => {
                return ReplayedOf {
                    answer,
                    place,
                    marking,
                    accepting: false,
                }
            }
        }
    }
    ReplayedOf {
        answer: 0.into(),
        place: trace.len(),
        marking,
        accepting: at_rest(&marking),
    }
}
