//! The way out of a half-done call. Only the last step is clever: what it must do for each step
//! that is still owed is looked up, so no marking after it is made.
use super::word::{bit, index, Word};
use crate::value::{GraphOf, MarkingOf};

const UNUSED: u8 = 255;

pub const NO_WAY: [u8; 4] = [UNUSED; 4];

/// What the last step is looked up in.
struct Tables<W, const N: usize> {
    /// who settles x when it is pending and included: x itself, or who shuts it out
    settlers: [W; N],
    /// who lets y in
    includers: [W; N],
    /// what e leaves owed, of the steps that are included
    owed: [W; N],
    /// who leaves nothing owed that it lets in itself
    fit: W,
}

fn members<W: Word>(mut set: W) -> impl Iterator<Item = u8> {
    std::iter::from_fn(move || {
        let first = (set != W::NONE).then(|| set.least() as u8)?;
        set = set.without_least();
        Some(first)
    })
}

impl<W: Word, const N: usize> Tables<W, N> {
    fn of(graph: &GraphOf<W, N>) -> Tables<W, N> {
        let mut tables = Tables {
            settlers: [W::NONE; N],
            includers: [W::NONE; N],
            owed: [W::NONE; N],
            fit: W::NONE,
        };
        for e in members(graph.events) {
            let k = index::<N>(e);
            let (includes, excludes) = (graph.includes[k], graph.excludes[k]);
            for x in members(excludes & !includes) {
                tables.settlers[index::<N>(x)] |= bit::<W>(e);
            }
            for y in members(includes) {
                tables.includers[index::<N>(y)] |= bit::<W>(e);
            }
            tables.settlers[k] |= bit::<W>(e);
            tables.owed[k] = graph.responses[k] & !excludes;
            if graph.responses[k] & includes == W::NONE {
                tables.fit |= bit::<W>(e);
            }
        }
        tables
    }
}

#[inline(always)]
fn waits<W: Word, const N: usize>(graph: &GraphOf<W, N>, m: &MarkingOf<W>, e: u8) -> bool {
    graph.conditions[index::<N>(e)] & m.included & !m.executed != W::NONE
}

/// The least step that is enabled and after which nothing is owed.
fn last<W: Word, const N: usize>(
    graph: &GraphOf<W, N>,
    tables: &Tables<W, N>,
    m: &MarkingOf<W>,
) -> Option<u8> {
    let mut may = m.included & tables.fit;
    for x in members(m.pending & m.included) {
        may &= tables.settlers[index::<N>(x)];
        if may == W::NONE {
            return None;
        }
    }
    for y in members(m.pending & !m.included) {
        // letting in what is pending leaves it owed
        may &= !tables.includers[index::<N>(y)];
    }
    members(may)
        .find(|&e| !waits(graph, m, e) && tables.owed[index::<N>(e)] & m.included == W::NONE)
}

/// The search asks no set of enabled steps.
fn after<W: Word, const N: usize>(graph: &GraphOf<W, N>, m: &MarkingOf<W>, e: u8) -> MarkingOf<W> {
    let k = index::<N>(e);
    MarkingOf {
        executed: m.executed | bit(e),
        pending: m.pending & !bit::<W>(e) | graph.responses[k],
        included: m.included & !graph.excludes[k] | graph.includes[k],
        enabled: W::NONE,
    }
}

/// The first way of so many steps, from place `at` of the four on.
fn way<W: Word, const N: usize>(
    graph: &GraphOf<W, N>,
    tables: &Tables<W, N>,
    m: &MarkingOf<W>,
    at: usize,
    end: usize,
    found: &mut [u8; 4],
) -> bool {
    if at + 1 == end {
        return match last(graph, tables, m) {
            None => false,
            Some(e) => {
                found[at] = e;
                true
            }
        };
    }
    for e in members(m.included & graph.events) {
        if !waits(graph, m, e) && way(graph, tables, &after(graph, m, e), at + 1, end, found) {
            found[at] = e;
            return true;
        }
    }
    false
}

/// For a graph and a marking that were judged; 17 where there is none.
pub fn finish<W: Word, const N: usize>(
    graph: &GraphOf<W, N>,
    m: &MarkingOf<W>,
) -> Result<[u8; 4], u8> {
    let mut found = NO_WAY;
    if m.pending & m.included == W::NONE {
        return Ok(found);
    }
    let tables = Tables::of(graph);
    if (1..=4).any(|steps| way(graph, &tables, m, 0, steps, &mut found)) {
        return Ok(found);
    }
    Err(17)
}

/// From the end: the first event met that touches the step decides.
pub fn shut_by<W: Word, const N: usize>(graph: &GraphOf<W, N>, trace: &[u8], a: u8) -> u8 {
    if usize::from(a) >= N {
        return UNUSED;
    }
    for &e in trace.iter().rev().filter(|&&e| usize::from(e) < N) {
        if graph.includes[index::<N>(e)] & bit(a) != W::NONE {
            return UNUSED;
        }
        if graph.excludes[index::<N>(e)] & bit(a) != W::NONE {
            return e;
        }
    }
    UNUSED
}
