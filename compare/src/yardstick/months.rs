//! Months: the tally as words. The tables come from the miner's one walk; what stands between
//! two activities from one more, in which a trace is cut at the first place of each activity.
use super::facts::{gather, Facts};
use super::log::Log;
use super::rows::{reduced, transposed, union, Bits};
use super::word::{bit, index};
use crate::door::TALLY_ROOM;
use crate::value::GraphOf;

const ROWS: usize = 2;
const PAIRS: usize = 512;

/// A tally has 64 activities at the most.
type Rows = [u64; 64];
type Graph = GraphOf<u64, 64>;

/// Row s: for each u, what stands between a u and a later s.
type Between = [Rows; 64];

/// A tally's seven tables, in its order.
struct Tables {
    before: Rows,
    later: Rows,
    unpreceded: Rows,
    unanswered: Rows,
    unchained: Rows,
    unalternated: Rows,
    followed: Rows,
}

pub fn fill(log: &Log, tally: &mut [u8; TALLY_ROOM]) {
    let facts = gather::<u64, 64>(log);
    let mut between = [[0; 64]; 64];
    for trace in log.traces() {
        stand_between(trace, &mut between);
    }
    tally[..8 * PAIRS].fill(0);
    tally[0] = log.a;
    put(tally, 1, facts.events);
    put_tables(tally, &tables_of(&facts));
    for u in 0..64 {
        for s in 0..64 {
            put(tally, PAIRS + 64 * u + s, between[s][u]);
        }
    }
}

#[inline(always)]
fn put(tally: &mut [u8; TALLY_ROOM], at: usize, word: u64) {
    tally[8 * at..8 * at + 8].copy_from_slice(&word.to_le_bytes());
}

#[inline(always)]
fn word(tally: &[u8; TALLY_ROOM], at: usize) -> u64 {
    let bytes = tally[8 * at..8 * at + 8].try_into();
    u64::from_le_bytes(bytes.expect("8 bytes"))
}

/// At the last place of s, from the latest first place back: what stands since then grows. Gap j
/// has what came after the first place of activity j, up to the next first place.
fn stand_between(trace: &[u8], between: &mut Between) {
    let mut last = [0; 64];
    for (place, &e) in trace.iter().enumerate() {
        last[index::<64>(e)] = place as u32;
    }
    let (mut firsts, mut gaps, mut count, mut seen) = ([0u8; 64], [0u64; 64], 0, 0);
    for (place, &e) in (0..).zip(trace) {
        if last[index::<64>(e)] == place {
            let row = &mut between[index::<64>(e)];
            let mut since = 0;
            for (&u, &gap) in firsts[..count].iter().zip(&gaps[..count]).rev() {
                since |= gap;
                row[index::<64>(u)] |= since;
            }
        }
        if count > 0 {
            gaps[(count - 1) & 63] |= bit::<u64>(e);
        }
        if seen & bit::<u64>(e) == 0 {
            seen |= bit::<u64>(e);
            firsts[count & 63] = e;
            count += 1;
        }
    }
}

/// What breaks a rule is what did not hold at every place; at no place of what is no event.
fn tables_of(facts: &Facts<u64, 64>) -> Tables {
    let row = |of: fn(&Facts<u64, 64>, usize) -> u64| {
        let mut rows = [0; 64];
        for e in Bits(facts.events) {
            rows[e] = of(facts, e);
        }
        rows
    };
    let before = row(|facts, e| facts.of[e].before);
    let directly = row(|facts, e| facts.of[e].directly_before);
    Tables {
        later: transposed(&before),
        before,
        unpreceded: row(|facts, e| !facts.of[e].always_before),
        unanswered: row(|facts, e| !facts.of[e].always_after),
        unchained: row(|facts, e| {
            let before = facts.of[e].directly_before;
            let one = before.is_power_of_two() && facts.starts >> e & 1 == 0;
            if one {
                !before
            } else {
                u64::MAX
            }
        }),
        unalternated: row(|facts, e| !facts.of[e].alternately_before()),
        followed: transposed(&directly),
    }
}

fn put_tables(tally: &mut [u8; TALLY_ROOM], tables: &Tables) {
    let all = [
        &tables.before,
        &tables.later,
        &tables.unpreceded,
        &tables.unanswered,
        &tables.unchained,
        &tables.unalternated,
        &tables.followed,
    ];
    for (k, rows) in all.into_iter().enumerate() {
        for (e, &row) in rows.iter().enumerate() {
            put(tally, ROWS + 64 * k + e, row);
        }
    }
}

fn tables_in(tally: &[u8; TALLY_ROOM]) -> Tables {
    let rows = |k: usize| std::array::from_fn(|e| word(tally, ROWS + 64 * k + e));
    Tables {
        before: rows(0),
        later: rows(1),
        unpreceded: rows(2),
        unanswered: rows(3),
        unchained: rows(4),
        unalternated: rows(5),
        followed: rows(6),
    }
}

pub fn join(tally: &mut [u8; TALLY_ROOM], other: &[u8; TALLY_ROOM]) {
    let a = tally[0].max(other[0]);
    for (mine, theirs) in tally.iter_mut().zip(other) {
        *mine |= theirs;
    }
    tally[0] = a;
}

/// Steps 1 to 8 on rows. Only the rows of events are looked at, whatever the others hold.
pub fn relations<const STEP6: bool>(tally: &[u8; TALLY_ROOM]) -> Graph {
    let events = word(tally, 1);
    let tables = tables_in(tally);
    let mut graph = Graph {
        a: tally[0],
        events,
        ..Graph::empty()
    };
    for e in Bits(events) {
        let others = events & !(1 << e);
        graph.conditions[e] = others & !tables.unpreceded[e];
        graph.responses[e] = others & !tables.unanswered[e];
        let chained = others & !tables.unchained[e];
        for s in Bits(chained) {
            graph.includes[s] |= 1 << e;
        }
        exclude(&mut graph.excludes, &tables, events, e, chained != 0);
    }
    if STEP6 {
        step6(tally, &tables, &mut graph);
    }
    graph.excludes = not_redundant(tally, &tables, &graph);
    graph.conditions = reduced(&graph.conditions);
    graph.responses = reduced(&graph.responses);
    graph
}

/// Steps 1 and 3 to 5, for one target.
fn exclude(excludes: &mut Rows, tables: &Tables, events: u64, target: usize, chained: bool) {
    let here = 1 << target;
    let (before, later) = (tables.before[target], tables.later[target]);
    let itself = before & here == 0 || chained;
    if itself {
        excludes[target] |= here;
    }
    let apart = events & !(before | later | here);
    if apart != 0 {
        excludes[apart.trailing_zeros() as usize] |= here;
    }
    let closing = events & later & !before;
    if closing != 0 && !itself {
        excludes[closing.trailing_zeros() as usize] |= here;
    }
}

/// What lets t in is gathered by target, a word for each s that t never directly follows.
fn step6(tally: &[u8; TALLY_ROOM], tables: &Tables, graph: &mut Graph) {
    let mut let_in = [0; 64];
    for s in Bits(graph.events) {
        let never = graph.events & !tables.followed[s];
        graph.excludes[s] |= never;
        for t in Bits(never) {
            let_in[t] |= graph.events & word(tally, PAIRS + 64 * s + t);
        }
    }
    for (row, more) in graph.includes.iter_mut().zip(transposed(&let_in)) {
        *row |= more;
    }
}

fn not_redundant(tally: &[u8; TALLY_ROOM], tables: &Tables, graph: &Graph) -> Rows {
    let mut left = graph.excludes;
    for s in Bits(graph.events) {
        for u in Bits(graph.events & !tables.unalternated[s]) {
            let asked = left[s] & graph.excludes[u] & !graph.includes[u];
            if asked != 0 {
                let members = graph.events & word(tally, PAIRS + 64 * u + s);
                left[s] &= !(asked & !union(&graph.includes, members));
            }
        }
    }
    left
}
