//! Step 7 (02, 7/12). What one u after another makes redundant goes. The log is asked only
//! about pairs in doubt: something that includes the target comes after some u and before
//! some s, in one trace or in two.
use super::log::Log;
use super::rows::{transposed, union, Bits};
use super::word::{index, Word};

pub struct Around<W, const N: usize> {
    /// what is before some e
    pub before: [W; N],
    /// what alternately precedes e
    pub alternately: [W; N],
}

pub fn not_redundant<W: Word, const N: usize>(
    log: &Log,
    events: W,
    around: &Around<W, N>,
    includes: &[W; N],
    excludes: &[W; N],
) -> [W; N] {
    let later = transposed(&around.before);
    let followers = transposed(&around.alternately);
    let mut left = *excludes;
    for u in Bits(events) {
        let asked = excludes[u] & !includes[u] & union(&left, followers[u]);
        if asked == W::NONE {
            continue;
        }
        if asked & union(includes, later[u]) == W::NONE {
            for s in Bits(followers[u]) {
                left[s] &= !asked;
            }
            continue;
        }
        let mut open = [W::NONE; N];
        for s in Bits(followers[u]) {
            let doubted = union(includes, later[u] & around.before[s]);
            left[s] &= !asked | doubted;
            open[s] = left[s] & asked;
        }
        reopen(log, u, followers[u], includes, &mut open);
        for s in Bits(followers[u]) {
            left[s] &= !open[s];
        }
    }
    left
}

/// Row s loses what was let in between a u and some later s.
fn reopen<W: Word, const N: usize>(
    log: &Log,
    u: usize,
    followers: W,
    includes: &[W; N],
    open: &mut [W; N],
) {
    for (k, trace) in log.traces().enumerate() {
        if k % 4 == 0 && union(open, followers) == W::NONE {
            return;
        }
        let mut after_first = trace.iter().skip_while(|&&e| index::<N>(e) != u);
        after_first.next();
        let mut since = W::NONE;
        for &e in after_first {
            open[index::<N>(e)] &= !since;
            since |= includes[index::<N>(e)];
        }
    }
}
