//! The two later walks over the log: step 6's includes, and step 9's judging of every t.
use super::log::Log;
use super::word::{bit, index, Word};

/// Step 6: includes of u gain every t that comes after u and that no earlier s is ever
/// directly followed by. `never` has, for each s, the t that never directly follow it.
pub fn between<W: Word, const N: usize>(log: &Log, never: &[W; N], includes: &mut [W; N]) {
    let mut after_place = [W::NONE; 512];
    for trace in log.traces() {
        let afters = &mut after_place[..trace.len()];
        let mut after = W::NONE;
        for (kept, &e) in afters.iter_mut().zip(trace).rev() {
            *kept = after;
            after |= bit(e);
        }
        let mut barred = W::NONE;
        for (&after, &e) in afters.iter().zip(trace) {
            includes[index::<N>(e)] |= barred & after;
            barred |= never[index::<N>(e)];
        }
    }
}

/// Step 9: for each t, the s that were included and not executed at some t.
pub fn held_up<W: Word, const N: usize>(
    log: &Log,
    events: W,
    includes: &[W; N],
    excludes: &[W; N],
) -> [W; N] {
    let mut held = [W::NONE; N];
    for trace in log.traces() {
        let mut included = events;
        let mut seen = W::NONE;
        for &e in trace {
            held[index::<N>(e)] |= included & !seen;
            included = included & !excludes[index::<N>(e)] | includes[index::<N>(e)];
            seen |= bit(e);
        }
    }
    held
}
