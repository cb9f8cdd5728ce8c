//! Mining steps with a slip in each, written beside the judge's.
use compare::judge::facts::{Facts, Table};
use compare::judge::steps::{held_up, makes_redundant, pairs_of, reduced, smallest_sources, ALL};
use compare::judge::{Pairs, Relations, Set};

pub fn responses_of_first(facts: &Facts, stood: &Relations) -> Relations {
    let mut lacks = Table::below(facts.below);
    for trace in &facts.traces {
        for &s in &facts.events {
            let Some(first) = trace.iter().position(|&e| e == s) else {
                continue;
            };
            for &t in &facts.events {
                if !trace[first + 1..].contains(&t) {
                    lacks.insert((s, t));
                }
            }
        }
    }
    let mut after = ALL[1](facts, stood);
    after.responses = pairs_of(&facts.events);
    after
        .responses
        .retain(|&(s, t)| s != t && !lacks.contains(&(s, t)));
    after
}

pub fn chain_but_for_starts(facts: &Facts, stood: &Relations) -> Relations {
    let mut lacks = Table::below(facts.below);
    for pair in facts.traces.iter().flat_map(|trace| trace.windows(2)) {
        for &s in facts.events.iter().filter(|&&s| s != pair[0]) {
            lacks.insert((s, pair[1]));
        }
    }
    let mut after = stood.clone();
    for (s, t) in pairs_of(&facts.events) {
        if s != t && facts.directly_followed.contains(&(s, t)) && !lacks.contains(&(s, t)) {
            after.includes.insert((s, t));
            after.excludes.insert((t, t));
        }
    }
    after
}

pub fn step3_includes_only(facts: &Facts, stood: &Relations) -> Relations {
    let mut after = ALL[2](facts, stood);
    after.excludes = stood.excludes.clone();
    after
}

fn never_together(facts: &Facts) -> Pairs {
    let mut found = pairs_of(&facts.events);
    found.retain(|&(s, t)| {
        s != t && !facts.before.contains(&(s, t)) && !facts.before.contains(&(t, s))
    });
    found
}

pub fn step4_all(facts: &Facts, stood: &Relations) -> Relations {
    let mut after = stood.clone();
    after.excludes.extend(never_together(facts));
    after
}

pub fn step4_if_none(facts: &Facts, stood: &Relations) -> Relations {
    let mut found = smallest_sources(&never_together(facts));
    found.retain(|&(_, t)| stood.excludes.iter().all(|&(_, target)| target != t));
    let mut after = stood.clone();
    after.excludes.extend(found);
    after
}

/// (t, s) where s is before t in some trace and after it in none.
fn only_before(facts: &Facts) -> Pairs {
    let mut found = pairs_of(&facts.events);
    found.retain(|&(t, s)| facts.before.contains(&(s, t)) && !facts.before.contains(&(t, s)));
    found
}

pub fn step5_any_s(facts: &Facts, stood: &Relations) -> Relations {
    let mut after = stood.clone();
    after.excludes.extend(smallest_sources(&only_before(facts)));
    after
}

pub fn step5_turned(facts: &Facts, stood: &Relations) -> Relations {
    let mut found = Pairs::new();
    for (t, s) in only_before(facts) {
        if !stood.excludes.contains(&(s, s)) {
            found.insert((s, t));
        }
    }
    let mut after = stood.clone();
    after.excludes.extend(smallest_sources(&found));
    after
}

pub fn step6_where(facts: &Facts, stood: &Relations, test: fn(u8, u8, u8) -> bool) -> Relations {
    let mut after = ALL[5](facts, stood);
    after.includes = stood.includes.clone();
    for (s, t) in pairs_of(&facts.events) {
        for &u in &facts.events {
            let followed = facts.directly_followed.contains(&(s, t));
            if !followed && facts.between.has(s, u, t) && test(s, u, t) {
                after.includes.insert((u, t));
            }
        }
    }
    after
}

pub fn step6_next_t(facts: &Facts, stood: &Relations) -> Relations {
    let mut after = ALL[5](facts, stood);
    after.includes = stood.includes.clone();
    for trace in &facts.traces {
        for (place, &s) in trace.iter().enumerate() {
            for &t in &facts.events {
                let later = &trace[place + 1..];
                let Some(next) = later.iter().position(|&e| e == t) else {
                    continue;
                };
                if !facts.directly_followed.contains(&(s, t)) {
                    after.includes.extend(later[..next].iter().map(|&u| (u, t)));
                }
            }
        }
    }
    after
}

pub fn step7_in_place(facts: &Facts, stood: &Relations) -> Relations {
    let mut after = stood.clone();
    for &(s, t) in &stood.excludes {
        let goes = |&u: &u8| makes_redundant(facts, &after, u, s, t);
        if facts.events.iter().any(goes) {
            after.excludes.remove(&(s, t));
        }
    }
    after
}

/// Step 7 with another test of u, s, t.
fn step7_by(facts: &Facts, stood: &Relations, redundant: impl Fn(u8, u8, u8) -> bool) -> Relations {
    let mut after = stood.clone();
    after
        .excludes
        .retain(|&(s, t)| !facts.events.iter().any(|&u| redundant(u, s, t)));
    after
}

/// As 01 had it: whatever let t in again.
pub fn step7_of_01(facts: &Facts, stood: &Relations) -> Relations {
    step7_by(facts, stood, |u, s, t| {
        excludes_ahead(facts, stood, u, s, t)
    })
}

fn excludes_ahead(facts: &Facts, stood: &Relations, u: u8, s: u8, t: u8) -> bool {
    stood.excludes.contains(&(u, t)) && !facts.lacks_alternate.contains(&(u, s))
}

pub fn step7_other_u(facts: &Facts, stood: &Relations) -> Relations {
    step7_by(facts, stood, |u, s, t| {
        u != t && makes_redundant(facts, stood, u, s, t)
    })
}

pub fn step7_any_earlier(facts: &Facts, stood: &Relations) -> Relations {
    step7_by(facts, stood, |u, s, t| {
        stood.excludes.contains(&(u, t))
            && !facts.lacks_earlier.contains(&(u, s))
            && !stood.includes.contains(&(u, t))
            && !let_in(facts, stood, (u, s, t), all_spans, |_, _, _| true)
    })
}

/// The places of a u and a later s of a trace between which v is looked for.
type Spans = fn(&[u8], u8, u8) -> Vec<(usize, usize)>;

fn let_in(
    facts: &Facts,
    stood: &Relations,
    (u, s, t): (u8, u8, u8),
    spans: Spans,
    counts: fn(u8, u8, u8) -> bool,
) -> bool {
    facts.traces.iter().any(|trace| {
        spans(trace, u, s).into_iter().any(|(from, to)| {
            trace[from + 1..to]
                .iter()
                .any(|&v| counts(v, u, s) && stood.includes.contains(&(v, t)))
        })
    })
}

/// Step 7 with other spans, or with a v that doesn't always count.
fn step7_spans(
    facts: &Facts,
    stood: &Relations,
    spans: Spans,
    counts: fn(u8, u8, u8) -> bool,
) -> Relations {
    step7_by(facts, stood, |u, s, t| {
        excludes_ahead(facts, stood, u, s, t)
            && !stood.includes.contains(&(u, t))
            && !let_in(facts, stood, (u, s, t), spans, counts)
    })
}

fn places(trace: &[u8], e: u8) -> Vec<usize> {
    (0..trace.len())
        .filter(|&place| trace[place] == e)
        .collect()
}

fn all_spans(trace: &[u8], u: u8, s: u8) -> Vec<(usize, usize)> {
    let from_each = |to: usize| {
        places(&trace[..to], u)
            .into_iter()
            .map(move |from| (from, to))
    };
    places(trace, s).into_iter().flat_map(from_each).collect()
}

fn from_nearest(trace: &[u8], u: u8, s: u8) -> Vec<(usize, usize)> {
    let nearest = |to: usize| places(&trace[..to], u).last().map(|&from| (from, to));
    places(trace, s).into_iter().filter_map(nearest).collect()
}

/// From the first u since the last s.
fn since_last(trace: &[u8], u: u8, s: u8) -> Vec<(usize, usize)> {
    let since = |to: usize| {
        let last = places(&trace[..to], s).last().map_or(0, |&place| place + 1);
        let first = places(&trace[..to], u)
            .into_iter()
            .find(|&place| place >= last);
        first.map(|from| (from, to))
    };
    places(trace, s).into_iter().filter_map(since).collect()
}

fn to_first(trace: &[u8], u: u8, s: u8) -> Vec<(usize, usize)> {
    let first = places(trace, s).first().copied();
    let mut spans = all_spans(trace, u, s);
    spans.retain(|&(_, to)| Some(to) == first);
    spans
}

/// Only what stands directly after a u or directly before an s.
fn neighbours(trace: &[u8], u: u8, s: u8) -> Vec<(usize, usize)> {
    all_spans(trace, u, s)
        .into_iter()
        .filter(|(from, to)| to - from > 1)
        .flat_map(|(from, to)| [(from, from + 2), (to - 2, to)])
        .collect()
}

pub fn step7_nearest_u(facts: &Facts, stood: &Relations) -> Relations {
    step7_spans(facts, stood, from_nearest, |_, _, _| true)
}

pub fn step7_since_last_s(facts: &Facts, stood: &Relations) -> Relations {
    step7_spans(facts, stood, since_last, |_, _, _| true)
}

pub fn step7_first_s(facts: &Facts, stood: &Relations) -> Relations {
    step7_spans(facts, stood, to_first, |_, _, _| true)
}

pub fn step7_v_is_not_s(facts: &Facts, stood: &Relations) -> Relations {
    step7_spans(facts, stood, all_spans, |v, _, s| v != s)
}

pub fn step7_neighbours(facts: &Facts, stood: &Relations) -> Relations {
    step7_spans(facts, stood, neighbours, |_, _, _| true)
}

/// v after some u and before some s, but not between the two.
pub fn step7_in_two_traces(facts: &Facts, stood: &Relations) -> Relations {
    step7_by(facts, stood, |u, s, t| {
        let lets_in = |&v: &u8| {
            facts.before.contains(&(u, v))
                && facts.before.contains(&(v, s))
                && stood.includes.contains(&(v, t))
        };
        excludes_ahead(facts, stood, u, s, t)
            && !stood.includes.contains(&(u, t))
            && !facts.events.iter().any(lets_in)
    })
}

pub fn step7_u_may_include(facts: &Facts, stood: &Relations) -> Relations {
    step7_by(facts, stood, |u, s, t| {
        excludes_ahead(facts, stood, u, s, t)
            && !let_in(facts, stood, (u, s, t), all_spans, |_, _, _| true)
    })
}

fn reduced_in_place(events: &Set, stood: &Pairs) -> Pairs {
    let mut after = stood.clone();
    for &(s, t) in stood {
        if events
            .iter()
            .any(|&u| after.contains(&(s, u)) && after.contains(&(u, t)))
        {
            after.remove(&(s, t));
        }
    }
    after
}

pub fn step8_in_place(facts: &Facts, stood: &Relations) -> Relations {
    let mut after = stood.clone();
    after.responses = reduced_in_place(&facts.events, &stood.responses);
    after.conditions = reduced_in_place(&facts.events, &stood.conditions);
    after
}

pub fn step8_conditions_only(facts: &Facts, stood: &Relations) -> Relations {
    let mut after = ALL[7](facts, stood);
    after.responses = stood.responses.clone();
    after
}

fn conditions_added(facts: &Facts, stood: &Relations, test: impl Fn(u8, u8) -> bool) -> Relations {
    let mut after = stood.clone();
    for (s, t) in pairs_of(&facts.events) {
        if s != t && test(s, t) {
            after.conditions.insert((s, t));
        }
    }
    after
}

/// Where s follows t, something before that t must exclude s; where none follows, all is
/// well. That is how 01 says line 33 is not to be read.
pub fn step9_implication(facts: &Facts, stood: &Relations) -> Relations {
    let mut breaks = Table::below(facts.below);
    for trace in &facts.traces {
        for (j, &t) in trace.iter().enumerate() {
            for &s in &trace[j + 1..] {
                if !trace[..j].iter().any(|&h| stood.excludes.contains(&(h, s))) {
                    breaks.insert((s, t));
                }
            }
        }
    }
    conditions_added(facts, stood, |s, t| {
        facts.before_first.contains(&(s, t)) && !breaks.contains(&(s, t))
    })
}

pub fn step9_exclusion_only(facts: &Facts, stood: &Relations) -> Relations {
    let mut forgetful = stood.clone();
    forgetful.includes.clear();
    let held = held_up(facts, &forgetful);
    conditions_added(facts, stood, |s, t| {
        facts.before_first.contains(&(s, t)) && !held.contains(&(s, t))
    })
}

/// A pair in both relations then shuts out, so it is no longer an include.
pub fn step9_excludes_last(facts: &Facts, stood: &Relations) -> Relations {
    let mut shut = stood.clone();
    shut.includes.retain(|pair| !stood.excludes.contains(pair));
    let held = held_up(facts, &shut);
    conditions_added(facts, stood, |s, t| {
        facts.before_first.contains(&(s, t)) && !held.contains(&(s, t))
    })
}

pub fn step9_any_t(facts: &Facts, stood: &Relations) -> Relations {
    let held = held_up(facts, stood);
    conditions_added(facts, stood, |s, t| {
        facts.before.contains(&(s, t)) && !held.contains(&(s, t))
    })
}

pub fn step9_own_effects(facts: &Facts, stood: &Relations) -> Relations {
    let mut held = Table::below(facts.below);
    for trace in &facts.traces {
        let mut included = facts.events.clone();
        for (place, &t) in trace.iter().enumerate() {
            included.retain(|&a| !stood.excludes.contains(&(t, a)));
            included.extend(
                facts
                    .events
                    .iter()
                    .filter(|&&a| stood.includes.contains(&(t, a))),
            );
            for &s in included.iter().filter(|s| !trace[..place].contains(s)) {
                held.insert((s, t));
            }
        }
    }
    conditions_added(facts, stood, |s, t| {
        facts.before_first.contains(&(s, t)) && !held.contains(&(s, t))
    })
}

pub fn step10_as_printed(facts: &Facts, stood: &Relations) -> Relations {
    let mut after = stood.clone();
    after.responses = reduced(&facts.events, &stood.responses);
    after
}
