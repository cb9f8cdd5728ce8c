//! The ten steps of mining. Each takes the relations as they stood when it began and gives
//! the relations after it; "s, t" range over the events.
use super::facts::{Facts, Table};
use super::{Pairs, Relations, Set};
use std::collections::BTreeMap;

pub type Step = fn(&Facts, &Relations) -> Relations;

pub const ALL: [Step; 10] = [
    step1, step2, step3, step4, step5, step6, step7, step8, step9, step10,
];

/// Every s, t of the events, s = t too.
pub fn pairs_of(events: &Set) -> Pairs {
    let mut pairs = Pairs::new();
    for &s in events {
        for &t in events {
            pairs.insert((s, t));
        }
    }
    pairs
}

/// s excludes s, if no trace has s twice.
pub fn step1(facts: &Facts, stood: &Relations) -> Relations {
    let mut after = stood.clone();
    for &s in &facts.events {
        if !facts.twice.contains(&s) {
            after.excludes.insert((s, s));
        }
    }
    after
}

/// Condition where every t has an s earlier, response where every s has a t later.
pub fn step2(facts: &Facts, stood: &Relations) -> Relations {
    let mut after = stood.clone();
    for (s, t) in pairs_of(&facts.events) {
        if s != t && !facts.lacks_earlier.contains(&(s, t)) {
            after.conditions.insert((s, t));
        }
        if s != t && !facts.lacks_later.contains(&(s, t)) {
            after.responses.insert((s, t));
        }
    }
    after
}

/// Every t has s directly before it: s includes t, and t excludes t.
pub fn step3(facts: &Facts, stood: &Relations) -> Relations {
    let mut after = stood.clone();
    for (s, t) in pairs_of(&facts.events) {
        if s != t && !facts.lacks_directly_before.contains(&(s, t)) {
            after.includes.insert((s, t));
            after.excludes.insert((t, t));
        }
    }
    after
}

/// Never together in one trace: s excludes t; each target keeps the smallest source.
pub fn step4(facts: &Facts, stood: &Relations) -> Relations {
    let mut found = Pairs::new();
    for (s, t) in pairs_of(&facts.events) {
        let together = facts.before.contains(&(s, t)) || facts.later.contains(&(t, s));
        if s != t && !together {
            found.insert((s, t));
        }
    }
    let mut after = stood.clone();
    after.excludes.extend(smallest_sources(&found));
    after
}

/// s before t in some trace, after t in none, s without self-exclusion: t excludes s.
pub fn step5(facts: &Facts, stood: &Relations) -> Relations {
    let mut found = Pairs::new();
    for (s, t) in pairs_of(&facts.events) {
        let before = facts.later.contains(&(s, t));
        let after = facts.before.contains(&(t, s));
        if before && !after && !stood.excludes.contains(&(s, s)) {
            found.insert((t, s));
        }
    }
    let mut after = stood.clone();
    after.excludes.extend(smallest_sources(&found));
    after
}

/// Each target keeps the pair with the smallest source, among these pairs alone.
pub fn smallest_sources(pairs: &Pairs) -> Pairs {
    let mut kept: BTreeMap<u8, u8> = BTreeMap::new();
    for &(source, target) in pairs {
        let smallest = kept.entry(target).or_insert(source);
        if source < *smallest {
            *smallest = source;
        }
    }
    kept.into_iter()
        .map(|(target, source)| (source, target))
        .collect()
}

/// No s is directly followed by t: s excludes t, and what stands between includes t.
pub fn step6(facts: &Facts, stood: &Relations) -> Relations {
    let mut after = stood.clone();
    for (s, t) in pairs_of(&facts.events) {
        if facts.directly_followed.contains(&(s, t)) {
            continue;
        }
        after.excludes.insert((s, t));
        for &u in &facts.events {
            if facts.between.has(s, u, t) {
                after.includes.insert((u, t));
            }
        }
    }
    after
}

/// Remove s excludes t, if some u makes it redundant.
pub fn step7(facts: &Facts, stood: &Relations) -> Relations {
    let mut after = stood.clone();
    for &(s, t) in &stood.excludes {
        let explains = |&u: &u8| makes_redundant(facts, stood, u, s, t);
        if facts.events.iter().any(explains) {
            after.excludes.remove(&(s, t));
        }
    }
    after
}

/// u excludes t and alternately precedes s (01); besides, u doesn't include t and no v that
/// includes t stands between a u and a later s in any trace (02, 7/12).
pub fn makes_redundant(facts: &Facts, stood: &Relations, u: u8, s: u8, t: u8) -> bool {
    let alternately = !facts.lacks_alternate.contains(&(u, s));
    if !alternately || !stood.excludes.contains(&(u, t)) || stood.includes.contains(&(u, t)) {
        return false;
    }
    let lets_in = |&v: &u8| facts.between.has(u, v, s) && stood.includes.contains(&(v, t));
    !facts.events.iter().any(lets_in)
}

/// Responses and conditions without the pairs that a middle activity explains.
pub fn step8(facts: &Facts, stood: &Relations) -> Relations {
    let mut after = stood.clone();
    after.responses = reduced(&facts.events, &stood.responses);
    after.conditions = reduced(&facts.events, &stood.conditions);
    after
}

/// Judged on the pairs as they stood, so their order makes no difference.
pub fn reduced(events: &Set, stood: &Pairs) -> Pairs {
    let mut after = stood.clone();
    for &(s, t) in stood {
        for &u in events {
            if stood.contains(&(s, u)) && stood.contains(&(u, t)) {
                after.remove(&(s, t));
            }
        }
    }
    after
}

/// Condition where s is before the first t in some trace and holds up no t of the log.
pub fn step9(facts: &Facts, stood: &Relations) -> Relations {
    let held_up = held_up(facts, stood);
    let mut after = stood.clone();
    for (s, t) in pairs_of(&facts.events) {
        let seen_before = facts.before_first.contains(&(s, t));
        if s != t && seen_before && !held_up.contains(&(s, t)) {
            after.conditions.insert((s, t));
        }
    }
    after
}

/// (s, t) where, at some t, s is included and has not been executed. Each trace is
/// replayed with includes and excludes alone, from all included; t's own effects come
/// after it is judged.
pub fn held_up(facts: &Facts, stood: &Relations) -> Table {
    let mut found = Table::below(facts.below);
    for trace in &facts.traces {
        let mut included = facts.events.clone();
        let mut executed = Set::new();
        for &t in trace {
            for &s in &included {
                if !executed.contains(&s) {
                    found.insert((s, t));
                }
            }
            executed.insert(t);
            let stays = |a: &u8| !stood.excludes.contains(&(t, *a));
            included.retain(stays);
            for &a in &facts.events {
                if stood.includes.contains(&(t, a)) {
                    included.insert(a);
                }
            }
        }
    }
    found
}

/// Step 8 once more, for conditions.
pub fn step10(facts: &Facts, stood: &Relations) -> Relations {
    let mut after = stood.clone();
    after.conditions = reduced(&facts.events, &stood.conditions);
    after
}
