//! What the mining rules ask of a log, found by looking from every place of every trace.
//! A rule with "every" is kept by the pairs that break it, so that one look is enough.
use super::log::Log;
use super::Set;

pub struct Facts {
    /// every activity is below this
    pub below: usize,
    pub traces: Vec<Vec<u8>>,
    /// the activities that occur
    pub events: Set,
    /// those that a place is asked for, whether they stand there or not
    pub asked: Set,
    /// s: some trace has s twice
    pub twice: Set,
    /// (s, t): s is before t in some trace, as seen from t
    pub before: Table,
    /// (s, t): the same, as seen from s. A tally keeps both, and another's bytes may hold one alone
    pub later: Table,
    /// (s, t): in some trace s is before the first t
    pub before_first: Table,
    /// (s, t): some t has no s earlier in its trace
    pub lacks_earlier: Table,
    /// (s, t): some s has no t later in its trace
    pub lacks_later: Table,
    /// (s, t): some s is directly followed by t
    pub directly_followed: Table,
    /// (s, t): some t has something else, or nothing, directly before it
    pub lacks_directly_before: Table,
    /// (u, s): some s has no earlier u with no s between them
    pub lacks_alternate: Table,
    /// (s, u, t): u stands between an s and a later t in some trace
    pub between: Triples,
}

/// Yes or no for each two activities below a number: a set of pairs as a plain table, because a
/// long log puts the same pairs in millions of times.
pub struct Table {
    below: usize,
    ticked: Vec<bool>,
}

impl Table {
    pub fn below(below: usize) -> Table {
        Table {
            below,
            ticked: vec![false; below * below],
        }
    }

    pub fn contains(&self, &(s, t): &(u8, u8)) -> bool {
        self.ticked[usize::from(s) * self.below + usize::from(t)]
    }

    pub fn insert(&mut self, (s, t): (u8, u8)) {
        self.ticked[usize::from(s) * self.below + usize::from(t)] = true;
    }
}

/// The same for each three activities.
pub struct Triples {
    below: usize,
    ticked: Vec<bool>,
}

impl Triples {
    fn below(below: usize) -> Triples {
        Triples {
            below,
            ticked: vec![false; below * below * below],
        }
    }

    fn index(&self, s: u8, u: u8, t: u8) -> usize {
        let places = usize::from(s) * self.below + usize::from(u);
        places * self.below + usize::from(t)
    }

    pub fn has(&self, s: u8, u: u8, t: u8) -> bool {
        self.ticked[self.index(s, u, t)]
    }

    pub fn tick(&mut self, s: u8, u: u8, t: u8) {
        let place = self.index(s, u, t);
        self.ticked[place] = true;
    }
}

pub fn gather(log: &Log) -> Facts {
    let events = log.traces.iter().flatten().copied().collect();
    gather_asking(&log.traces, events, usize::from(log.a))
}

/// Facts of absence for these activities, which may be more than occur. All are below a number.
pub fn gather_asking(traces: &[Vec<u8>], asked: Set, below: usize) -> Facts {
    let mut facts = nothing_seen(below);
    facts.traces = traces.to_vec();
    facts.events = traces.iter().flatten().copied().collect();
    facts.asked = asked;
    for trace in traces {
        let later = what_stands_later(trace);
        let mut earlier = Set::new();
        for (place, &here) in trace.iter().enumerate() {
            facts.look_back(&earlier, here);
            facts.look_directly_back(trace[..place].last(), here);
            facts.look_back_to_the_same(&trace[..place], here);
            facts.look_ahead(here, &later[place]);
            facts.look_both_ways(&earlier, here, &later[place]);
            earlier.insert(here);
        }
    }
    facts
}

/// For each place of the trace, the activities after it.
fn what_stands_later(trace: &[u8]) -> Vec<Set> {
    let mut sets = Vec::new();
    let mut later = Set::new();
    for &here in trace.iter().rev() {
        sets.push(later.clone());
        later.insert(here);
    }
    sets.reverse();
    sets
}

pub fn nothing_seen(below: usize) -> Facts {
    let table = || Table::below(below);
    Facts {
        below,
        traces: Vec::new(),
        events: Set::new(),
        asked: Set::new(),
        twice: Set::new(),
        before: table(),
        later: table(),
        before_first: table(),
        lacks_earlier: table(),
        lacks_later: table(),
        directly_followed: table(),
        lacks_directly_before: table(),
        lacks_alternate: table(),
        between: Triples::below(below),
    }
}

impl Facts {
    fn look_back(&mut self, earlier: &Set, t: u8) {
        if earlier.contains(&t) {
            self.twice.insert(t);
        }
        for &s in &self.asked {
            if !earlier.contains(&s) {
                self.lacks_earlier.insert((s, t));
                continue;
            }
            self.before.insert((s, t));
            if !earlier.contains(&t) {
                self.before_first.insert((s, t));
            }
        }
    }

    fn look_directly_back(&mut self, previous: Option<&u8>, t: u8) {
        for &s in &self.asked {
            if previous == Some(&s) {
                self.directly_followed.insert((s, t));
            } else {
                self.lacks_directly_before.insert((s, t));
            }
        }
    }

    /// Only what stands after the last s counts as an earlier u with no s between.
    fn look_back_to_the_same(&mut self, earlier: &[u8], s: u8) {
        let mut since = Set::new();
        for &u in earlier.iter().rev() {
            if u == s {
                break;
            }
            since.insert(u);
        }
        for &u in &self.asked {
            if !since.contains(&u) {
                self.lacks_alternate.insert((u, s));
            }
        }
    }

    fn look_ahead(&mut self, s: u8, later: &Set) {
        for &t in &self.asked {
            if later.contains(&t) {
                self.later.insert((s, t));
            } else {
                self.lacks_later.insert((s, t));
            }
        }
    }

    fn look_both_ways(&mut self, earlier: &Set, u: u8, later: &Set) {
        for &s in earlier {
            for &t in later {
                self.between.tick(s, u, t);
            }
        }
    }
}
