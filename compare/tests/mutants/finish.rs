//! Wrong searches for a way out, and wrong words for what shut a step out. Most cut what cannot
//! be cut: each loses an answer on some graph that the comparison makes.
use super::{all_found, SEEDS};
use compare::judge::engine::{at_rest, blocked, stepped};
use compare::judge::finish::{finish, shut_by};
use compare::judge::graph::{graph_of, Graph, Marking};
use compare::seeds::{finish as half_done, graphs, Prng};

/// A step that is about to be tried.
struct Try<'a> {
    graph: &'a Graph,
    before: &'a Marking,
    after: &'a Marking,
    e: u8,
    /// the step that was taken before it
    previous: Option<u8>,
    /// how many steps are left, this one counted
    left: usize,
}

struct Search {
    lengths: &'static [usize],
    falling: bool,
    cuts: fn(&Try) -> bool,
    ends: fn(&Marking) -> bool,
    may: fn(&Graph, &Marking, u8) -> bool,
}

const RIGHT: Search = Search {
    lengths: &[0, 1, 2, 3, 4],
    falling: false,
    cuts: |_| false,
    ends: at_rest,
    may: |graph, marking, e| blocked(graph, marking, e).is_ok(),
};

fn owed(marking: &Marking) -> usize {
    marking.pending.intersection(&marking.included).count()
}

/// No condition, include or exclude between two steps. Forgets responses.
fn apart(graph: &Graph, x: u8, y: u8) -> bool {
    let r = &graph.relations;
    [&r.conditions, &r.includes, &r.excludes]
        .iter()
        .all(|pairs| !pairs.contains(&(x, y)) && !pairs.contains(&(y, x)))
}

const MUTANTS: [(&str, Search); 12] = [
    (
        "skips a step that changes executed alone",
        Search {
            cuts: |t| t.before.pending == t.after.pending && t.before.included == t.after.included,
            ..RIGHT
        },
    ),
    (
        "takes steps that seem to commute in rising order",
        Search {
            cuts: |t| {
                t.previous
                    .is_some_and(|p| p > t.e && apart(t.graph, p, t.e))
            },
            ..RIGHT
        },
    ),
    (
        "gives up where more are owed than steps are left",
        Search {
            cuts: |t| owed(t.before) > t.left,
            ..RIGHT
        },
    ),
    (
        "never lets more be owed than before",
        Search {
            cuts: |t| owed(t.after) > owed(t.before),
            ..RIGHT
        },
    ),
    (
        "skips what is executed and not pending",
        Search {
            cuts: |t| t.before.executed.contains(&t.e) && !t.before.pending.contains(&t.e),
            ..RIGHT
        },
    ),
    (
        "the longest first",
        Search {
            lengths: &[4, 3, 2, 1, 0],
            ..RIGHT
        },
    ),
    (
        "the last by numbers",
        Search {
            falling: true,
            ..RIGHT
        },
    ),
    (
        "accepting is not asked at first",
        Search {
            lengths: &[1, 2, 3, 4],
            ..RIGHT
        },
    ),
    (
        "accepting is never asked",
        Search {
            ends: |_| true,
            ..RIGHT
        },
    ),
    (
        "what is pending and shut out keeps a call open",
        Search {
            ends: |marking| marking.pending.is_empty(),
            ..RIGHT
        },
    ),
    (
        "three steps at most",
        Search {
            lengths: &[0, 1, 2, 3],
            ..RIGHT
        },
    ),
    (
        "conditions are not asked",
        Search {
            may: |_, marking, e| marking.included.contains(&e),
            ..RIGHT
        },
    ),
];

impl Search {
    fn way(
        &self,
        graph: &Graph,
        marking: &Marking,
        left: usize,
        previous: Option<u8>,
    ) -> Option<Vec<u8>> {
        if left == 0 {
            return (self.ends)(marking).then(Vec::new);
        }
        let mut events: Vec<u8> = graph.events.iter().copied().collect();
        if self.falling {
            events.reverse();
        }
        for e in events {
            if !(self.may)(graph, marking, e) {
                continue;
            }
            let after = stepped(graph, marking, e);
            let cut = (self.cuts)(&Try {
                graph,
                before: marking,
                after: &after,
                e,
                previous,
                left,
            });
            if cut {
                continue;
            }
            if let Some(rest) = self.way(graph, &after, left - 1, Some(e)) {
                return Some([&[e][..], &rest].concat());
            }
        }
        None
    }

    fn finish(&self, graph: &Graph, marking: &Marking) -> Result<[u8; 4], u8> {
        for &length in self.lengths {
            if let Some(steps) = self.way(graph, marking, length, None) {
                let mut way = [255; 4];
                way[..length].copy_from_slice(&steps);
                return Ok(way);
            }
        }
        Err(17)
    }
}

/// The half-done calls of the comparison's rounds.
fn graphs_of(seed: u64) -> Vec<Graph> {
    let mut prng = Prng::new(seed);
    let mut all = Vec::new();
    for _ in 0..20 {
        all.push(graph_of(&half_done::small(&mut prng)));
    }
    for _ in 0..6 {
        all.push(graph_of(&half_done::chain(&mut prng)));
    }
    all
}

fn found(mutant: &Search) -> Option<u64> {
    (0..SEEDS).find(|&seed| {
        graphs_of(seed)
            .iter()
            .any(|graph| mutant.finish(graph, &graph.marking) != finish(graph, &graph.marking))
    })
}

/// The search that the mutants are made of is right: otherwise it would say nothing.
#[test]
fn the_search_itself_is_right() {
    for seed in 0..5 {
        for graph in graphs_of(seed) {
            let wanted = finish(&graph, &graph.marking);
            assert_eq!(RIGHT.finish(&graph, &graph.marking), wanted);
        }
    }
}

#[test]
fn wrong_searches() {
    all_found(
        MUTANTS
            .iter()
            .map(|(name, mutant)| (*name, found(mutant)))
            .collect(),
    );
}

type ShutBy = fn(&Graph, &[u8], u8) -> u8;

fn lets_in(graph: &Graph, e: u8, a: u8) -> bool {
    graph.relations.includes.contains(&(e, a))
}

fn excludes(graph: &Graph, e: u8, a: u8) -> bool {
    graph.relations.excludes.contains(&(e, a))
}

fn walked(trace: &[u8], next: impl Fn(u8, u8) -> u8) -> u8 {
    trace.iter().fold(255, |last, &e| next(last, e))
}

const SHUT_BY: [(&str, ShutBy); 4] = [
    ("the first that shut it out", |g, trace, a| {
        let first = trace.iter().find(|&&e| excludes(g, e, a));
        match first {
            Some(&e) if shut_by(g, trace, a) != 255 => e,
            _ => 255,
        }
    }),
    ("nothing lets it in again", |g, trace, a| {
        walked(trace, |last, e| {
            if excludes(g, e, a) && !lets_in(g, e, a) {
                e
            } else {
                last
            }
        })
    }),
    ("an exclude wins", |g, trace, a| {
        walked(trace, |last, e| {
            match (excludes(g, e, a), lets_in(g, e, a)) {
                (true, _) => e,
                (false, true) => 255,
                (false, false) => last,
            }
        })
    }),
    ("done, it is in again", |g, trace, a| {
        let after = trace.iter().rposition(|&e| e == a).map_or(0, |k| k + 1);
        shut_by(g, &trace[after..], a)
    }),
];

#[test]
fn wrong_words() {
    let found = |mutant: ShutBy| {
        (0..SEEDS).find(|&seed| {
            let mut prng = Prng::new(seed);
            graphs_of(seed).iter().any(|graph| {
                let trace: Vec<u8> = (0..prng.one_of(&[1, 2, 3, 5, 8]))
                    .map(|_| graphs::activity(&mut prng, graph.a))
                    .collect();
                let a = graphs::activity(&mut prng, graph.a);
                mutant(graph, &trace, a) != shut_by(graph, &trace, a)
            })
        })
    };
    all_found(
        SHUT_BY
            .iter()
            .map(|(name, mutant)| (*name, found(*mutant)))
            .collect(),
    );
}
