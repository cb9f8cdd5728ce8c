//! Sets of enabled steps that are kept wrongly, and false ones that are believed, or refused at
//! another place than 02's 6/12 says.
use super::engine::{self, right, Execute};
use super::{all_found, plain as on_lists, SEEDS};
use compare::door::{self, Form};
use compare::judge::door::DOOR as JUDGE;
use compare::judge::engine::{enabled_events, kept};
use compare::judge::graph::{graph_of, value_of, Graph, Marking};
use compare::judge::graph_file::{self, set_bytes};
use compare::judge::{plain, Set};
use compare::seeds::{finish as half_done, graphs, plain as lists, Prng};
use compare::value::{Answer, GraphValue, PlainGraph};

/// A step with another set than the right one: made of the graph and of the markings before and after.
fn with_set(
    graph: &Graph,
    before: &Marking,
    e: u8,
    set: fn(&Graph, &Marking, &Marking) -> Set,
) -> Result<Marking, Answer> {
    let mut after = right(graph, before, e)?;
    after.enabled = set(graph, before, &after);
    Ok(after)
}

/// The sources of a step's conditions.
fn sources(graph: &Graph, target: u8) -> impl Iterator<Item = &u8> {
    let conditions = graph.relations.conditions.iter();
    conditions
        .filter(move |pair| pair.1 == target)
        .map(|pair| &pair.0)
}

const STEPS: [(&str, Execute); 8] = [
    ("forgets what a step lets in", |g, m, e| {
        with_set(g, m, e, |_, before, after| {
            after
                .enabled
                .intersection(&before.included)
                .copied()
                .collect()
        })
    }),
    ("forgets what a step shuts out", |g, m, e| {
        with_set(g, m, e, |_, before, after| {
            let gone = before.enabled.difference(&after.included);
            after.enabled.iter().chain(gone).copied().collect()
        })
    }),
    ("forgets what a step frees by executing", |g, m, e| {
        with_set(g, m, e, |graph, before, after| {
            let mut stood = after.clone();
            stood.executed = before.executed.clone();
            enabled_events(graph, &stood)
        })
    }),
    ("forgets what a step frees by shutting out", |g, m, e| {
        with_set(g, m, e, |graph, before, after| {
            let left = |s: &u8| before.included.contains(s) && !after.included.contains(s);
            let freed = |a: &u8| sources(graph, *a).any(|s| left(s) && !after.executed.contains(s));
            after
                .enabled
                .iter()
                .filter(|a| !freed(a))
                .copied()
                .collect()
        })
    }),
    ("forgets what waits for something let in", |g, m, e| {
        with_set(g, m, e, |_, before, after| {
            let stays = before.enabled.intersection(&after.included);
            after.enabled.iter().chain(stays).copied().collect()
        })
    }),
    ("the set stays as it was", |g, m, e| {
        with_set(g, m, e, |_, before, _| before.enabled.clone())
    }),
    ("all that is included", |g, m, e| {
        with_set(g, m, e, |_, _, after| after.included.clone())
    }),
    ("what was executed is not enabled", |g, m, e| {
        with_set(g, m, e, |_, _, after| {
            after.enabled.difference(&after.executed).copied().collect()
        })
    }),
];

#[test]
fn sets_kept_wrongly() {
    let both = |&(name, mutant): &(&'static str, Execute)| {
        let by_both = engine::found(mutant).and(on_lists::found_step(mutant));
        (name, by_both)
    };
    all_found(STEPS.iter().map(both).collect());
}

/// The set of a lent marking that is whole, and the true one for its other three.
fn sets(graph: &Graph, lent: &[u8]) -> Option<(Set, Set)> {
    let whole = lent.len() >= Form::of(graph.a).marking();
    let marking = whole.then(|| read_marking(graph, lent))?;
    Some((marking.enabled.clone(), enabled_events(graph, &marking)))
}

/// A whole marking in the form for the graph's A.
fn read_marking(graph: &Graph, lent: &[u8]) -> Marking {
    graph_file::read_marking(lent, Form::of(graph.a).set)
}

/// The same bytes with another set.
fn put_set(graph: &Graph, lent: &mut [u8], set: &Set) {
    let form = Form::of(graph.a);
    let place = 3 * form.set..form.marking();
    lent[place].copy_from_slice(&set_bytes(set, form.set));
}

/// A graph file, a lent marking, an activity.
type OnFile = fn(&[u8], &mut [u8], u8) -> u64;

/// Where the judge says 16: another word for it, from the file's graph, the marking's set, the true
/// one. None leaves 16.
fn at_sixteen(
    file: &[u8],
    lent: &mut [u8],
    e: u8,
    instead: fn(&Graph, &Set, &Set, u8) -> Option<u8>,
) -> u64 {
    let given = (JUDGE.step)(file, lent, e);
    if given % 256 != 16 {
        return given;
    }
    let graph = graph_file::read(file).expect("16 is said of a sound file");
    let (set, wanted) = sets(&graph, lent).expect("16 is said of a whole marking");
    match instead(&graph, &set, &wanted, e) {
        None => given,
        // taken for a true one
        Some(0) => {
            put_set(&graph, lent, &wanted);
            let done = (JUDGE.step)(file, lent, e);
            if done % 256 != 0 {
                put_set(&graph, lent, &set);
            }
            done
        }
        Some(number) => door::stepped(Err(number.into())),
    }
}

const ON_FILES: [(&str, OnFile); 10] = [
    ("a false set is believed", |f, m, e| {
        at_sixteen(f, m, e, |_, _, _, _| Some(0))
    }),
    ("a set that lacks members passes", |f, m, e| {
        at_sixteen(f, m, e, |_, set, wanted, _| {
            set.is_subset(wanted).then_some(0)
        })
    }),
    ("a set with more members passes", |f, m, e| {
        at_sixteen(f, m, e, |_, set, wanted, _| {
            set.is_superset(wanted).then_some(0)
        })
    }),
    ("only the step asked for is looked up", |f, m, e| {
        at_sixteen(f, m, e, |_, set, wanted, e| {
            (set.contains(&e) == wanted.contains(&e)).then_some(0)
        })
    }),
    ("the set is cut down to the events", |f, m, e| {
        at_sixteen(f, m, e, |graph, set, wanted, _| {
            let cut: Set = set.intersection(&graph.events).copied().collect();
            (cut == *wanted).then_some(0)
        })
    }),
    ("5 for a set that leaves the events", |f, m, e| {
        at_sixteen(f, m, e, |graph, set, _, _| {
            (!set.is_subset(&graph.events)).then_some(5)
        })
    }),
    ("16 after 8", |f, m, e| {
        at_sixteen(f, m, e, |graph, _, _, e| {
            (!graph.events.contains(&e)).then_some(8)
        })
    }),
    ("a refused set is put right", |f, m, e| {
        let given = (JUDGE.step)(f, m, e);
        if given % 256 == 16 {
            let graph = graph_file::read(f).expect("a sound file");
            let wanted = enabled_events(&graph, &read_marking(&graph, m));
            put_set(&graph, m, &wanted);
        }
        given
    }),
    ("16 before 5", |f, m, e| {
        let given = (JUDGE.step)(f, m, e);
        match graph_file::read(f).ok().and_then(|graph| sets(&graph, m)) {
            Some((set, wanted)) if given % 256 == 5 && set != wanted => {
                door::stepped(Err(16.into()))
            }
            _ => given,
        }
    }),
    // a reader that leaves the set of the opening marking empty, and then judges it
    ("16 for an accepted file", |f, m, e| {
        let before = m.to_vec();
        let given = (JUDGE.step)(f, m, e);
        match graph_file::read(f) {
            Ok(graph) if !graph.marking.enabled.is_empty() => {
                m.copy_from_slice(&before);
                door::stepped(Err(16.into()))
            }
            _ => given,
        }
    }),
];

/// Files, markings and activities as the comparison makes them.
fn found_on_files(mutant: OnFile) -> Option<u64> {
    (0..SEEDS).find(|&seed| {
        let mut prng = Prng::new(seed);
        let value = graphs::value(&mut prng);
        let file = graphs::file(&value);
        (0..3).any(|_| {
            let form = Form::of(value.a);
            let mut lent = graphs::marking_bytes(&graphs::any_marking(&mut prng, &value), form);
            let e = graphs::activity(&mut prng, &value);
            let mut wanted = lent.clone();
            let differs = (JUDGE.step)(&file, &mut wanted, e) != mutant(&file, &mut lent, e);
            differs || lent != wanted
        })
    })
}

#[test]
fn false_sets_beside_a_file() {
    let found = |&(name, mutant): &(&'static str, OnFile)| (name, found_on_files(mutant));
    all_found(ON_FILES.iter().map(found).collect());
    assert_eq!(found_on_files(JUDGE.step), None);
}

/// A plain graph, a marking; its number in accepting, which is that of a step up to 8.
type OnLists = fn(&PlainGraph, &[u8]) -> u64;

/// Whether the graph by itself has a false set.
fn false_opening(graph: &PlainGraph) -> bool {
    plain::read(graph, 0)
        .is_ok_and(|graph| enabled_events(&graph, &graph.marking) != graph.marking.enabled)
}

/// The graph with its set put right, where it has nothing else against it.
fn put_right(graph: &PlainGraph) -> PlainGraph {
    let mut other = graph.clone();
    if let Ok(read) = plain::read(graph, 0) {
        let set = value_of(&enabled_events(&read, &read.marking));
        lists::put_enabled(&mut other, set);
    }
    other
}

fn false_marking(graph: &PlainGraph, marking: &[u8]) -> bool {
    let graph = graph_of(&lists::value_in(graph));
    sets(&graph, marking).is_some_and(|(set, wanted)| set != wanted)
}

const ON_LISTS: [(&str, OnLists); 7] = [
    ("the graph's own set is believed", |g, m| {
        (JUDGE.plain_accepting)(&put_right(g), m)
    }),
    ("the marking's own set is believed", |g, m| {
        let mut other = m.to_vec();
        if false_marking(g, m) {
            let graph = graph_of(&lists::value_in(g));
            let set = enabled_events(&graph, &read_marking(&graph, m));
            put_set(&graph, &mut other, &set);
        }
        (JUDGE.plain_accepting)(g, &other)
    }),
    ("the graph's 16 before the marking's 5", |g, m| {
        if false_opening(g) {
            return 16;
        }
        (JUDGE.plain_accepting)(g, m)
    }),
    ("the marking's 16 before the graph's 5", |g, m| {
        let given = (JUDGE.plain_accepting)(g, m);
        if given == 5 && plain::read(g, 0) == Err(5) && false_marking(g, m) {
            return 16;
        }
        given
    }),
    ("16 before 3", |g, m| {
        let given = (JUDGE.plain_accepting)(g, m);
        if given == 3 && false_marking(g, m) {
            return 16;
        }
        given
    }),
    ("a short marking's 7 before the graph's 16", |g, m| {
        let given = (JUDGE.plain_accepting)(g, m);
        if given == 16 && m.len() < lists::form_of(g).marking() {
            return 7;
        }
        given
    }),
    ("5 for an opening set that leaves the events", |g, m| {
        let given = (JUDGE.plain_accepting)(g, m);
        let outside = |g: &Graph| !g.marking.enabled.is_subset(&g.events);
        if given == 16 && plain::read(g, 0).is_ok_and(|g| outside(&g)) {
            return 5;
        }
        given
    }),
];

#[test]
fn false_sets_beside_lists() {
    let found = |&(name, mutant): &(&'static str, OnLists)| {
        let place = (0..SEEDS).find(|&seed| {
            let mut prng = Prng::new(seed + SEEDS);
            on_lists::graphs_of(seed).iter().any(|graph| {
                (0..3).any(|_| {
                    let marking = lists::marking(&mut prng, graph);
                    (JUDGE.plain_accepting)(graph, &marking) != mutant(graph, &marking)
                })
            })
        });
        (name, place)
    };
    all_found(ON_LISTS.iter().map(found).collect());
}

/// A replay on lists starts at the graph's own marking, and nothing stands beside it.
#[test]
fn a_replay_that_believes() {
    let found = (0..SEEDS).find(|&seed| {
        let mut prng = Prng::new(seed);
        on_lists::graphs_of(seed).iter().any(|graph| {
            let trace = graphs::trace(&mut prng, &lists::value_in(graph));
            let believed = (JUDGE.plain_replay)(&put_right(graph), &trace);
            believed != (JUDGE.plain_replay)(graph, &trace)
        })
    });
    all_found(vec![("a replay believes the graph's own set", found)]);
}

type Write = fn(&Graph, &mut [u8]) -> Result<usize, u8>;

const WRITES: [(&str, Write); 4] = [
    ("a write judges 7 before 16", |graph, lent| {
        let right = Graph {
            marking: kept(graph, graph.marking.clone()),
            ..graph.clone()
        };
        match graph_file::write(&right, &mut lent.to_vec()) {
            Err(7) => Err(7),
            _ => graph_file::write(graph, lent),
        }
    }),
    ("a write judges 16 before 5", |graph, lent| {
        let given = graph_file::write(graph, lent);
        let untrue = enabled_events(graph, &graph.marking) != graph.marking.enabled;
        if given == Err(5) && untrue {
            return Err(16);
        }
        given
    }),
    ("a write believes the set", |graph, lent| {
        let marking = kept(graph, graph.marking.clone());
        let graph = Graph {
            marking,
            ..graph.clone()
        };
        graph_file::write(&graph, lent)
    }),
    (
        "a write gives 5 for a set outside the events",
        |graph, lent| match graph_file::write(graph, lent) {
            Err(16) if !graph.marking.enabled.is_subset(&graph.events) => Err(5),
            given => given,
        },
    ),
];

#[test]
fn wrong_writes() {
    let differs = |value: &GraphValue, room: usize, mutant: Write| {
        let graph = graph_of(value);
        let (mut wanted, mut lent) = (vec![9; room], vec![9; room]);
        graph_file::write(&graph, &mut wanted) != mutant(&graph, &mut lent) || wanted != lent
    };
    let found = |&(name, mutant): &(&'static str, Write)| {
        let place = (0..SEEDS).find(|&seed| {
            let mut prng = Prng::new(seed);
            (0..3).any(|_| {
                let value = graphs::damaged_value(&mut prng);
                let length = graphs::file(&value).len();
                let room = prng.one_of(&[0, length - 1, length, length + 5]);
                differs(&value, room, mutant)
            })
        });
        (name, place)
    };
    all_found(WRITES.iter().map(found).collect());
}

/// The judge's opening, and then another set in the marking that was filled.
fn opened_with(file: &[u8], lent: &mut [u8], set: fn(&Graph) -> Set) -> u64 {
    let given = (JUDGE.opening)(file, lent);
    if let (0, Ok(graph)) = (given, graph_file::read(file)) {
        put_set(&graph, lent, &set(&graph));
    }
    given
}

const OPENINGS: [(&str, door::Fill); 6] = [
    ("the opening set of a file is left empty", |f, lent| {
        opened_with(f, lent, |_| Set::new())
    }),
    ("all that is included is open", |f, lent| {
        opened_with(f, lent, |graph| graph.marking.included.clone())
    }),
    ("all events are open", |f, lent| {
        opened_with(f, lent, |graph| graph.events.clone())
    }),
    ("room for three sets is enough", |f, lent| {
        let form = Form::in_file(f);
        let mut whole = vec![0; form.marking()];
        if (JUDGE.opening)(f, lent) != 7 || lent.len() < 3 * form.set {
            return (JUDGE.opening)(f, lent);
        }
        let given = (JUDGE.opening)(f, &mut whole);
        let length = lent.len();
        lent.copy_from_slice(&whole[..length]);
        given
    }),
    ("7 before the file", |f, lent| {
        if lent.len() < Form::in_file(f).marking() {
            return 7;
        }
        (JUDGE.opening)(f, lent)
    }),
    ("the rest is cleared", |f, lent| {
        let given = (JUDGE.opening)(f, lent);
        if given == 0 {
            lent[Form::in_file(f).marking()..].fill(0);
        }
        given
    }),
];

#[test]
fn wrong_openings() {
    let found = |&(name, mutant): &(&'static str, door::Fill)| {
        let place = (0..SEEDS).find(|&seed| {
            let mut prng = Prng::new(seed);
            let sound = graphs::file(&graphs::value(&mut prng));
            let cut = sound[..sound.len() - 1].to_vec();
            [sound, cut].iter().any(|file| {
                let form = Form::in_file(file);
                let other = prng.one_of(&graphs::other_lengths(form));
                let room = prng.one_of(&[form.marking(), other]);
                let (mut wanted, mut lent) = (vec![165; room], vec![165; room]);
                let differs = (JUDGE.opening)(file, &mut wanted) != mutant(file, &mut lent);
                differs || wanted != lent
            })
        });
        (name, place)
    };
    all_found(OPENINGS.iter().map(found).collect());
}

/// A graph file, a marking: the number of a way out.
type WayOut = fn(&[u8], &[u8]) -> u64;

fn way_out(file: &[u8], marking: &[u8]) -> u64 {
    (JUDGE.finish)(file, marking, &mut [0; 4])
}

/// What would be said if the set were true.
fn believed(file: &[u8], marking: &[u8]) -> u64 {
    let graph = graph_file::read(file).expect("a sound file");
    let mut other = marking.to_vec();
    let set = enabled_events(&graph, &read_marking(&graph, marking));
    put_set(&graph, &mut other, &set);
    way_out(file, &other)
}

const WAYS: [(&str, WayOut); 4] = [
    ("a way out believes the set", |f, m| match way_out(f, m) {
        16 => believed(f, m),
        given => given,
    }),
    ("17 before 16", |f, m| match way_out(f, m) {
        16 if believed(f, m) == 17 => 17,
        given => given,
    }),
    ("a call that may end is not judged", |f, m| {
        let marking = graph_file::read_marking(m, Form::in_file(f).set);
        match way_out(f, m) {
            16 if marking.pending.is_disjoint(&marking.included) => 0,
            given => given,
        }
    }),
    ("16 before 5", |f, m| match way_out(f, m) {
        5 if believed(f, m) == 5 => {
            let graph = graph_file::read(f).expect("a sound file");
            let differs = |(set, wanted)| if set != wanted { 16 } else { 5 };
            sets(&graph, m).map_or(5, differs)
        }
        given => given,
    }),
];

#[test]
fn wrong_ways_out() {
    let found = |&(name, mutant): &(&'static str, WayOut)| {
        let place = (0..SEEDS).find(|&seed| {
            let mut prng = Prng::new(seed);
            (0..20).any(|_| {
                let graph = half_done::small(&mut prng);
                let graph = half_done::either_size(&mut prng, graph);
                let marking = graphs::any_marking(&mut prng, &graph);
                let marking = graphs::marking_bytes(&marking, Form::of(graph.a));
                let file = graphs::file(&graph);
                way_out(&file, &marking) != mutant(&file, &marking)
            })
        });
        (name, place)
    };
    all_found(WAYS.iter().map(found).collect());
}
