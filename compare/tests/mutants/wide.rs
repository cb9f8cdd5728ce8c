//! 02, 10/12 read wrongly: editions and lengths as changes to the judge's number, and sets whose upper half is forgotten.
use super::engine::{self, right, Execute};
use super::{all_found, SEEDS};
use compare::door::{filled, Door, Form, FULL, LIGHT, TALLY_ROOM};
use compare::judge::door::DOOR as JUDGE;
use compare::judge::engine::enabled_events;
use compare::judge::facts::{gather, Facts, Table};
use compare::judge::graph::{graph_of, Graph, Marking};
use compare::judge::graph_file::{self, judge_activities};
use compare::judge::log;
use compare::judge::miner::{relations_by, Profile};
use compare::judge::{two_bytes, Pairs, Relations, Set};
use compare::seeds::{damage, desk, graphs, logs, plain, Prng};
use compare::value::{Answer, GraphValue};

type Number = fn(&[u8]) -> u8;

fn log_number(bytes: &[u8]) -> u8 {
    log::read(bytes).err().unwrap_or(0)
}

fn graph_number(bytes: &[u8]) -> u8 {
    graph_file::read(bytes).err().unwrap_or(0)
}

/// The letters and an edition that there is, in a file that is not cut before them.
fn opens(bytes: &[u8], least: usize, letter: u8) -> bool {
    bytes.len() >= least && bytes[..2] == [66, letter] && (1..=2).contains(&bytes[2])
}

/// The edition and A of a file in which the two don't match.
fn mismatched(bytes: &[u8], least: usize, letter: u8) -> Option<(u8, u8)> {
    let there = opens(bytes, least, letter) && judge_activities(bytes[2], bytes[3]).is_err();
    there.then(|| (bytes[2], bytes[3]))
}

/// The file with the edition that its A has.
fn with_its_edition(bytes: &[u8]) -> Vec<u8> {
    let mut other = bytes.to_vec();
    other[2] = graph_file::layout_for(bytes[3]).edition;
    other
}

const LOGS: [(&str, Number); 8] = [
    ("edition not asked with A", |b| match mismatched(b, 6, 76) {
        Some((_, ..=128)) => log_number(&with_its_edition(b)),
        _ => log_number(b),
    }),
    ("edition 1 takes A up to 128", |b| {
        match mismatched(b, 6, 76) {
            Some((1, ..=128)) => log_number(&with_its_edition(b)),
            _ => log_number(b),
        }
    }),
    ("edition 2 takes a small A", |b| {
        match mismatched(b, 6, 76) {
            Some((2, ..=64)) => log_number(&with_its_edition(b)),
            _ => log_number(b),
        }
    }),
    ("edition 2 takes any A", |b| match mismatched(b, 6, 76) {
        Some((2, 129..)) => 0,
        _ => log_number(b),
    }),
    (
        "2 for an edition that doesn't match",
        |b| match mismatched(b, 6, 76) {
            Some((_, ..=128)) => 2,
            _ => log_number(b),
        },
    ),
    ("edition 2 is not known", |b| {
        if opens(b, 6, 76) && b[2] == 2 {
            return 2;
        }
        log_number(b)
    }),
    ("edition 3 is known", |b| match b {
        [66, 76, 3, rest @ ..] if b.len() >= 6 => log_number(&[&[66, 76, 2], rest].concat()),
        _ => log_number(b),
    }),
    ("the edition after the contents", |b| {
        let cut = mismatched(b, 6, 76).is_some_and(|(_, a)| a <= 128);
        match two_bytes(&[b, &[0; 6]].concat(), 4) {
            t @ ..=1024 if cut && b.len() < 6 + 4 * t => 1,
            _ => log_number(b),
        }
    }),
];

#[test]
fn wrong_editions_of_logs() {
    let found = |mutant: Number| {
        (0..SEEDS).find(|&seed| {
            let mut prng = Prng::new(seed);
            logs::KINDS.iter().any(|(_, _, make)| {
                let sound = make(&mut prng);
                let sound = logs::either_size(&mut prng, sound);
                let bytes = damage::log(&mut prng, &sound);
                [sound, bytes].iter().any(|b| log_number(b) != mutant(b))
            })
        })
    };
    let by_borders = |mutant: Number| {
        let all = logs::borders(&mut Prng::new(5));
        let place = all.iter().position(|(_, b)| log_number(b) != mutant(b));
        place.map(|place| place as u64)
    };
    all_found(LOGS.iter().map(|&(name, m)| (name, found(m))).collect());
    all_found(
        LOGS.iter()
            .map(|&(name, m)| (name, by_borders(m)))
            .collect(),
    );
}

/// A whole head of edition 2 cut before its end.
fn cut_within(bytes: &[u8]) -> bool {
    opens(bytes, 52, 71) && bytes[2] == 2 && bytes.len() < 84
}

/// The counts of a file whose contents are there.
fn counts(bytes: &[u8]) -> Option<[usize; 4]> {
    let layout = graph_file::layout_for(bytes.get(3).copied().unwrap_or(0));
    let there = opens(bytes, layout.first_row, 71) && mismatched(bytes, 52, 71).is_none();
    there.then(|| [0, 1, 2, 3].map(|k| two_bytes(bytes, layout.contents + 4 * k + 2)))
}

const GRAPHS: [(&str, Number); 12] = [
    ("edition not asked with A", |b| {
        match mismatched(b, 52, 71) {
            Some((_, ..=128)) if !cut_within(b) => graph_number(&with_its_edition(b)),
            _ => graph_number(b),
        }
    }),
    ("edition 1 takes A up to 128", |b| {
        match mismatched(b, 52, 71) {
            Some((1, ..=128)) => graph_number(&with_its_edition(b)),
            _ => graph_number(b),
        }
    }),
    ("edition 2 takes a small A", |b| {
        match mismatched(b, 52, 71) {
            Some((2, ..=64)) if !cut_within(b) => graph_number(&with_its_edition(b)),
            _ => graph_number(b),
        }
    }),
    (
        "2 for an edition that doesn't match",
        |b| match mismatched(b, 52, 71) {
            Some((_, ..=128)) if !cut_within(b) => 2,
            _ => graph_number(b),
        },
    ),
    ("edition 3 is known", |b| match b {
        [66, 71, 3, rest @ ..] if b.len() >= 52 => graph_number(&[&[66, 71, 2], rest].concat()),
        _ => graph_number(b),
    }),
    ("the second 1 forgotten", |b| {
        if cut_within(b) {
            let mut whole = b.to_vec();
            whole.resize(84, 0);
            return graph_number(&whole);
        }
        graph_number(b)
    }),
    ("the second 1 after 3", |b| match mismatched(b, 52, 71) {
        Some(_) if cut_within(b) => 3,
        _ => graph_number(b),
    }),
    ("the second 1 before 2", |b| {
        if b.len() >= 52 && b.len() < 84 && b[2] == 2 {
            return 1;
        }
        graph_number(b)
    }),
    ("the second 1 for edition 1 too", |b| {
        if opens(b, 52, 71) && b.len() < 84 {
            return 1;
        }
        graph_number(b)
    }),
    // where it comes to the offsets, those of 17 a row are wrong
    ("row length 9 in edition 2", |b| {
        match (graph_number(b), counts(b)) {
            (0 | 6, Some([c, r, i, _])) if b[2] == 2 && c + r + i > 0 => 4,
            (number, _) => number,
        }
    }),
    ("row limit 64 in edition 2", |b| {
        match (graph_number(b), counts(b)) {
            (number @ (0 | 1 | 4 | 6), Some(counts)) if b[2] == 2 => {
                match counts.iter().any(|&count| count > 64) {
                    true => 3,
                    false => number,
                }
            }
            (number, _) => number,
        }
    }),
    ("row limit 128 in edition 1", |b| {
        match (graph_number(b), counts(b)) {
            (3, Some(counts)) if b[2] == 1 && counts.iter().all(|&count| count <= 128) => 4,
            (number, _) => number,
        }
    }),
];

#[test]
fn wrong_editions_of_graph_files() {
    let found = |mutant: Number| {
        (0..SEEDS).find(|&seed| {
            let mut prng = Prng::new(seed);
            let sound = graphs::file(&graphs::value(&mut prng));
            (0..12).any(|_| {
                let bytes = damage::graph(&mut prng, &sound);
                [&sound, &bytes]
                    .iter()
                    .any(|b| graph_number(b) != mutant(b))
            })
        })
    };
    let by_borders = |mutant: Number| {
        let all = graphs::borders();
        let place = all.iter().position(|(_, b)| graph_number(b) != mutant(b));
        place.map(|place| place as u64)
    };
    all_found(GRAPHS.iter().map(|&(name, m)| (name, found(m))).collect());
    all_found(
        GRAPHS
            .iter()
            .map(|&(name, m)| (name, by_borders(m)))
            .collect(),
    );
}

fn low(set: &Set) -> Set {
    set.iter().copied().filter(|&a| a < 64).collect()
}

/// Without the members from 64 on, of the row of each first or of each second.
fn low_pairs(pairs: &Pairs, by_first: bool) -> Pairs {
    let kept = |&&(s, t): &&(u8, u8)| if by_first { t < 64 } else { s < 64 };
    pairs.iter().filter(kept).copied().collect()
}

fn low_table(facts: &Facts, table: &Table, by_first: bool) -> Table {
    let mut kept = Table::below(facts.below);
    for s in 0..facts.below as u8 {
        for t in 0..facts.below as u8 {
            let member = if by_first { t } else { s };
            if member < 64 && table.contains(&(s, t)) {
                kept.insert((s, t));
            }
        }
    }
    kept
}

type Spoil = fn(&mut Facts);

/// Facts whose rows have lost their upper half.
const FACTS: [(&str, Spoil); 9] = [
    ("events", |f| f.events = low(&f.events)),
    ("twice", |f| f.twice = low(&f.twice)),
    ("before", |f| f.before = low_table(f, &f.before, false)),
    ("later", |f| f.later = low_table(f, &f.later, true)),
    ("before the first", |f| {
        f.before_first = low_table(f, &f.before_first, false)
    }),
    ("every earlier", |f| {
        f.lacks_earlier = low_table(f, &f.lacks_earlier, false)
    }),
    ("every later", |f| {
        f.lacks_later = low_table(f, &f.lacks_later, true)
    }),
    ("directly followed", |f| {
        f.directly_followed = low_table(f, &f.directly_followed, true)
    }),
    ("alternately", |f| {
        f.lacks_alternate = low_table(f, &f.lacks_alternate, false)
    }),
];

type Halve = fn(&mut Relations);

/// Relations whose rows have.
const RELATIONS: [(&str, Halve); 4] = [
    ("conditions", |r| {
        r.conditions = low_pairs(&r.conditions, false)
    }),
    ("responses", |r| r.responses = low_pairs(&r.responses, true)),
    ("includes", |r| r.includes = low_pairs(&r.includes, true)),
    ("excludes", |r| r.excludes = low_pairs(&r.excludes, true)),
];

/// Logs of the comparison's rounds, in both profiles.
fn each_log(differs: impl Fn(&log::Log, Profile) -> bool) -> Option<u64> {
    (0..SEEDS).find(|&seed| {
        let mut prng = Prng::new(seed);
        logs::KINDS.iter().any(|(_, _, make)| {
            let bytes = make(&mut prng);
            let bytes = logs::either_size(&mut prng, bytes);
            let sound = log::read(&bytes).expect("sound kinds");
            [Profile::Full, Profile::Light]
                .into_iter()
                .any(|profile| differs(&sound, profile))
        })
    })
}

#[test]
fn the_upper_half_forgotten_in_mining() {
    let by_facts = |spoil: Spoil| {
        each_log(|log, profile| {
            let mut facts = gather(log);
            let right = relations_by(&facts, &profile.steps());
            spoil(&mut facts);
            relations_by(&facts, &profile.steps()) != right
        })
    };
    let by_relation = |halve: Halve| {
        each_log(|log, profile| {
            let right = relations_by(&gather(log), &profile.steps());
            let mut wrong = right.clone();
            halve(&mut wrong);
            wrong != right
        })
    };
    all_found(FACTS.iter().map(|&(name, f)| (name, by_facts(f))).collect());
    all_found(
        RELATIONS
            .iter()
            .map(|&(name, f)| (name, by_relation(f)))
            .collect(),
    );
}

/// A step on a graph that is another in one relation, its set of enabled events worked out on the right one.
fn on_halved(graph: &Graph, m: &Marking, e: u8, halve: Halve) -> Result<Marking, Answer> {
    let mut other = graph.clone();
    halve(&mut other.relations);
    let mut after = right(&other, m, e)?;
    after.enabled = enabled_events(graph, &after);
    Ok(after)
}

/// A step, and then one set of what it gives.
fn then(graph: &Graph, m: &Marking, e: u8, change: fn(&mut Marking)) -> Result<Marking, Answer> {
    let mut after = right(graph, m, e)?;
    change(&mut after);
    Ok(after)
}

const STEPS: [(&str, Execute); 11] = [
    ("responses from 64 on", |g, m, e| {
        on_halved(g, m, e, |r| r.responses = low_pairs(&r.responses, true))
    }),
    ("includes from 64 on", |g, m, e| {
        on_halved(g, m, e, |r| r.includes = low_pairs(&r.includes, true))
    }),
    ("excludes from 64 on", |g, m, e| {
        on_halved(g, m, e, |r| r.excludes = low_pairs(&r.excludes, true))
    }),
    ("conditions from 64 on", |g, m, e| {
        on_halved(g, m, e, |r| r.conditions = low_pairs(&r.conditions, false))
    }),
    ("conditions to 64 and more", |g, m, e| {
        on_halved(g, m, e, |r| r.conditions = low_pairs(&r.conditions, true))
    }),
    ("executed from 64 on", |g, m, e| {
        then(g, m, e, |after| after.executed = low(&after.executed))
    }),
    ("pending from 64 on", |g, m, e| {
        then(g, m, e, |after| after.pending = low(&after.pending))
    }),
    ("included from 64 on", |g, m, e| {
        then(g, m, e, |after| after.included = low(&after.included))
    }),
    ("enabled from 64 on", |g, m, e| {
        then(g, m, e, |after| after.enabled = low(&after.enabled))
    }),
    ("no event from 64 on", |g, m, e| {
        if e >= 64 {
            return Err(8.into());
        }
        right(g, m, e)
    }),
    ("the blocker modulo 64", |g, m, e| {
        right(g, m, e).map_err(|answer| match answer.blocker {
            blocker @ 64..=127 => Answer {
                blocker: blocker - 64,
                ..answer
            },
            _ => answer,
        })
    }),
];

#[test]
fn the_upper_half_forgotten_in_a_step() {
    let both = |&(name, mutant): &(&'static str, Execute)| {
        (
            name,
            engine::found(mutant).and(super::plain::found_step(mutant)),
        )
    };
    all_found(STEPS.iter().map(both).collect());
}

/// Pending and included are looked at below 64 alone.
#[test]
fn the_upper_half_forgotten_in_accepting() {
    let found = (0..SEEDS).find(|&seed| {
        let mut prng = Prng::new(seed);
        let value = graphs::value(&mut prng);
        let graph = plain::of(&value);
        (0..3).any(|_| {
            let bytes = plain::marking(&mut prng, &graph);
            let given = (JUDGE.plain_accepting)(&graph, &bytes);
            if given % 256 != 0 {
                return false;
            }
            let m = plain::marking_at(&bytes, 0, Form::of(value.a));
            let below = u128::from(u64::MAX);
            u64::from(m.pending & m.included & below == 0) << 32 != given
        })
    });
    all_found(vec![("accepting below 64 alone", found)]);
}

/// The judge's file with the upper half of some sets left at 0.
fn halved(file: &mut [u8], sets: impl Iterator<Item = usize>) {
    if Form::in_file(file) == Form::WIDE {
        for at in sets {
            file[at + 8..at + 16].fill(0);
        }
    }
}

#[test]
fn the_upper_half_forgotten_in_writing() {
    let mutants: [(&str, fn(&mut [u8])); 4] = [
        ("of the events", |file| halved(file, [4].into_iter())),
        ("of the marking", |file| {
            halved(file, [20, 36, 52].into_iter())
        }),
        ("of the rows", |file| {
            let rows = (84..file.len()).step_by(17);
            halved(file, rows.map(|at| at + 1));
        }),
        ("keys modulo 64", |file| {
            if Form::in_file(file) == Form::WIDE {
                (84..file.len()).step_by(17).for_each(|at| file[at] %= 64);
            }
        }),
    ];
    let found = |mutant: fn(&mut [u8])| {
        (0..SEEDS).find(|&seed| {
            let value: GraphValue = graphs::value(&mut Prng::new(seed));
            let mut file = vec![0; Form::WIDE.graph()];
            let length = graph_file::write(&graph_of(&value), &mut file).expect("a sound graph");
            let mut other = file[..length].to_vec();
            mutant(&mut other);
            other != file[..length]
        })
    };
    all_found(mutants.iter().map(|&(name, m)| (name, found(m))).collect());
}

/// What is lent, by the wrong form: for each the judge's answer with the room of the other.
#[test]
fn rooms_by_the_wrong_form() {
    type Mutant = fn(&Door, &[u8], &mut [u8]) -> u64;
    let openings: [(&str, Mutant); 2] = [
        ("32 bytes for a marking", |door, file, lent| {
            let given = (door.opening)(file, lent);
            if given == 7 && lent.len() >= 32 {
                return 0;
            }
            given
        }),
        ("64 bytes for a marking of any graph", |door, file, lent| {
            let given = (door.opening)(file, lent);
            if given == 0 && lent.len() < 64 {
                return 7;
            }
            given
        }),
    ];
    let found = |mutant: Mutant| {
        (0..SEEDS).find(|&seed| {
            let mut prng = Prng::new(seed);
            let file = graphs::file(&graphs::value(&mut prng));
            let form = Form::in_file(&file);
            let other = prng.one_of(&graphs::other_lengths(form));
            let room = prng.one_of(&[form.marking(), other]);
            let (mut wanted, mut lent) = (vec![9; room], vec![9; room]);
            (JUDGE.opening)(&file, &mut wanted) != mutant(&JUDGE, &file, &mut lent)
        })
    };
    all_found(openings.iter().map(|&(name, m)| (name, found(m))).collect());
}

/// Opens at tables by another form than the file's edition.
#[test]
fn tables_by_the_wrong_form() {
    let mutants: [(&str, fn(&[u8]) -> Form); 3] = [
        ("1,056 bytes for any desk", |_| Form::NARROW),
        ("2,080 bytes for any desk", |_| Form::WIDE),
        ("by A and not by the edition", |file| {
            Form::of(file.get(3).copied().unwrap_or(0))
        }),
    ];
    let found = |form: fn(&[u8]) -> Form| {
        (0..SEEDS).find(|&seed| {
            let mut prng = Prng::new(seed);
            let (file, graph) = desk::file(&mut prng);
            let table = desk::table(&mut prng, &graph);
            let given = (JUDGE.desk_open)(&file, &mut table.clone());
            let refused = table.len() < form(&file).table();
            refused != (given % 256 == 7)
        })
    };
    all_found(mutants.iter().map(|&(name, m)| (name, found(m))).collect());
}

/// A tally of an accepted log: 65 to 128 activities taken, 3 before 7.
#[test]
fn tallies_of_more_than_64() {
    let mutants: [(&str, fn(u8, usize) -> u64); 3] = [
        ("A 65 accepted by a tally", |a, room| match (a, room) {
            (_, ..TALLY_ROOM) => 7,
            (..=65, _) => 0,
            _ => 3,
        }),
        ("any A accepted by a tally", |_, room| match room {
            ..TALLY_ROOM => 7,
            _ => 0,
        }),
        ("3 before 7", |a, room| match (a, room) {
            (65.., _) => 3,
            (_, ..TALLY_ROOM) => 7,
            _ => 0,
        }),
    ];
    // as `months::once` asks
    let asked = [64, 65, 97, 128].map(|a| [TALLY_ROOM - 1, TALLY_ROOM].map(|room| (a, room)));
    let asked = asked.concat();
    let found = |mutant: fn(u8, usize) -> u64| {
        let place = asked.iter().position(|&(a, room)| {
            let log = compare::seeds::log_file(a, &[vec![a - 1]]);
            (JUDGE.tally)(&log, &mut vec![9; room]) != mutant(a, room)
        });
        place.map(|place| place as u64)
    };
    all_found(mutants.iter().map(|&(name, m)| (name, found(m))).collect());
}

/// A summary whose second half begins at 64, and listings that ask for the other edition's room.
#[test]
fn summaries_and_listings() {
    let summary = each_log(|log, profile| {
        let bytes = compare::seeds::log_file(log.a, &log.traces);
        let number = if profile == Profile::Full {
            FULL
        } else {
            LIGHT
        };
        let form = Form::of(log.a);
        let mut out = vec![9; form.summary()];
        (JUDGE.summary)(&bytes, number, &mut out);
        let mut other = out.clone();
        other.copy_within(form.activities().., 64);
        other != out
    });
    let listing = each_log(|log, _| {
        let bytes = compare::seeds::log_file(log.a, &log.traces);
        let mut out = vec![9; Form::NARROW.listing()];
        let given = (JUDGE.listing)(&bytes, LIGHT, &mut out);
        given == filled(7, 0)
    });
    all_found(vec![
        ("excludes from byte 64 on", summary),
        ("147,506 bytes for any listing", listing),
    ]);
}
