//! The judge behind the functions of `port`.
use super::engine::{accepting, execute, judge_graph, replay as replay_graph};
use super::graph::{Graph, Marking};
use super::graph_file::{self, read_marking, set_bytes};
use super::listing::listing as list;
use super::miner::{mine as mine_log, Profile};
use super::{desk, finish, log, marks, months, plain, summary, Pairs, Relations, Set};
use crate::door::{filled, finished, marked, marks_put, opened, replayed, shut, stepped};
use crate::door::{verdict, written, Door, Form, PLACES, RELATIONS_ROOM, TALLY_ROOM};
use crate::value::{Answer, PlainGraph};

pub const DOOR: Door = Door {
    name: "judge",
    mine,
    listing,
    summary: summarize,
    replay,
    rewrite,
    opening,
    step,
    finish: finish_on_file,
    shut_by,
    marks: |file, log, labels| {
        let table = marks_of(file, log, labels);
        marked(table.map(|t| [t.tp, t.fp, t.fn_, t.tn]))
    },
    marks_text: |file, log, labels, out| put_marks(marks_of(file, log, labels), out),
    guesses_text: |guesses, labels, out| put_marks(marks::of_guesses(guesses, labels), out),
    replays,
    plain_step,
    plain_accepting,
    plain_replay,
    fill,
    desk_open,
    desk_step,
    desk_close,
    desk_finish,
    tally,
    tally_join,
    tally_relations,
};

/// A profile that there is not is refused before the log is read.
fn mine(bytes: &[u8], profile: u8, file: &mut [u8]) -> u64 {
    let profile = match Profile::numbered(profile) {
        Err(number) => return filled(number, 0),
        Ok(profile) => profile,
    };
    let read = log::read(bytes);
    written(read.and_then(|log| graph_file::write(&mine_log(&log, profile), file)))
}

fn summarize(bytes: &[u8], profile: u8, out: &mut [u8]) -> u64 {
    let log = match Profile::numbered(profile).and_then(|p| Ok((p, log::read(bytes)?))) {
        Err(number) => return filled(number, 0),
        Ok(log) => log,
    };
    let form = Form::of(log.1.a);
    if out.len() < form.summary() {
        return 7;
    }
    let graph = mine_log(&log.1, log.0);
    for a in 0..form.activities() {
        let counts = summary::counts(&graph, a as u8);
        out[a] = counts.conditions;
        out[form.activities() + a] = counts.excludes;
    }
    0
}

/// 12, then 7 where the room is less than a listing of this edition may need, then the log's.
fn listing(bytes: &[u8], profile: u8, out: &mut [u8]) -> u64 {
    let profile = match Profile::numbered(profile) {
        Err(number) => return filled(number, 0),
        Ok(profile) => profile,
    };
    if out.len() < Form::in_file(bytes).listing() {
        return filled(7, 0);
    }
    let listed = list(bytes, profile);
    let text = listed.text.as_bytes();
    out[..text.len()].copy_from_slice(text);
    filled(listed.number, text.len())
}

fn replay(file: &[u8], trace: &[u8]) -> u64 {
    replay_on(graph_file::read(file), trace)
}

fn rewrite(file: &[u8], out: &mut [u8]) -> u64 {
    written(graph_file::read(file).and_then(|graph| graph_file::write(&graph, out)))
}

/// The file's refusals, 7 for what is too short; else the graph's opening marking with its set.
fn opening(file: &[u8], lent: &mut [u8]) -> u64 {
    let graph = match graph_file::read(file) {
        Err(number) => return filled(number, 0),
        Ok(graph) => graph,
    };
    let form = Form::of(graph.a);
    if lent.len() < form.marking() {
        return 7;
    }
    write_marking(&graph.marking, form, lent);
    0
}

fn step(file: &[u8], lent: &mut [u8], activity: u8) -> u64 {
    stepped(step_on(graph_file::read(file), lent, activity))
}

/// The graph's refusals, 7 for what is too short, then the marking's, then 17.
fn finish_on_file(file: &[u8], marking: &[u8], lent: &mut [u8]) -> u64 {
    let way = graph_file::read(file).and_then(|graph| {
        let marking = lent_marking(&graph, marking)?;
        finish::finish_within(&graph, &marking, lent.len())
    });
    finished(way, lent)
}

fn shut_by(file: &[u8], trace: &[u8], a: u8) -> u64 {
    shut(graph_file::read(file).map(|graph| finish::shut_by(&graph, trace, a)))
}

/// "Refusals, after those of log and graph"
fn marks_of(file: &[u8], log: &[u8], labels: &[u8]) -> Result<marks::Table, u8> {
    let log = log::read(log)?;
    let graph = graph_file::read(file)?;
    marks::of_graph(&graph, &log, labels)
}

fn put_marks(marks: Result<marks::Table, u8>, out: &mut [u8]) -> u64 {
    marks_put(&marks::text(marks), marks.err().unwrap_or(0), out)
}

/// The log's refusals, the file's, then 7.
fn replays(file: &[u8], log: &[u8], out: &mut [u8]) -> u64 {
    written(log::read(log).and_then(|log| {
        let graph = graph_file::read(file)?;
        if out.len() < log.traces.len() {
            return Err(7);
        }
        for (k, trace) in log.traces.iter().enumerate() {
            out[k] = match marks::verdict(&graph, trace) {
                true => 128,
                false => replay_graph(&graph, trace).answer.number,
            };
        }
        Ok(log.traces.len())
    }))
}

fn plain_step(graph: &PlainGraph, lent: &mut [u8], activity: u8) -> u64 {
    stepped(step_on(plain::read(graph, 0), lent, activity))
}

fn plain_accepting(graph: &PlainGraph, marking: &[u8]) -> u64 {
    verdict(plain::read(graph, 0).and_then(|graph| {
        let marking = lent_marking(&graph, marking)?;
        accepting(&graph, &marking)
    }))
}

fn plain_replay(graph: &PlainGraph, trace: &[u8]) -> u64 {
    replay_on(plain::read(graph, trace.len()), trace)
}

fn fill(file: &[u8], kind: u8, memory: &mut [u16]) -> u64 {
    written(graph_file::read(file).and_then(|graph| {
        let pairs = plain::relation(&graph.relations, kind);
        plain::fill(&pairs, memory)
    }))
}

/// On the graph of a file or of lists, or with its refusal.
fn replay_on(graph: Result<Graph, u8>, trace: &[u8]) -> u64 {
    match graph {
        Err(number) => replayed(number, 0, false),
        Ok(graph) => {
            let done = replay_graph(&graph, trace);
            replayed(done.answer, done.place, done.accepting)
        }
    }
}

/// A marking of too few bytes gives 7, after all that the graph by itself is refused for.
fn lent_marking(graph: &Graph, lent: &[u8]) -> Result<Marking, u8> {
    let form = Form::of(graph.a);
    if lent.len() < form.marking() {
        judge_graph(graph)?;
        return Err(7);
    }
    Ok(read_marking(lent, form.set))
}

/// The graph's refusals come before those of what was lent.
fn step_on(graph: Result<Graph, u8>, lent: &mut [u8], activity: u8) -> Result<(), Answer> {
    let graph = graph?;
    let mut marking = lent_marking(&graph, lent)?;
    execute(&graph, &mut marking, activity)?;
    write_marking(&marking, Form::of(graph.a), lent);
    Ok(())
}

fn write_marking(marking: &Marking, form: Form, lent: &mut [u8]) {
    let m = marking;
    let sets = [&m.executed, &m.pending, &m.included, &m.enabled];
    let bytes = sets.map(|set| set_bytes(set, form.set)).concat();
    lent[..form.marking()].copy_from_slice(&bytes);
}

fn desk_open(file: &[u8], table: &mut [u8]) -> u64 {
    opened(at_desk(file, table, |places| {
        desk::open(&graph_file::read(file), places)
    }))
}

fn desk_step(file: &[u8], table: &mut [u8], place: usize, activity: u8) -> u64 {
    stepped(at_desk(file, table, |places| {
        desk::step(&graph_file::read(file), places, place, activity)
    }))
}

fn desk_close(file: &[u8], table: &mut [u8], place: usize) -> u64 {
    written(at_desk(file, table, |places| {
        desk::close(&graph_file::read(file), places, place).map(|()| 0)
    }))
}

/// The table is asked as it is, and nothing of it is kept.
fn desk_finish(file: &[u8], table: &[u8], place: usize, lent: &mut [u8]) -> u64 {
    let way = at_desk(file, &mut table.to_vec(), |places| {
        desk::finish(&graph_file::read(file), places, place, lent.len())
    });
    finished(way, lent)
}

/// A request to the desk of a table, 7 where that is too short for a file of this edition. Only a place that the
/// request changed is written: a byte that is not 0 where it is open, then its marking.
fn at_desk<T, E: From<u8>>(
    file: &[u8],
    table: &mut [u8],
    request: impl FnOnce(&mut [desk::Place]) -> Result<T, E>,
) -> Result<T, E> {
    let form = Form::in_file(file);
    let at = |place: usize| form.place() * place..form.place() * (place + 1);
    if table.len() < form.table() {
        return Err(7.into());
    }
    let before: Vec<desk::Place> = (0..PLACES)
        .map(|place| {
            let bytes = &table[at(place)];
            (bytes[0] != 0).then(|| read_marking(&bytes[1..], form.set))
        })
        .collect();
    let mut after = before.clone();
    let outcome = request(&mut after)?;
    for place in 0..PLACES {
        if before[place] == after[place] {
            continue;
        }
        let bytes = &mut table[at(place)];
        match &after[place] {
            None => bytes.fill(0),
            Some(marking) => {
                if bytes[0] == 0 {
                    bytes[0] = 1;
                }
                write_marking(marking, form, &mut bytes[1..]);
            }
        }
    }
    Ok(outcome)
}

/// "after the log's own refusals"
fn tally(bytes: &[u8], lent: &mut [u8]) -> u64 {
    written(log::read(bytes).and_then(|log| {
        months::judge(&[lent.len()], || vec![log.a])?;
        lent[..TALLY_ROOM].copy_from_slice(&months::filled(&log));
        Ok(0)
    }))
}

fn tally_join(tally: &mut [u8], other: &[u8]) -> u64 {
    let rooms = [tally.len(), other.len()];
    written(
        months::judge(&rooms, || vec![tally[0], other[0]]).map(|()| {
            let joined = months::joined(tally, other);
            tally[..TALLY_ROOM].copy_from_slice(&joined);
            0
        }),
    )
}

/// 12, the tally's refusals, 7 for the room.
fn tally_relations(tally: &[u8], profile: u8, out: &mut [u8]) -> u64 {
    written(Profile::numbered(profile).and_then(|profile| {
        months::judge(&[tally.len()], || vec![tally[0]])?;
        if out.len() < RELATIONS_ROOM {
            return Err(7);
        }
        let facts = months::facts_in(tally);
        let known = months::relations(&facts, profile);
        let given = relations_bytes(tally[0], &facts.events, &known);
        out[..RELATIONS_ROOM].copy_from_slice(&given);
        Ok(0)
    }))
}

/// A, the events, and of each relation 64 rows: a condition in the row of its target, the others
/// in the row of their source.
pub fn relations_bytes(a: u8, events: &Set, known: &Relations) -> Vec<u8> {
    let mut bytes = vec![a];
    bytes.extend(set_bytes(events, 8));
    let conditions: Pairs = known.conditions.iter().map(|&(s, t)| (t, s)).collect();
    for pairs in [
        &conditions,
        &known.responses,
        &known.includes,
        &known.excludes,
    ] {
        for key in 0..64 {
            let row: Set = (0..64).filter(|&x| pairs.contains(&(key, x))).collect();
            bytes.extend(set_bytes(&row, 8));
        }
    }
    bytes
}
