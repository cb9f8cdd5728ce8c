//! The yardstick behind the functions of `port`: each asks which edition a file has, or which A a log or a head, and takes the
//! words for it.
use super::graph_file::{marking_at, put_marking, read_into, write_judged};
use super::rows::transposed;
use super::word::Word;
use super::{desk, engine, finish as search, listing as lister, log, marks, miner, months, plain};
use crate::door::{filled, finished, marked, marks_put, opened, replayed, shut, stepped, verdict};
use crate::door::{written, Door, Form, FULL, LIGHT, RELATIONS_ROOM, TALLIED, TALLY_ROOM, WAY};
use crate::value::{Answer, GraphOf, MarkingOf, PlainGraph};

/// The function for the words of this form.
macro_rules! by {
    ($form:expr, $($function:ident)::+, $($argument:expr),*) => {
        match $form {
            Form::WIDE => $($function)::+::<u128, 128>($($argument),*),
            _ => $($function)::+::<u64, 64>($($argument),*),
        }
    };
}

pub const DOOR: Door = Door {
    name: "yardstick",
    mine,
    listing,
    summary,
    replay: |file, trace| by!(Form::in_file(file), replay, file, trace),
    rewrite: |file, out| by!(Form::in_file(file), rewrite, file, out),
    opening: |file, lent| by!(Form::in_file(file), opening, file, lent),
    step: |file, lent, e| by!(Form::in_file(file), step, file, lent, e),
    finish: |file, marking, lent| by!(Form::in_file(file), finish, file, marking, lent),
    shut_by: |file, trace, a| by!(Form::in_file(file), shut_by, file, trace, a),
    marks: |file, log, labels| {
        let counts = marks_of(file, log, labels);
        marked(counts.map(|[tn, missed, fp, tp]| [tp, fp, missed, tn]))
    },
    marks_text: |file, log, labels, out| put_marks(marks_of(file, log, labels), out),
    guesses_text: |guesses, labels, out| put_marks(marks::on_guesses(guesses, labels), out),
    replays: |file, log, out| {
        written(log::judge(log).and_then(|log| by!(Form::in_file(file), replays, file, &log, out)))
    },
    plain_step: |graph, lent, e| by!(form_of(graph), plain_step, graph, lent, e),
    plain_accepting: |graph, marking| by!(form_of(graph), plain_accepting, graph, marking),
    plain_replay: |graph, trace| by!(form_of(graph), plain_replay, graph, trace),
    fill: |file, kind, memory| by!(Form::in_file(file), fill, file, kind, memory),
    desk_open: |file, table| opened(by!(Form::in_file(file), desk::open, file, table)),
    desk_step: |file, table, place, e| {
        stepped(by!(Form::in_file(file), desk::step, file, table, place, e))
    },
    desk_close: |file, table, place| {
        let done = by!(Form::in_file(file), desk::close, file, table, place);
        written(done.map(|()| 0))
    },
    desk_finish: |file, table, place, lent| {
        let form = Form::in_file(file);
        finished(
            by!(form, desk::finish, file, table, place, lent.len()),
            lent,
        )
    },
    tally,
    tally_join,
    tally_relations,
};

fn form_of(graph: &PlainGraph) -> Form {
    Form::of(graph.head.first().copied().unwrap_or(0))
}

fn mine(bytes: &[u8], profile: u8, file: &mut [u8]) -> u64 {
    if profile > LIGHT {
        return 12;
    }
    written(
        log::judge(bytes).and_then(|log| by!(Form::of(log.a), write_mined, &log, profile, file)),
    )
}

#[inline(always)]
fn write_mined<W: Word, const N: usize>(
    log: &log::Log,
    profile: u8,
    file: &mut [u8],
) -> Result<usize, u8> {
    write_judged(&miner::mine_in::<W, N>(log, profile), file)
}

fn listing(bytes: &[u8], profile: u8, out: &mut [u8]) -> u64 {
    if profile > LIGHT {
        return 12;
    }
    if out.len() < Form::in_file(bytes).listing() {
        return 7;
    }
    let (number, length) = lister::listing(bytes, profile, out);
    filled(number, length)
}

fn summary(bytes: &[u8], profile: u8, out: &mut [u8]) -> u64 {
    if profile > LIGHT {
        return 12;
    }
    let log = match log::judge(bytes) {
        Err(number) => return u64::from(number),
        Ok(log) => log,
    };
    if out.len() < Form::of(log.a).summary() {
        return 7;
    }
    by!(Form::of(log.a), summarized, &log, profile, out);
    0
}

fn summarized<W: Word, const N: usize>(log: &log::Log, profile: u8, out: &mut [u8]) {
    let graph = miner::mine_in::<W, N>(log, profile);
    let conditions = transposed(&graph.conditions);
    for a in 0..N {
        let others = !(W::ONE << a);
        out[a] = (conditions[a] & others).count() as u8;
        out[N + a] = (graph.excludes[a] & others).count() as u8;
    }
}

fn replay<W: Word, const N: usize>(file: &[u8], trace: &[u8]) -> u64 {
    let mut graph = GraphOf::<W, N>::empty();
    if let Err(number) = read_into(file, &mut graph) {
        return replayed(number, 0, false);
    }
    if trace.len() > 512 {
        return replayed(3, 0, false);
    }
    let done = engine::replay_judged(&graph, trace);
    replayed(done.answer, done.place, done.accepting)
}

fn rewrite<W: Word, const N: usize>(file: &[u8], out: &mut [u8]) -> u64 {
    let mut graph = GraphOf::<W, N>::empty();
    written(read_into(file, &mut graph).and_then(|()| write_judged(&graph, out)))
}

fn opening<W: Word, const N: usize>(file: &[u8], lent: &mut [u8]) -> u64 {
    let mut graph = GraphOf::<W, N>::empty();
    if let Err(number) = read_into(file, &mut graph) {
        return u64::from(number);
    }
    if lent.len() < W::FORM.marking() {
        return 7;
    }
    put_marking(lent, 0, &engine::kept(&graph, graph.marking));
    0
}

fn step<W: Word, const N: usize>(file: &[u8], lent: &mut [u8], activity: u8) -> u64 {
    let mut graph = GraphOf::<W, N>::empty();
    let m = read_into(file, &mut graph).and_then(|()| lent_marking(&graph, lent));
    stepped(step_judged(&graph, m, lent, activity))
}

/// The lent marking where it is whole, within the events and true.
fn lent_marking<W: Word, const N: usize>(
    graph: &GraphOf<W, N>,
    lent: &[u8],
) -> Result<MarkingOf<W>, u8> {
    if lent.len() < W::FORM.marking() {
        return Err(7);
    }
    let m = marking_at(lent, 0);
    engine::within(graph, &m)?;
    engine::judge_truth(graph, &m)?;
    Ok(m)
}

/// The same beside a graph that was handed over: its own 16 stands before all but the marking's 5.
fn plain_marking<W: Word, const N: usize>(
    graph: &GraphOf<W, N>,
    lent: &[u8],
) -> Result<MarkingOf<W>, u8> {
    if lent.len() >= W::FORM.marking() {
        engine::within(graph, &marking_at(lent, 0))?;
    }
    engine::judge_truth(graph, &graph.marking)?;
    lent_marking(graph, lent)
}

fn finish<W: Word, const N: usize>(file: &[u8], marking: &[u8], lent: &mut [u8]) -> u64 {
    let mut graph = GraphOf::<W, N>::empty();
    let way = read_into(file, &mut graph).and_then(|()| {
        if lent.len() < WAY {
            return Err(7);
        }
        search::finish(&graph, &lent_marking(&graph, marking)?)
    });
    finished(way, lent)
}

fn shut_by<W: Word, const N: usize>(file: &[u8], trace: &[u8], a: u8) -> u64 {
    let mut graph = GraphOf::<W, N>::empty();
    shut(read_into(file, &mut graph).map(|()| search::shut_by(&graph, trace, a)))
}

fn marks_of(file: &[u8], log: &[u8], labels: &[u8]) -> Result<marks::Counts, u8> {
    let log = log::judge(log)?;
    by!(Form::in_file(file), marks_on, file, &log, labels)
}

/// A log of either edition: an event that the words of the graph have no room for is none of its own.
fn marks_on<W: Word, const N: usize>(
    file: &[u8],
    log: &log::Log,
    labels: &[u8],
) -> Result<marks::Counts, u8> {
    let mut graph = GraphOf::<W, N>::empty();
    read_into(file, &mut graph)?;
    marks::on_graph(&graph, log, labels)
}

fn put_marks(counts: Result<marks::Counts, u8>, out: &mut [u8]) -> u64 {
    marks_put(&marks::text(counts), counts.err().unwrap_or(0), out)
}

fn replays<W: Word, const N: usize>(
    file: &[u8],
    log: &log::Log,
    out: &mut [u8],
) -> Result<usize, u8> {
    let mut graph = GraphOf::<W, N>::empty();
    read_into(file, &mut graph)?;
    marks::replays(&graph, log, out)
}

/// From a marking that was judged, or with its refusal.
fn step_judged<W: Word, const N: usize>(
    graph: &GraphOf<W, N>,
    m: Result<MarkingOf<W>, u8>,
    lent: &mut [u8],
    activity: u8,
) -> Result<(), Answer> {
    put_marking(lent, 0, &engine::step_keeping(graph, m?, activity)?);
    Ok(())
}

fn plain_step<W: Word, const N: usize>(graph: &PlainGraph, lent: &mut [u8], activity: u8) -> u64 {
    match plain::read::<W, N>(graph, 0) {
        Err(number) => stepped(Err(number.into())),
        Ok(graph) => {
            let m = plain_marking(&graph, lent);
            stepped(step_judged(&graph, m, lent, activity))
        }
    }
}

fn plain_accepting<W: Word, const N: usize>(graph: &PlainGraph, marking: &[u8]) -> u64 {
    let read = plain::read::<W, N>(graph, 0);
    let lent = read.and_then(|graph| plain_marking(&graph, marking));
    verdict(lent.map(|m| m.pending & m.included == W::NONE))
}

fn plain_replay<W: Word, const N: usize>(graph: &PlainGraph, trace: &[u8]) -> u64 {
    let read = plain::read::<W, N>(graph, trace.len());
    let judged = read.and_then(|graph| {
        engine::judge_truth(&graph, &graph.marking)?;
        Ok(graph)
    });
    match judged {
        Err(number) => replayed(number, 0, false),
        Ok(graph) => {
            let done = engine::replay_judged(&graph, trace);
            replayed(done.answer, done.place, done.accepting)
        }
    }
}

fn fill<W: Word, const N: usize>(file: &[u8], kind: u8, memory: &mut [u16]) -> u64 {
    let mut graph = GraphOf::<W, N>::empty();
    written(read_into(file, &mut graph).and_then(|()| plain::fill(&graph, kind, memory)))
}

fn tally(bytes: &[u8], lent: &mut [u8]) -> u64 {
    written(log::judge(bytes).and_then(|log| {
        let tally = lent.first_chunk_mut().ok_or(7)?;
        if log.a > TALLIED {
            return Err(3);
        }
        months::fill(&log, tally);
        Ok(0)
    }))
}

/// 3 of either comes after 7 of both.
fn tally_join(tally: &mut [u8], other: &[u8]) -> u64 {
    match (tally.first_chunk_mut(), other.first_chunk()) {
        (Some(tally), Some(other)) if tally[0].max(other[0]) <= TALLIED => {
            months::join(tally, other)
        }
        (Some(_), Some(_)) => return 3,
        _ => return 7,
    }
    0
}

fn tally_relations(tally: &[u8], profile: u8, out: &mut [u8]) -> u64 {
    if profile > LIGHT {
        return 12;
    }
    let Some(tally) = tally.first_chunk::<TALLY_ROOM>() else {
        return 7;
    };
    if tally[0] > TALLIED {
        return 3;
    }
    if out.len() < RELATIONS_ROOM {
        return 7;
    }
    let graph = match profile {
        FULL => months::relations::<true>(tally),
        _ => months::relations::<false>(tally),
    };
    out[0] = graph.a;
    let tables = [
        graph.conditions,
        graph.responses,
        graph.includes,
        graph.excludes,
    ];
    let words = std::iter::once(graph.events).chain(tables.into_iter().flatten());
    for (place, word) in out[1..].chunks_exact_mut(8).zip(words) {
        place.copy_from_slice(&word.to_le_bytes());
    }
    0
}
