//! Which inputs are tried: some sets of logs once, then rounds of seeded ones.
use super::{desk, finish, marks, months, plain_rounds, Comparison};
use crate::door::{Form, FULL, GRAPH_ROOM, LIGHT};
use crate::seeds::{damage, graphs, logs, shapes, Prng};
use crate::{judge, seeds};

/// How many damaged files are made of each sound one.
const DAMAGES: usize = 3;

pub fn once(comparison: &mut Comparison) {
    let mut prng = Prng::new(1);
    for log in logs::exhaustive(6) {
        on_log(comparison, &mut prng, "log: exhaustive", &log);
    }
    for log in logs::telling() {
        on_log(comparison, &mut prng, "log: telling", &log);
    }
    for (number, log) in logs::borders(&mut prng) {
        let judged = judge::log::read(&log).err().unwrap_or(0);
        if judged != number {
            comparison.differ("border", "01", || {
                format!("wanted {number}, judge {judged}")
            });
        }
        on_log(comparison, &mut prng, "log: border", &log);
    }
    for (number, file) in graphs::borders() {
        let judged = judge::graph_file::read(&file).err().unwrap_or(0);
        if judged != number {
            comparison.differ("border", "01", || {
                format!(
                    "wanted {number}, judge {judged}, {:?}",
                    &file[..file.len().min(90)]
                )
            });
        }
        on_graph_file(comparison, &mut prng, "graph: border", &file);
    }
    for (_, shape) in shapes::SHAPES {
        let log = shapes::of_size(shape, 4096, 7);
        on_log(comparison, &mut prng, "log: benchmark shape", &log);
    }
    for seed in 0..20 {
        on_log(
            comparison,
            &mut prng,
            "log: benchmark small",
            &shapes::small(seed),
        );
    }
    plain_rounds::once(comparison, &mut prng);
    desk::once(comparison, &mut prng);
    finish::once(comparison);
    marks::once(comparison);
    months::once(comparison, &mut prng);
}

pub fn round(comparison: &mut Comparison, seed: u64) {
    let mut prng = Prng::new(seed.wrapping_mul(0x1234_5678_9ABC_DEF1));
    for (kind, count, make) in logs::KINDS {
        for _ in 0..count {
            let log = make(&mut prng);
            let log = logs::either_size(&mut prng, log);
            on_log(comparison, &mut prng, kind, &log);
            let damaged = damage::log(&mut prng, &log);
            on_damaged_log(comparison, &mut prng, &damaged);
        }
    }
    for _ in 0..4 {
        on_random_graph(comparison, &mut prng);
    }
    plain_rounds::round(comparison, &mut prng);
    desk::round(comparison, &mut prng);
    finish::round(comparison, &mut prng);
    marks::round(comparison, &mut prng);
    months::round(comparison, &mut prng);
}

fn on_log(comparison: &mut Comparison, prng: &mut Prng, kind: &'static str, log: &[u8]) {
    comparison.input(kind);
    on_profiles(comparison, prng, log);
    on_reader(comparison, prng, log);
    let Some(file) = comparison.mine(log, FULL, GRAPH_ROOM) else {
        return;
    };
    if log.len() < 400 {
        let room = prng.one_of(&[0, 51, 83, file.len() - 1, file.len()]);
        comparison.mine(log, prng.one_of(&[FULL, LIGHT]), room);
    }
    let sound = judge::log::read(log).expect("accepted above");
    for trace in sound.traces.iter().take(4) {
        comparison.replay(&file, trace);
        let changed = graphs::changed_trace(prng, trace, &sound);
        comparison.replay(&file, &changed);
    }
    plain_rounds::on_traces(comparison, prng, &file, &sound.traces);
    on_graph_file(comparison, prng, "graph: mined", &file);
}

fn on_damaged_log(comparison: &mut Comparison, prng: &mut Prng, log: &[u8]) {
    comparison.input("log: damaged");
    comparison.mine(log, FULL, GRAPH_ROOM);
    on_profiles(comparison, prng, log);
    on_reader(comparison, prng, log);
}

/// All that there is of a log in either profile but the full graph, and one call in a profile
/// that there is not, on which the log has no say.
fn on_profiles(comparison: &mut Comparison, prng: &mut Prng, log: &[u8]) {
    let form = Form::in_file(log);
    comparison.listing(log, FULL, form.listing());
    comparison.listing(log, LIGHT, form.listing());
    if prng.percent(4) {
        let short = prng.one_of(&[0, Form::NARROW.listing(), form.listing() - 1]);
        comparison.listing(log, prng.one_of(&[FULL, LIGHT]), short);
    }
    comparison.mine(log, LIGHT, GRAPH_ROOM);
    let whole = form.summary();
    let room = prng.one_of(&[0, 128, whole - 1, whole, whole + 3]);
    comparison.summary(log, FULL, room);
    comparison.summary(log, LIGHT, whole);
    let none = prng.one_of(&[2, 3, 12, 128, 255]);
    match prng.below(3) {
        0 => drop(comparison.mine(log, none, room)),
        1 => comparison.listing(log, none, room),
        _ => comparison.summary(log, none, room),
    }
}

/// The first reader starts where a reader does; another may have been put together by hand.
fn on_reader(comparison: &mut Comparison, prng: &mut Prng, log: &[u8]) {
    let any = [0, 1, 2, 3, 1023, 1024, 65536, usize::MAX];
    let requests: Vec<Option<usize>> = (0..5)
        .map(|_| prng.percent(50).then(|| prng.one_of(&any)))
        .collect();
    let next = if prng.percent(50) {
        0
    } else {
        prng.one_of(&any)
    };
    comparison.reader(log, next, &requests);
}

fn on_graph_file(comparison: &mut Comparison, prng: &mut Prng, kind: &'static str, file: &[u8]) {
    comparison.input(kind);
    comparison.value_read(file);
    comparison.rewrite(file, GRAPH_ROOM);
    let room = prng.one_of(&[0, 51, file.len().saturating_sub(1), file.len()]);
    comparison.rewrite(file, room);
    let graph = graphs::graph_in(file);
    let trace = graphs::trace(prng, &graph);
    comparison.replay(file, &trace);
    let form = Form::in_file(file);
    let other = prng.one_of(&graphs::other_lengths(form));
    comparison.opening(file, prng.one_of(&[form.marking(), other]));
    for _ in 0..2 {
        let marking = graphs::marking_bytes(&graphs::any_marking(prng, &graph), form);
        let activity = graphs::activity(prng, &graph);
        comparison.step(file, &marking, activity);
    }
    // too few bytes for a marking, and more than it needs
    let mut marking = graphs::marking_bytes(&graphs::any_marking(prng, &graph), form);
    marking.resize(other, 0);
    comparison.step(file, &marking, graphs::activity(prng, &graph));
    plain_rounds::on_graph_file(comparison, prng, file, trace);
}

fn on_random_graph(comparison: &mut Comparison, prng: &mut Prng) {
    let value = graphs::value(prng);
    on_graph_value(comparison, prng, "graph value: sound", &value);
    let file = seeds::graphs::file(&value);
    on_graph_file(comparison, prng, "graph: random", &file);
    for _ in 0..DAMAGES {
        let damaged = damage::graph(prng, &file);
        on_graph_file(comparison, prng, "graph: damaged", &damaged);
        let damaged = graphs::damaged_value(prng);
        on_graph_value(comparison, prng, "graph value: damaged", &damaged);
    }
}

fn on_graph_value(
    comparison: &mut Comparison,
    prng: &mut Prng,
    kind: &'static str,
    value: &crate::value::GraphValue,
) {
    comparison.input(kind);
    let length = seeds::graphs::file(value).len();
    let room = prng.one_of(&[0, length - 1, length, length + 5]);
    comparison.value_write(value, room);
    let trace = graphs::trace(prng, value);
    comparison.value_replay(value, &trace);
    for _ in 0..3 {
        let marking = graphs::any_marking(prng, value);
        let activity = graphs::activity(prng, value);
        comparison.value_step(value, &marking, activity);
    }
}
