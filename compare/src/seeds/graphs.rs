//! Graphs as values and as files, markings, traces: sound ones and others.
use super::{logs, Prng};
use crate::door::Form;
use crate::judge::log::Log;
use crate::value::{GraphValue, MarkingValue, Rows};
use crate::yardstick::engine::kept;
use crate::yardstick::value as values;
use crate::yardstick::word::{below, Word};

/// A graph that 01 accepts, of any size, dense or nearly without pairs. Of those of more than 64 activities (02, 10/12) most are
/// small ones with other numbers: the judge takes its time over many pairs.
pub fn value(prng: &mut Prng) -> GraphValue {
    let a = prng.one_of(&[0, 1, 2, 3, 4, 5, 8, 20, 63, 64, 64]);
    if prng.percent(25) {
        let small = value_of_size(prng, a.min(20));
        return spread(prng, &small);
    }
    if prng.percent(2) {
        let a = prng.one_of(&[65, 97, 128]);
        return value_of_size(prng, a);
    }
    value_of_size(prng, a)
}

pub fn value_of_size(prng: &mut Prng, a: u8) -> GraphValue {
    let share = prng.one_of(&[100, 100, 70, 30]);
    let size = usize::from(a);
    let events = prng.set(share, size);
    let dense = match Form::of(a) {
        Form::WIDE => prng.one_of(&[1, 2, 6]),
        _ => prng.one_of(&[1, 3, 10, 30, 60]),
    };
    let mut graph = GraphValue {
        a,
        events,
        ..GraphValue::EMPTY
    };
    graph.marking = sets(prng, &graph);
    graph.conditions = rows(prng, &graph, dense / 2);
    graph.responses = rows(prng, &graph, dense);
    graph.includes = rows(prng, &graph, dense);
    graph.excludes = rows(prng, &graph, dense);
    graph.marking = kept(&graph, graph.marking);
    graph
}

/// The same graph over other numbers, below 65 to 128.
pub fn spread(prng: &mut Prng, graph: &GraphValue) -> GraphValue {
    let a = prng.one_of(&[65, 66, 97, 97, 127, 128]);
    let numbers = logs::numbers_below(prng, a, usize::from(graph.a));
    with_numbers(graph, a, &numbers)
}

/// Activity e becomes the one that stands at place e of the numbers, of a in all.
pub fn with_numbers(graph: &GraphValue, a: u8, numbers: &[u8]) -> GraphValue {
    let set = |set: u128| {
        let others = numbers.iter().enumerate();
        others.fold(0, |all, (e, other)| all | (set >> e & 1) << other)
    };
    let rows = |rows: &Rows| {
        let mut all = [0; 128];
        for (e, &other) in numbers.iter().enumerate() {
            all[usize::from(other)] = set(rows[e]);
        }
        all
    };
    let m = &graph.marking;
    GraphValue {
        a,
        events: set(graph.events),
        marking: MarkingValue {
            executed: set(m.executed),
            pending: set(m.pending),
            included: set(m.included),
            enabled: set(m.enabled),
        },
        conditions: rows(&graph.conditions),
        responses: rows(&graph.responses),
        includes: rows(&graph.includes),
        excludes: rows(&graph.excludes),
    }
}

/// The graph of a file; where that is refused, its events without a pair.
pub fn graph_in(file: &[u8]) -> GraphValue {
    let Steps { a, events } = steps_in(file);
    values::read(file).unwrap_or(GraphValue {
        a,
        events,
        ..GraphValue::EMPTY
    })
}

/// What a file has for A and events, whatever else is wrong with it.
pub fn steps_in(file: &[u8]) -> Steps {
    let form = Form::in_file(file);
    let head = file.get(3..4 + form.set);
    let there = head.map(|head| Steps {
        a: head[0],
        events: set_at(head, 1, form),
    });
    there.unwrap_or(Steps { a: 0, events: 0 })
}

/// A set in either form.
pub fn set_at(bytes: &[u8], at: usize, form: Form) -> u128 {
    match form {
        Form::WIDE => u128::at(bytes, at),
        _ => u128::from(u64::at(bytes, at)),
    }
}

pub fn set_bytes(set: u128, form: Form) -> Vec<u8> {
    set.to_le_bytes()[..form.set].to_vec()
}

fn rows(prng: &mut Prng, graph: &GraphValue, share: usize) -> Rows {
    let mut rows = [0; 128];
    for (key, row) in rows.iter_mut().enumerate() {
        if graph.events >> key & 1 == 1 {
            *row = prng.set(share, usize::from(graph.a)) & graph.events;
        }
    }
    rows
}

/// Sets within the events, mostly included.
fn sets(prng: &mut Prng, graph: &GraphValue) -> MarkingValue {
    let share = prng.one_of(&[0, 20, 50, 90]);
    let size = usize::from(graph.a).min(128);
    MarkingValue {
        executed: prng.set(share, size) & graph.events,
        pending: prng.set(20, size) & graph.events,
        included: prng.set(85, size) & graph.events,
        enabled: 0,
    }
}

/// A marking within the events, with its set.
pub fn marking(prng: &mut Prng, graph: &GraphValue) -> MarkingValue {
    let sets = sets(prng, graph);
    kept(graph, sets)
}

/// A marking that may leave the events, or have a false set, or both.
pub fn any_marking(prng: &mut Prng, graph: &GraphValue) -> MarkingValue {
    let mut m = marking(prng, graph);
    if prng.percent(20) {
        let stray = 1 << prng.below(Form::of(graph.a).activities());
        match prng.below(3) {
            0 => m.executed |= stray,
            1 => m.pending |= stray,
            _ => m.included |= stray,
        }
    }
    if prng.percent(20) {
        m.enabled = false_set(prng, graph, m.enabled);
    }
    m
}

/// The set one member short, with one event too many, with one outside the events or outside A,
/// all ones, none, or another marking's. Now and then that is the true one.
pub fn false_set(prng: &mut Prng, graph: &GraphValue, set: u128) -> u128 {
    let low: u128 = below(graph.a);
    let all = match Form::of(graph.a) {
        Form::WIDE => u128::MAX,
        _ => u128::from(u64::MAX),
    };
    match prng.below(8) {
        0 | 1 => set & !member(prng, set),
        2 => set | member(prng, graph.events & !set),
        3 => set | member(prng, low & !graph.events),
        4 => set | member(prng, all & !low),
        5 => all,
        6 => 0,
        _ => marking(prng, graph).enabled,
    }
}

/// One of these alone, or none of none.
fn member(prng: &mut Prng, mut of: u128) -> u128 {
    if of == 0 {
        return 0;
    }
    for _ in 0..prng.below(of.count()) {
        of = of.without_least();
    }
    1 << of.least()
}

/// A value with one or two faults; now and then its set is worked out anew, for what it is then.
pub fn damaged_value(prng: &mut Prng) -> GraphValue {
    let mut graph = value(prng);
    for _ in 0..prng.within(1, 2) {
        let near = Form::of(graph.a).activities();
        let stray = 1 << prng.below(near);
        let keys = prng.one_of(&[near, 128]);
        let key = prng.below(keys);
        match prng.below(11) {
            0 => graph.a = prng.one_of(&[64, 65, 66, 128, 129, 255]),
            1 => graph.a = graph.a.saturating_sub(1),
            2 => graph.events ^= stray,
            3 => graph.marking.included |= stray,
            8 => graph.marking.executed ^= stray & graph.events,
            9 | 10 => graph.marking.enabled = false_set(prng, &graph, graph.marking.enabled),
            4 => graph.conditions[key] |= stray,
            5 => graph.responses[key] |= stray,
            6 => graph.includes[key] |= stray,
            _ => graph.excludes[key] |= stray,
        }
    }
    if prng.percent(30) {
        graph.marking = kept(&graph, graph.marking);
    }
    graph
}

/// The file of a value, written without judging it, in the edition for its A.
pub fn file(graph: &GraphValue) -> Vec<u8> {
    let form = Form::of(graph.a);
    let edition = if form == Form::WIDE { 2 } else { 1 };
    let mut bytes = vec![66, 71, edition, graph.a];
    let m = &graph.marking;
    for set in [graph.events, m.executed, m.pending, m.included] {
        bytes.extend(set_bytes(set, form));
    }
    let mut body: Vec<u8> = Vec::new();
    for rows in [
        &graph.conditions,
        &graph.responses,
        &graph.includes,
        &graph.excludes,
    ] {
        let offset = body.len();
        for (key, &row) in rows.iter().enumerate().filter(|(_, &row)| row != 0) {
            body.push(key as u8);
            body.extend(set_bytes(row, form));
        }
        let count = (body.len() - offset) / form.row();
        bytes.extend((offset as u16).to_le_bytes());
        bytes.extend((count as u16).to_le_bytes());
    }
    bytes.extend(body);
    bytes
}

/// At and just past every limit of both editions. The number beside a file is what 01 and 02 say of it.
pub fn borders() -> Vec<(u8, Vec<u8>)> {
    let mut all = Vec::new();
    for edition in [0, 1, 2, 3, 255] {
        for a in [0, 1, 5, 63, 64, 65, 66, 97, 127, 128, 129, 255] {
            for length in [3, 51, 52, 53, 83, 84, 85] {
                let mut bytes = vec![0; length];
                bytes[..3].copy_from_slice(&[66, 71, edition]);
                bytes.get_mut(3..4).into_iter().for_each(|byte| byte[0] = a);
                let mut lettered = bytes.clone();
                lettered[1] = 76;
                all.push((if length < 52 { 1 } else { 2 }, lettered));
                all.push((empty_number(&bytes), bytes));
            }
        }
    }
    for form in [Form::NARROW, Form::WIDE] {
        all.extend(row_borders(form));
    }
    all
}

/// Of a file that has nothing but zeros behind its A: it has no event, no row.
fn empty_number(bytes: &[u8]) -> u8 {
    match (bytes.len(), bytes.get(2), bytes.get(3)) {
        (..=51, _, _) => 1,
        (52, Some(1), Some(..=64)) => 0,
        (_, Some(1), Some(..=64)) => 4,
        (..=83, Some(2), _) => 1,
        (84, Some(2), Some(65..=128)) => 0,
        (_, Some(2), Some(65..=128)) => 4,
        (_, Some(1 | 2), _) => 3,
        _ => 2,
    }
}

/// All events of the greatest A, and as many rows as a relation may have; then one more, which is judged with its entry, and the
/// other edition's number.
fn row_borders(form: Form) -> Vec<(u8, Vec<u8>)> {
    let a = form.activities();
    let every: u128 = below(a as u8);
    let mut graph = GraphValue {
        a: a as u8,
        events: every,
        ..GraphValue::EMPTY
    };
    graph.marking.included = every;
    for rows in [
        &mut graph.conditions,
        &mut graph.responses,
        &mut graph.includes,
        &mut graph.excludes,
    ] {
        rows[..a].fill(1 << (a - 1));
    }
    let whole = file(&graph);
    let contents = 4 + 4 * form.set;
    let counted = |relation: usize, rows: usize| {
        let mut bytes = whole.clone();
        let at = contents + 4 * relation + 2;
        bytes[at..at + 2].copy_from_slice(&(rows as u16).to_le_bytes());
        bytes
    };
    let mut all = vec![(0, whole.clone())];
    for relation in 0..4 {
        all.push((3, counted(relation, a + 1)));
        all.push((3, counted(relation, 129)));
        // one row less: the next entry's offset is wrong, and after the last one there are bytes too many
        all.push((4, counted(relation, a - 1)));
    }
    all.push((4, [whole.clone(), vec![0]].concat()));
    all.push((1, whole[..whole.len() - 1].to_vec()));
    // a key and a member just past the events
    let first = form.first_row();
    let key = first + form.row() * (a - 1);
    let mut beyond = whole.clone();
    beyond[key] = a as u8;
    all.push((5, beyond));
    all
}

pub fn marking_bytes(m: &MarkingValue, form: Form) -> Vec<u8> {
    let sets = [m.executed, m.pending, m.included, m.enabled];
    sets.map(|set| set_bytes(set, form)).concat()
}

/// Lengths of a lent marking: too few bytes, a byte too few, a byte more, many more; and the other form's.
pub fn other_lengths(form: Form) -> [usize; 8] {
    let whole = form.marking();
    [
        0,
        8,
        24,
        32,
        whole - form.set,
        whole - 1,
        whole + 1,
        whole + 16,
    ]
}

/// What activities are taken from: A, and the events, which may be few of them.
#[derive(Clone, Copy)]
pub struct Steps {
    pub a: u8,
    pub events: u128,
}

/// All below a.
impl From<u8> for Steps {
    fn from(a: u8) -> Steps {
        let events = below(a);
        Steps { a, events }
    }
}

impl From<&GraphValue> for Steps {
    fn from(graph: &GraphValue) -> Steps {
        let GraphValue { a, events, .. } = *graph;
        Steps { a, events }
    }
}

impl From<&Log> for Steps {
    fn from(log: &Log) -> Steps {
        let all = log.traces.iter().flatten();
        let events = all.fold(0, |events, e| events | 1 << e);
        Steps { a: log.a, events }
    }
}

/// An activity: mostly an event, else mostly below A, sometimes any byte.
pub fn activity(prng: &mut Prng, of: impl Into<Steps>) -> u8 {
    let Steps { a, events } = of.into();
    if a == 0 || prng.percent(8) {
        return prng.byte();
    }
    if events == 0 || prng.percent(8) {
        return prng.below(usize::from(a)) as u8;
    }
    member(prng, events).least() as u8
}

pub fn trace(prng: &mut Prng, of: impl Into<Steps>) -> Vec<u8> {
    let mut steps = of.into();
    let length = prng.one_of(&[0, 1, 2, 3, 5, 8, 20, 511, 512, 513, 600]);
    let stray = prng.percent(30);
    steps.a = steps.a.max(1);
    (0..length)
        .map(|_| match stray || steps.events == 0 {
            true => activity(prng, steps),
            false => member(prng, steps.events).least() as u8,
        })
        .collect()
}

/// A recorded trace with a small change, so that it goes wrong late.
pub fn changed_trace(prng: &mut Prng, recorded: &[u8], a: impl Into<Steps>) -> Vec<u8> {
    let mut trace = recorded.to_vec();
    let place = prng.within(0, trace.len());
    match prng.below(4) {
        0 => trace.insert(place, activity(prng, a)),
        1 if place < trace.len() => drop(trace.remove(place)),
        2 if place + 1 < trace.len() => trace.swap(place, place + 1),
        _ => trace.truncate(place),
    }
    trace
}
