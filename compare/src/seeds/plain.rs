//! Graphs as the plain engine has them: a head, and lists in any order, with pairs listed
//! twice, pairs outside the events, and at and past every limit.
use super::graphs::{self, marking_bytes, set_at, set_bytes};
use super::Prng;
use crate::door::{Form, MOST_PAIRS};
use crate::value::{GraphValue, MarkingValue, PlainGraph, Rows};
use crate::yardstick::engine::{enabled_set, step};

/// The form for the A of a head; of none it is the narrow one.
pub fn form_of(graph: &PlainGraph) -> Form {
    Form::of(graph.head.first().copied().unwrap_or(0))
}

/// The head and the pairs of a value, each pair once, rising.
pub fn of(value: &GraphValue) -> PlainGraph {
    let form = Form::of(value.a);
    let mut head = vec![value.a];
    head.extend(set_bytes(value.events, form));
    head.extend(marking_bytes(&value.marking, form));
    let turn = |pair: u16| pair.rotate_left(8);
    let mut conditions: Vec<u16> = pairs(&value.conditions).into_iter().map(turn).collect();
    conditions.sort_unstable();
    let lists = [
        conditions,
        pairs(&value.responses),
        pairs(&value.includes),
        pairs(&value.excludes),
    ];
    PlainGraph { head, lists }
}

/// Key x 256 + member.
fn pairs(rows: &Rows) -> Vec<u16> {
    let mut list = Vec::new();
    for (key, row) in rows.iter().enumerate() {
        for member in (0..128).filter(|member| row >> member & 1 == 1) {
            list.push((256 * key + member) as u16);
        }
    }
    list
}

/// The same pairs in each list: as they are, shuffled, some or many of them twice, or as many
/// as a list may have.
pub fn reordered(prng: &mut Prng, graph: &mut PlainGraph) {
    for list in &mut graph.lists {
        let more = match prng.below(50) {
            0..=4 => continue,
            5..=19 => 0,
            20..=48 => list.len() * prng.within(1, 3) / 2,
            _ => MOST_PAIRS,
        };
        let length = MOST_PAIRS.min(list.len() + more);
        stretch(prng, list, length);
        prng.shuffle(list);
    }
}

/// Lists pairs again until there are so many. An empty list stays.
fn stretch(prng: &mut Prng, list: &mut Vec<u16>, length: usize) {
    let stood = list.len();
    while stood > 0 && list.len() < length {
        let again = list[prng.below(stood)];
        list.push(again);
    }
}

type Fault = fn(&mut Prng, &mut PlainGraph);

const FAULTS: [Fault; 10] = [
    stray_pair,
    stray_pair,
    too_long,
    head_cut,
    size,
    events,
    opening,
    no_event,
    false_opening,
    false_opening,
];

/// One to three faults, so that their order is tried as well as each of them.
pub fn damage(prng: &mut Prng, graph: &mut PlainGraph) {
    for _ in 0..prng.one_of(&[1, 1, 1, 2, 2, 3]) {
        let fault = prng.one_of(&FAULTS);
        fault(prng, graph);
    }
}

/// One end of a pair, or both, anywhere: 128 and more are no event of any graph.
fn stray_pair(prng: &mut Prng, graph: &mut PlainGraph) {
    let list = &mut graph.lists[prng.below(4)];
    let stood = list.get(prng.below(list.len().max(1))).copied();
    let [target, source] = stood.unwrap_or(0).to_le_bytes();
    let stray = prng.one_of(&[
        64,
        65,
        128,
        192,
        255,
        source ^ 64,
        target ^ 64,
        source ^ 128,
    ]);
    let any = prng.word() as u16;
    let source_stray = u16::from_le_bytes([target, stray]);
    let target_stray = u16::from_le_bytes([stray, source]);
    let pair = prng.one_of(&[source_stray, target_stray, 65535, any]);
    let within = prng.within(0, list.len());
    let place = prng.one_of(&[0, within, list.len()]);
    list.insert(place, pair);
}

/// Just past the limit, or far; the pairs themselves may all be sound.
fn too_long(prng: &mut Prng, graph: &mut PlainGraph) {
    let list = &mut graph.lists[prng.below(4)];
    let length = MOST_PAIRS + prng.one_of(&[1, 1, 1, 2, 900]);
    stretch(prng, list, length);
}

fn head_cut(prng: &mut Prng, graph: &mut PlainGraph) {
    let (form, whole) = (form_of(graph), form_of(graph).head());
    let lengths = [0, 1, 33, 41, whole - 1, whole + 1, whole + form.set];
    graph.head.resize(prng.one_of(&lengths), 165);
}

fn size(prng: &mut Prng, graph: &mut PlainGraph) {
    if let Some(a) = graph.head.first_mut() {
        *a = prng.one_of(&[0, a.saturating_sub(1), 64, 65, 97, 128, 129, 255]);
    }
}

/// Turns a bit of the set at this place of the head.
fn turn(prng: &mut Prng, graph: &mut PlainGraph, at: usize) {
    let size = form_of(graph).set;
    if let Some(byte) = graph.head.get_mut(at + prng.below(size)) {
        *byte ^= 1 << prng.below(8);
    }
}

fn events(prng: &mut Prng, graph: &mut PlainGraph) {
    turn(prng, graph, 1);
}

/// One of the three sets that 5 judges; half of these heads then have the set that is true for it.
fn opening(prng: &mut Prng, graph: &mut PlainGraph) {
    let form = form_of(graph);
    let set = form.head_marking() + form.set * prng.below(3);
    turn(prng, graph, set);
    if prng.percent(50) {
        let set = enabled_at_opening(graph);
        put_enabled(graph, set);
    }
}

/// The fourth.
fn false_opening(prng: &mut Prng, graph: &mut PlainGraph) {
    let value = value_in(graph);
    let set = graphs::false_set(prng, &value, value.marking.enabled);
    put_enabled(graph, set);
}

pub fn put_enabled(graph: &mut PlainGraph, set: u128) {
    let form = form_of(graph);
    if let Some(bytes) = graph.head.get_mut(form.head() - form.set..form.head()) {
        bytes.copy_from_slice(&set_bytes(set, form));
    }
}

fn enabled_at_opening(graph: &PlainGraph) -> u128 {
    let value = value_in(graph);
    enabled_set(&value, &value.marking)
}

/// What a plain graph says, as far as that goes: nothing is judged, a pair that no set can hold
/// is passed over, and of a cut head nothing is taken but the events.
pub fn value_in(graph: &PlainGraph) -> GraphValue {
    let (head, form) = (&graph.head, form_of(graph));
    let events = head.get(1..form.head_marking());
    let mut value = GraphValue {
        a: head.first().copied().unwrap_or(0),
        events: events.map_or(0, |set| set_at(set, 0, form)),
        ..GraphValue::EMPTY
    };
    if head.len() >= form.head() {
        value.marking = marking_at(head, form.head_marking(), form);
    }
    for pair in graph.lists[0].iter().filter(|&pair| pair & 0x8080 == 0) {
        value.conditions[usize::from(pair & 127)] |= 1 << (pair >> 8);
    }
    value
}

/// A marking in either form.
pub fn marking_at(bytes: &[u8], at: usize, form: Form) -> MarkingValue {
    let set = |k: usize| set_at(bytes, at + k * form.set, form);
    MarkingValue {
        executed: set(0),
        pending: set(1),
        included: set(2),
        enabled: set(3),
    }
}

/// The source or the target of a listed pair is no event any more, nor marked: only the list
/// is at fault.
fn no_event(prng: &mut Prng, graph: &mut PlainGraph) {
    let (list, form) = (&graph.lists[prng.below(4)], form_of(graph));
    if list.is_empty() || graph.head.len() < form.head() {
        return;
    }
    let pair = prng.one_of(list);
    let end = prng.one_of(&pair.to_le_bytes());
    for set in (1..form.head()).step_by(form.set) {
        graph.head[set + usize::from(end / 8) % form.set] &= !(1 << (end % 8));
    }
}

/// The bytes of a marking, which may leave the events or have a false set; sometimes too few, or
/// more.
pub fn marking(prng: &mut Prng, graph: &PlainGraph) -> Vec<u8> {
    let form = form_of(graph);
    let mut bytes = marking_bytes(&graphs::any_marking(prng, &value_in(graph)), form);
    if prng.percent(20) {
        bytes.resize(prng.one_of(&graphs::other_lengths(form)), 0);
    }
    bytes
}

/// Relations to fill from, and numbers that are none.
pub const KINDS: [u8; 12] = [0, 1, 2, 3, 0, 1, 2, 3, 4, 5, 128, 255];

/// Room for so many pairs, or one too few, or more.
pub fn room(prng: &mut Prng, pairs: usize) -> usize {
    prng.one_of(&[0, pairs.saturating_sub(1), pairs, pairs + 1, 64])
}

/// A trace that goes on as long as it finds something enabled, at most so far.
pub fn walk(prng: &mut Prng, value: &GraphValue, length: usize) -> Vec<u8> {
    let mut marking = value.marking;
    let mut trace = Vec::new();
    for _ in 0..4 * length {
        let e = graphs::activity(prng, value);
        if let (Ok(after), true) = (step(value, marking, e), trace.len() < length) {
            marking = after;
            trace.push(e);
        }
    }
    trace
}

/// Where a head has its included and its enabled events.
fn included(form: Form) -> usize {
    form.head_marking() + 2 * form.set
}

fn enabled(form: Form) -> usize {
    form.head_marking() + 3 * form.set
}

/// The A of a small graph of either form.
const SIZES: [u8; 2] = [3, 97];

/// The events 0, 1, 2 of so many activities, all included, all enabled; no pair.
fn three(a: u8) -> PlainGraph {
    let value = GraphValue {
        a,
        events: 7,
        marking: MarkingValue {
            included: 7,
            enabled: 7,
            ..MarkingValue::default()
        },
        ..GraphValue::EMPTY
    };
    of(&value)
}

/// At and just past every limit of a graph, in both forms. The number beside it is what 02 says of it.
pub fn borders() -> Vec<(u8, PlainGraph)> {
    let mut all = sizes();
    for a in SIZES {
        all.extend(heads(a));
        all.extend(openings(a));
        for kind in 0..4 {
            all.extend(listed(a, kind));
        }
    }
    all
}

/// Lists of one relation: as long as they may be, and longer; pairs at the border of the events.
fn listed(a: u8, kind: usize) -> Vec<(u8, PlainGraph)> {
    // a condition of 1 or 2 for itself shuts it off
    let with = |list: Vec<u16>| {
        let mut graph = three(a);
        if kind == 0 {
            let first = list[0];
            graph.head[enabled(Form::of(a))] &= !(1 << (first & 3));
        }
        graph.lists[kind] = list;
        graph
    };
    let mut both = with(vec![257; MOST_PAIRS + 1]);
    both.lists[3 - kind] = vec![65535];
    vec![
        (0, with(vec![257; 4097])),
        (0, with(vec![257; MOST_PAIRS - 1])),
        (0, with(vec![257; MOST_PAIRS])),
        (3, with(vec![257; MOST_PAIRS + 1])),
        (3, with(vec![65535; MOST_PAIRS + 1])),
        (5, with(vec![65535; MOST_PAIRS])),
        (5, with([vec![257; MOST_PAIRS - 1], vec![65535]].concat())),
        (3, both),
        (0, with(vec![2 * 256 + 2])),
        (5, with(vec![3 * 256 + 2])),
        (5, with(vec![2 * 256 + 3])),
        (5, with(vec![2 * 256 + 255])),
        (5, with(vec![255 * 256 + 2])),
        (5, with(vec![64 * 256 + 2])),
        (5, with(vec![2 * 256 + 64])),
        (5, with(vec![128 * 256 + 2])),
        (5, with(vec![2 * 256 + 128])),
    ]
}

fn heads(a: u8) -> Vec<(u8, PlainGraph)> {
    let form = Form::of(a);
    let with = |change: &dyn Fn(&mut PlainGraph)| {
        let mut graph = three(a);
        change(&mut graph);
        graph
    };
    let at = included(form);
    vec![
        (7, with(&|graph| graph.head.clear())),
        (
            7,
            with(&|graph| graph.head.truncate(form.head() - form.set)),
        ),
        (7, with(&|graph| graph.head.truncate(form.head() - 1))),
        (
            7,
            with(&|graph| {
                graph.head = vec![255; Form::WIDE.head() - 1];
                graph.lists[0] = vec![65535; MOST_PAIRS + 1];
            }),
        ),
        (0, three(a)),
        (0, with(&|graph| graph.head.push(255))),
        (5, with(&|graph| graph.head[form.head_marking()] = 8)),
        (5, with(&|graph| graph.head[at - 1] = 128)),
        (5, with(&|graph| graph.head[at] = 15)),
        (
            3,
            with(&|graph| {
                graph.head = vec![255; Form::WIDE.head()];
                graph.lists[2] = vec![65535];
            }),
        ),
    ]
}

/// Opening markings with a false set, alone and beside what comes before 16. Some are true again
/// by another pair or mark.
fn openings(a: u8) -> Vec<(u8, PlainGraph)> {
    let form = Form::of(a);
    let at = included(form);
    let with = |set: u128, change: &dyn Fn(&mut PlainGraph)| {
        let mut graph = three(a);
        put_enabled(&mut graph, set);
        change(&mut graph);
        graph
    };
    let nothing: &dyn Fn(&mut PlainGraph) = &|_| ();
    let first_done: &dyn Fn(&mut PlainGraph) = &|graph| {
        (graph.lists[0], graph.head[form.head_marking()]) = (vec![1], 1);
    };
    let two_events: &dyn Fn(&mut PlainGraph) = &|graph| (graph.head[1], graph.head[at]) = (3, 3);
    vec![
        (16, with(6, nothing)),
        (16, with(0, nothing)),
        (16, with(15, nothing)),
        (16, with(7 + (1 << 63), nothing)),
        (16, with(7 + (1 << (form.activities() - 1)), nothing)),
        (16, with(u128::MAX, nothing)),
        // 2 is no event and below A
        (16, with(7, two_events)),
        (0, with(3, two_events)),
        // 2 is shut out
        (16, with(7, &|graph| graph.head[at] = 3)),
        (0, with(3, &|graph| graph.head[at] = 3)),
        // 1 waits for 0, and then 0 was done
        (16, with(7, &|graph| graph.lists[0] = vec![1])),
        (0, with(5, &|graph| graph.lists[0] = vec![1])),
        (16, with(5, first_done)),
        (0, with(7, first_done)),
        (5, with(0, &|graph| graph.head[at] = 15)),
        (5, with(0, &|graph| graph.lists[3] = vec![65535])),
        (
            3,
            with(0, &|graph| graph.lists[3] = vec![0; MOST_PAIRS + 1]),
        ),
        (7, with(0, &|graph| graph.head.truncate(form.head() - 1))),
    ]
}

/// A at every border, with a head of every length near one of the two; all activities; none, and then a pair of none.
fn sizes() -> Vec<(u8, PlainGraph)> {
    let mut all = Vec::new();
    for a in [0, 1, 63, 64, 65, 97, 127, 128, 129, 255] {
        for length in [40, 41, 42, 80, 81, 82] {
            let mut head = vec![0; length];
            head[0] = a;
            let number = match a {
                _ if length < Form::of(a).head() => 7,
                129.. => 3,
                _ => 0,
            };
            let lists = Default::default();
            all.push((number, PlainGraph { head, lists }));
        }
    }
    for form in [Form::NARROW, Form::WIDE] {
        let a = form.activities() as u8;
        let last = u16::from(a - 1);
        let whole = PlainGraph {
            head: [vec![a], vec![255; form.head() - 1]].concat(),
            lists: core::array::from_fn(|_| vec![last * 257, 0, last, last * 256]),
        };
        for kind in 0..4 {
            let mut stray = whole.clone();
            stray.lists[kind].push(u16::from(a));
            all.push((5, stray));
        }
        // one less, and the last is an event not below A
        let mut fewer = whole.clone();
        fewer.head[0] -= 1;
        all.push((5, fewer));
        all.push((0, whole));
    }
    let mut stray = PlainGraph {
        head: vec![0; Form::NARROW.head()],
        ..PlainGraph::default()
    };
    stray.lists[0] = vec![0];
    all.push((5, stray));
    all
}
