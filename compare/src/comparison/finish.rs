//! The way out of half-done calls, and what shut a step out, asked of each implementation with
//! the same bytes.
use super::record::{Call, Function};
use super::{decimal, Comparison};
use crate::door::{Form, FULL, GRAPH_ROOM, LIGHT, NO_ACTIVITY, WAY};
use crate::judge::door::DOOR as JUDGE;
use crate::seeds::{damage, finish, graphs, logs, Prng};
use crate::value::{GraphValue, MarkingValue};
use crate::yardstick;

const UNTOUCHED: u8 = 165;

/// A marking of a mined graph is left alone where more of its steps are open: the judge would
/// try this many to the fourth.
const MOST_OPEN: usize = 7;

/// How many half-done calls of each kind a round has.
const SMALL: usize = 20;
const CHAINS: usize = 6;

/// By how many steps a way has: seen as inputs, so that each length shows in the report.
const LENGTHS: [&str; 5] = [
    "way out: no step",
    "way out: 1 step",
    "way out: 2 steps",
    "way out: 3 steps",
    "way out: 4 steps",
];

impl Comparison {
    pub fn finish(&mut self, file: &[u8], marking: &[u8], room: usize) {
        let mut way = vec![UNTOUCHED; room];
        let wanted = (JUDGE.finish)(file, marking, &mut way);
        self.saw("finish", wanted as u8);
        if wanted == 0 {
            let steps = way[..WAY].iter().filter(|&&step| step != NO_ACTIVITY);
            self.input(LENGTHS[steps.count()]);
        }
        self.record.keep(&Call {
            function: Function::Finish,
            input: file,
            lists: None,
            beside: marking,
            room,
            place: 0,
            activity: 0,
            result: wanted,
            after: &way,
        });
        for other in self.others.clone() {
            let mut lent = vec![UNTOUCHED; room];
            let result = (other.finish)(file, marking, &mut lent);
            if result != wanted || lent != way {
                self.differ("finish", other.name, || {
                    let (file, from) = (decimal(file), decimal(marking));
                    let (judge, theirs) = (decimal(&way), decimal(&lent));
                    format!(
                        "file {file}\nmarking {from}\nroom {room}\n\
                         judge {wanted}, way {judge}\nother {result}, way {theirs}"
                    )
                });
            }
        }
    }

    pub fn shut_by(&mut self, file: &[u8], trace: &[u8], activity: u8) {
        let wanted = (JUDGE.shut_by)(file, trace, activity);
        self.saw("shut by", wanted as u8);
        self.record.keep(&Call {
            function: Function::ShutBy,
            input: file,
            lists: None,
            beside: trace,
            room: 0,
            place: 0,
            activity,
            result: wanted,
            after: &[],
        });
        for other in self.others.clone() {
            let result = (other.shut_by)(file, trace, activity);
            if result != wanted {
                self.differ("shut by", other.name, || {
                    let (file, trace) = (decimal(file), decimal(trace));
                    format!("file {file}\ntrace {trace}\nactivity {activity}\njudge {wanted}\nother {result}")
                });
            }
        }
    }
}

/// Of so many graphs of two events one is recorded.
const RECORDED: u16 = 2048;

/// Of so many of them one has its events at the border of the two sizes.
const OVER_64: u16 = 16;

/// How many markings such a graph has.
const MARKINGS_OF_TWO: u128 = 64;

/// Every graph of two events, each at all of its markings.
pub fn once(comparison: &mut Comparison) {
    let record = std::mem::take(&mut comparison.record);
    let (kept, others): (Vec<u16>, Vec<u16>) = (0..=u16::MAX).partition(|k| k % RECORDED == 77);
    of_two(comparison, &others);
    comparison.record = record;
    of_two(comparison, &kept);
}

fn of_two(comparison: &mut Comparison, numbers: &[u16]) {
    for &k in numbers {
        comparison.input("half-done: of two events");
        let mut graph = finish::of_two(k);
        if k % OVER_64 == 5 {
            graph = graphs::with_numbers(&graph, 65, &[63, 64]);
        }
        let (file, form) = (graphs::file(&graph), Form::of(graph.a));
        for marking in 0..MARKINGS_OF_TWO {
            let marking = finish::marking_of_two(&graph, marking);
            comparison.finish(&file, &graphs::marking_bytes(&marking, form), WAY);
        }
    }
}

pub fn round(comparison: &mut Comparison, prng: &mut Prng) {
    for _ in 0..SMALL {
        let graph = finish::small(prng);
        let graph = finish::either_size(prng, graph);
        on_graph(comparison, prng, "half-done: small", &graph);
    }
    for _ in 0..CHAINS {
        let graph = finish::chain(prng);
        let graph = finish::either_size(prng, graph);
        on_graph(comparison, prng, "half-done: chain", &graph);
    }
    for make in [logs::adversarial, logs::process_like, logs::few_variants] {
        let log = make(prng);
        let log = logs::either_size(prng, log);
        for profile in [FULL, LIGHT] {
            on_mined(comparison, prng, &log, profile);
        }
    }
}

fn on_graph(comparison: &mut Comparison, prng: &mut Prng, kind: &'static str, graph: &GraphValue) {
    comparison.input(kind);
    let (file, marking) = finish::bytes(graph);
    comparison.finish(&file, &marking, WAY);
    let trace = short_trace(prng, graph);
    comparison.shut_by(&file, &trace, graphs::activity(prng, graph));
    refusals(comparison, prng, &file, graph);
}

/// What is refused: a damaged file, a marking outside or with a false set, too few bytes of either.
fn refusals(comparison: &mut Comparison, prng: &mut Prng, file: &[u8], graph: &GraphValue) {
    let form = Form::of(graph.a);
    let marking = graphs::marking_bytes(&graphs::any_marking(prng, graph), form);
    let trace = short_trace(prng, graph);
    match prng.below(4) {
        0 => {
            let damaged = damage::graph(prng, file);
            comparison.finish(&damaged, &marking, WAY);
            comparison.shut_by(&damaged, &trace, 0);
        }
        1 => comparison.finish(file, &marking, prng.one_of(&[0, 3, 5, 9])),
        2 => {
            let length = prng.one_of(&graphs::other_lengths(form));
            let mut cut = marking.clone();
            cut.resize(length, 7);
            comparison.finish(file, &cut, prng.one_of(&[0, WAY]));
        }
        _ => comparison.finish(file, &marking, WAY),
    }
}

/// Any bytes now and then.
fn short_trace(prng: &mut Prng, graph: &GraphValue) -> Vec<u8> {
    let length = prng.one_of(&[0, 1, 2, 3, 5, 8, 20]);
    (0..length).map(|_| graphs::activity(prng, graph)).collect()
}

/// The graph of a log where its own calls are half-done, and where they go astray.
fn on_mined(comparison: &mut Comparison, prng: &mut Prng, log: &[u8], profile: u8) {
    let mut file = vec![0; GRAPH_ROOM];
    let mined = (yardstick::door::DOOR.mine)(log, profile, &mut file);
    file.truncate((mined / 256) as usize);
    let (Ok(graph), Ok(sound)) = (yardstick::value::read(&file), crate::judge::log::read(log))
    else {
        return;
    };
    for trace in sound.traces.iter().take(4) {
        let half = &trace[..prng.within(0, trace.len())];
        let half = graphs::changed_trace(prng, half, &graph);
        let marking = yardstick::engine::replay(&graph, &half).marking;
        comparison.shut_by(&file, &half, graphs::activity(prng, &graph));
        if open(&graph, &marking) <= MOST_OPEN {
            comparison.input("half-done: mined");
            let form = Form::of(graph.a);
            comparison.finish(&file, &graphs::marking_bytes(&marking, form), WAY);
        }
    }
}

fn open(graph: &GraphValue, m: &MarkingValue) -> usize {
    (0..128)
        .filter(|&e| yardstick::engine::step(graph, *m, e).is_ok())
        .count()
}
