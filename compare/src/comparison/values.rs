//! What the functions of `port` don't show: graphs as values, markings after a replay, the log
//! reader, mining without step 6. Judge and yardstick only.
use super::{decimal, Comparison};
use crate::judge::graph::{graph_of, graph_value, marking_of, marking_value};
use crate::value::{Answer, GraphValue, MarkingValue, Replayed};
use crate::{judge, yardstick};
use std::fmt::Debug;

fn number<T, E: Copy + Into<Answer>>(outcome: &Result<T, E>) -> u8 {
    let refusal = outcome.as_ref().err().copied();
    refusal.map_or(0, |refusal| refusal.into().number)
}

impl Comparison {
    fn same<T: PartialEq + Debug>(
        &mut self,
        function: &'static str,
        wanted: &T,
        got: &T,
        input: impl FnOnce() -> String,
    ) {
        if wanted != got {
            self.differ(function, "yardstick", || {
                format!("input {}\njudge {wanted:?}\nother {got:?}", input())
            });
        }
    }

    /// Mining as a value, without step 6; the doors show mining with it.
    pub fn value_read(&mut self, file: &[u8]) {
        let wanted = judge::graph_file::read(file).map(|graph| graph_value(&graph));
        let got = yardstick::value::read(file);
        self.saw("value read", number(&wanted));
        self.same("value read", &wanted, &got, || decimal(file));
    }

    pub fn value_write(&mut self, graph: &GraphValue, room: usize) {
        let (mut lent, mut theirs) = (vec![90; room], vec![90; room]);
        let outcome = judge::graph_file::write(&graph_of(graph), &mut lent);
        let got = yardstick::value::write(graph, &mut theirs);
        self.saw("value write", number(&outcome));
        self.same("value write", &(outcome, lent), &(got, theirs), || {
            format!("{graph:?} {room}")
        });
    }

    pub fn value_step(&mut self, graph: &GraphValue, marking: &MarkingValue, e: u8) {
        let input = || format!("{graph:?}\n{marking:?}\n{e}");
        let sets = graph_of(graph);
        let mut after = marking_of(marking);
        let enabled = judge::engine::enabled(&sets, &after, e);
        self.saw("value enabled", number(&enabled));
        self.same(
            "value enabled",
            &enabled,
            &yardstick::engine::enabled(graph, marking, e),
            input,
        );
        let accepting = judge::engine::accepting(&sets, &after);
        self.saw("value accepting", number(&accepting));
        let got = yardstick::engine::accepting(graph, marking);
        self.same("value accepting", &accepting, &got, input);
        let outcome = judge::engine::execute(&sets, &mut after, e);
        self.saw("value execute", number(&outcome));
        let mut lent = *marking;
        let got = yardstick::engine::execute(graph, &mut lent, e);
        let wanted = (outcome, marking_value(&after));
        self.same("value execute", &wanted, &(got, lent), input);
    }

    pub fn value_replay(&mut self, graph: &GraphValue, trace: &[u8]) {
        let done = judge::engine::replay(&graph_of(graph), trace);
        let wanted = Replayed {
            answer: done.answer,
            place: done.place,
            marking: marking_value(&done.marking),
            accepting: done.accepting,
        };
        self.saw("value replay", wanted.answer.number);
        let got = yardstick::engine::replay(graph, trace);
        self.same("value replay", &wanted, &got, || {
            format!("{graph:?}\n{}", decimal(trace))
        });
    }

    /// Requests to one reader: a number asks for that trace, none for the next.
    pub fn reader(&mut self, log: &[u8], next: usize, requests: &[Option<usize>]) {
        let mut wanted = judge::log::LogReader { bytes: log, next };
        let mut got = yardstick::log::LogReader { bytes: log, next };
        for request in requests {
            let (trace, theirs) = match *request {
                Some(k) => (wanted.trace(k), got.trace(k)),
                None => (wanted.next_trace(), got.next_trace()),
            };
            self.saw("reader", number(&trace));
            let outcome = (trace, wanted.next);
            let other = (theirs.map(<[u8]>::to_vec), got.next);
            self.same("reader", &outcome, &other, || {
                format!("{} {requests:?}", decimal(log))
            });
        }
    }
}
