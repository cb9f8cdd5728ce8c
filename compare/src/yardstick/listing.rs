//! The listing, written straight into the lent bytes.
use super::engine::replay_judged;
use super::log::{judge, Log};
use super::miner::mine_in;
use super::rows::{count, transposed, Bits};
use super::word::Word;
use crate::value::GraphOf;

struct Page<'a> {
    lent: &'a mut [u8],
    length: usize,
}

impl Page<'_> {
    fn text(&mut self, text: &[u8]) {
        self.lent[self.length..self.length + text.len()].copy_from_slice(text);
        self.length += text.len();
    }

    fn number(&mut self, number: usize) {
        if number >= 10 {
            self.number(number / 10);
        }
        self.text(&[b'0' + (number % 10) as u8]);
    }

    fn field(&mut self, number: usize) {
        self.text(b" ");
        self.number(number);
    }

    fn pairs<W: Word, const N: usize>(&mut self, name: u8, by_source: &[W; N]) {
        for (source, &row) in by_source.iter().enumerate() {
            for target in Bits(row) {
                self.text(&[name]);
                self.field(source);
                self.field(target);
                self.text(b"\n");
            }
        }
    }
}

/// The log's number and the text's length. The lent bytes must have room for any listing.
pub fn listing(bytes: &[u8], profile: u8, lent: &mut [u8]) -> (u8, usize) {
    let mut page = Page { lent, length: 0 };
    match judge(bytes) {
        Err(number) => {
            page.text(b"refused");
            page.field(usize::from(number));
            page.text(b"\n");
            (number, page.length)
        }
        Ok(log) => {
            match log.a {
                ..=64 => list::<u64, 64>(&log, &mine_in(&log, profile), &mut page),
                _ => list::<u128, 128>(&log, &mine_in(&log, profile), &mut page),
            }
            (0, page.length)
        }
    }
}

fn list<W: Word, const N: usize>(log: &Log, graph: &GraphOf<W, N>, page: &mut Page) {
    let conditions = transposed(&graph.conditions);
    let named = [
        (b'C', &conditions),
        (b'R', &graph.responses),
        (b'I', &graph.includes),
        (b'E', &graph.excludes),
    ];
    page.text(b"events");
    page.field(graph.events.count());
    for (name, rows) in named {
        page.text(&[b' ', name]);
        page.field(count(rows));
    }
    page.text(b" traces");
    page.field(log.count());
    page.text(b"\n");
    for (name, rows) in named {
        page.pairs(name, rows);
    }
    for (k, trace) in log.traces().enumerate() {
        let done = replay_judged(graph, trace);
        page.text(b"T");
        for number in [
            k,
            trace.len(),
            usize::from(done.answer.number),
            usize::from(done.accepting),
        ] {
            page.field(number);
        }
        page.text(b"\n");
    }
}
