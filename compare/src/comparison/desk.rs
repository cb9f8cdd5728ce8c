//! The call desk: histories of requests, each made of every implementation on the same table.
use super::record::{Call, Function};
use super::{decimal, Comparison};
use crate::door::{asked, Form, WAY};
use crate::judge::door::DOOR as JUDGE;
use crate::seeds::{desk, graphs, Prng};
use crate::value::Request;

/// How many histories a round has, and how many requests a history.
const HISTORIES: usize = 2;
const REQUESTS: usize = 40;

/// After so many of a hundred requests a place is asked for its way out, where the graph has few
/// events: the judge tries every sequence of four.
const ASKED: usize = 25;
const MOST_SEARCHED: u32 = 5;

const UNTOUCHED: u8 = 165;

pub fn round(comparison: &mut Comparison, prng: &mut Prng) {
    for _ in 0..HISTORIES {
        let (file, graph) = desk::file(prng);
        let mut table = desk::table(prng, &graph);
        comparison.input("desk: history");
        for _ in 0..REQUESTS {
            let request = desk::request(prng, &file, &table);
            table = comparison.desk(&file, &table, request);
            if graph.events.count_ones() <= MOST_SEARCHED && prng.percent(ASKED) {
                let place = desk::place(prng, &file, &table);
                comparison.desk_finish(&file, &table, place, desk::way_room(prng));
            }
        }
    }
}

/// Every place that a caller may name, on tables of every length near the right one, none and all
/// of their places taken, with a file that is sound, one that is cut and one with the other edition; and all activities.
/// In both forms.
pub fn once(comparison: &mut Comparison, prng: &mut Prng) {
    let narrow = graphs::value_of_size(prng, 5);
    let wide = graphs::spread(prng, &narrow);
    for value in [narrow, wide] {
        let sound = graphs::file(&value);
        let mut other = sound.clone();
        other[2] = 3 - other[2];
        for file in [&sound[..], &sound[..51], &other, &[]] {
            border(comparison, file);
        }
        let fresh = vec![0; Form::of(value.a).table()];
        let opened = comparison.desk(&sound, &fresh, Request::Open);
        for activity in 0..=255 {
            comparison.desk(&sound, &opened, Request::Step(0, activity));
        }
    }
}

fn border(comparison: &mut Comparison, file: &[u8]) {
    for length in [0, 1055, 1056, 1057, 2079, 2080, 2081] {
        for first in [0, 1, 255] {
            let mut table = vec![0; length];
            let firsts = table.iter_mut().step_by(Form::in_file(file).place());
            firsts.for_each(|byte| *byte = first);
            comparison.input("desk: border");
            comparison.desk(file, &table, Request::Open);
            for place in desk::ANY_PLACE {
                comparison.desk(file, &table, Request::Step(place, 0));
                comparison.desk(file, &table, Request::Close(place));
                for room in [0, WAY - 1, WAY, WAY + 1] {
                    comparison.desk_finish(file, &table, place, room);
                }
            }
        }
    }
}

impl Comparison {
    /// The judge's table after the request, once the others were held to it.
    fn desk(&mut self, file: &[u8], table: &[u8], request: Request) -> Vec<u8> {
        let (named, function, place, activity) = match request {
            Request::Open => ("desk open", Function::DeskOpen, 0, 0),
            Request::Step(place, e) => ("desk step", Function::DeskStep, place, e),
            Request::Close(place) => ("desk close", Function::DeskClose, place, 0),
        };
        let mut after = table.to_vec();
        let wanted = asked(&JUDGE, file, &mut after, request);
        self.saw(named, wanted as u8);
        self.record.keep(&Call {
            function,
            input: file,
            lists: None,
            beside: table,
            room: table.len(),
            activity,
            place,
            result: wanted,
            after: &after,
        });
        for other in self.others.clone() {
            let mut lent = table.to_vec();
            let result = asked(&other, file, &mut lent, request);
            if result != wanted || lent != after {
                self.differ(named, other.name, || {
                    let (file, from) = (decimal(file), decimal(table));
                    let (judge, theirs) = (decimal(&after), decimal(&lent));
                    format!(
                        "file {file}\ntable {from}\n{request:?}\n\
                         judge {wanted}, table {judge}\nother {result}, table {theirs}"
                    )
                });
            }
        }
        after
    }

    /// A place asked for its way out: number, way, and that no byte of the table moved.
    fn desk_finish(&mut self, file: &[u8], table: &[u8], place: usize, room: usize) {
        let mut way = vec![UNTOUCHED; room];
        let wanted = (JUDGE.desk_finish)(file, table, place, &mut way);
        self.saw("desk finish", wanted as u8);
        self.record.keep(&Call {
            function: Function::DeskFinish,
            input: file,
            lists: None,
            beside: table,
            room,
            activity: 0,
            place,
            result: wanted,
            after: &way,
        });
        for other in self.others.clone() {
            let (asked, mut lent) = (table.to_vec(), vec![UNTOUCHED; room]);
            let result = (other.desk_finish)(file, &asked, place, &mut lent);
            if result != wanted || lent != way || asked != table {
                self.differ("desk finish", other.name, || {
                    let (file, from) = (decimal(file), decimal(table));
                    let (judge, theirs) = (decimal(&way), decimal(&lent));
                    format!(
                        "file {file}\ntable {from}\nplace {place}, room {room}\n\
                         judge {wanted}, way {judge}\nother {result}, way {theirs}, table {}",
                        decimal(&asked)
                    )
                });
            }
        }
    }
}
