//! The call desk's inputs: graph files, tables of places, requests. Sound ones and others.
use super::{damage, graphs, Prng};
use crate::door::{Form, PLACES, WAY};
use crate::value::{GraphValue, Request};

/// Places that a caller may name, whatever is open.
pub const ANY_PLACE: [usize; 12] = [0, 1, 15, 30, 31, 32, 33, 64, 255, 256, 65536, usize::MAX];

/// Mostly small graphs: with few activities the steps of a history get far. Every fourth file is
/// damaged. Gives the graph of the sound one too.
pub fn file(prng: &mut Prng) -> (Vec<u8>, GraphValue) {
    let a = prng.one_of(&[0, 1, 2, 3, 3, 4, 4, 5, 5, 8, 8, 20]);
    let a = if prng.percent(3) { 64 } else { a };
    let mut value = graphs::value_of_size(prng, a);
    if prng.percent(30) {
        value = graphs::spread(prng, &value);
    }
    let file = graphs::file(&value);
    if prng.percent(25) {
        return (damage::graph(prng, &file), value);
    }
    (file, value)
}

/// A fresh table, one with few places free or none, one with any markings, any bytes; and now
/// and then one of another length.
pub fn table(prng: &mut Prng, graph: &GraphValue) -> Vec<u8> {
    let form = Form::of(graph.a);
    let mut table = vec![0; form.table()];
    match prng.below(10) {
        0..=2 => {}
        3..=5 => {
            taken(prng, &mut table, graph, 100, 0);
            for _ in 0..prng.below(4) {
                let place = prng.below(PLACES);
                table[form.place() * place..form.place() * (place + 1)].fill(0);
            }
        }
        6..=8 => taken(prng, &mut table, graph, 50, 30),
        _ => table.iter_mut().for_each(|byte| *byte = prng.byte()),
    }
    if prng.percent(8) {
        let (whole, place) = (form.table(), form.place());
        let other = Form::NARROW.table() + Form::WIDE.table() - whole;
        let lengths = [0, 1, place, other, whole - 1, whole + 1, whole + place];
        table.resize(prng.one_of(&lengths), 7);
    }
    table
}

/// About so many of a hundred places are open, and so many of their markings may leave the
/// events or have a false set. A place that is not may have been left with any bytes behind its first.
fn taken(prng: &mut Prng, table: &mut [u8], graph: &GraphValue, open: usize, stray: usize) {
    let form = Form::of(graph.a);
    for place in table.chunks_mut(form.place()) {
        let marking = if prng.percent(stray) {
            graphs::any_marking(prng, graph)
        } else {
            graphs::marking(prng, graph)
        };
        if prng.percent(open) {
            place[0] = prng.one_of(&[1, 1, 1, 2, 128, 255]);
            place[1..].copy_from_slice(&graphs::marking_bytes(&marking, form));
        } else if prng.percent(stray) {
            place[1..].copy_from_slice(&graphs::marking_bytes(&marking, form));
        }
    }
}

/// Mostly a place that is open, for a file of this edition.
pub fn place(prng: &mut Prng, file: &[u8], table: &[u8]) -> usize {
    let size = Form::in_file(file).place();
    let open: Vec<usize> = (0..PLACES)
        .filter(|place| table.get(size * place).is_some_and(|&first| first != 0))
        .collect();
    if open.is_empty() || prng.percent(15) {
        prng.one_of(&ANY_PLACE)
    } else {
        prng.one_of(&open)
    }
}

pub fn request(prng: &mut Prng, file: &[u8], table: &[u8]) -> Request {
    let steps = graphs::steps_in(file);
    let place = place(prng, file, table);
    match prng.below(10) {
        0..=2 => Request::Open,
        3..=6 => Request::Step(place, graphs::activity(prng, steps)),
        _ => Request::Close(place),
    }
}

/// Room for a way out, now and then too little or more than it takes.
pub fn way_room(prng: &mut Prng) -> usize {
    prng.one_of(&[WAY, WAY, WAY, WAY, WAY, WAY, 0, WAY - 1, WAY + 1, 9])
}
