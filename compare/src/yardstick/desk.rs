//! The call desk on words, straight on the table's bytes.
use super::graph_file::{marking_at, put_marking, read_into};
use super::word::Word;
use super::{engine, finish as search};
use crate::door::{PLACES, WAY};
use crate::value::{Answer, GraphOf, MarkingOf};

pub fn open<W: Word, const N: usize>(file: &[u8], table: &mut [u8]) -> Result<usize, u8> {
    if table.len() < W::FORM.table() {
        return Err(7);
    }
    let mut graph = GraphOf::<W, N>::empty();
    read_into(file, &mut graph)?;
    let size = W::FORM.place();
    let place = (0..PLACES).find(|place| table[size * place] == 0);
    let place = place.ok_or(13)?;
    table[size * place] = 1;
    let opening = engine::kept(&graph, graph.marking);
    put_marking(table, size * place + 1, &opening);
    Ok(place)
}

/// 7, 14, the file's refusals. A graph that was read is sound.
fn read_at<W: Word, const N: usize>(
    file: &[u8],
    table: &[u8],
    place: usize,
    graph: &mut GraphOf<W, N>,
) -> Result<(), u8> {
    if table.len() < W::FORM.table() {
        return Err(7);
    }
    if place >= PLACES || table[W::FORM.place() * place] == 0 {
        return Err(14);
    }
    read_into(file, graph)
}

/// 5 and 16 for the marking there.
fn judged_at<W: Word, const N: usize>(
    table: &[u8],
    place: usize,
    graph: &GraphOf<W, N>,
) -> Result<MarkingOf<W>, u8> {
    let m = marking_at(table, W::FORM.place() * place + 1);
    engine::within(graph, &m)?;
    engine::judge_truth(graph, &m)?;
    Ok(m)
}

pub fn step<W: Word, const N: usize>(
    file: &[u8],
    table: &mut [u8],
    place: usize,
    e: u8,
) -> Result<(), Answer> {
    let mut graph = GraphOf::<W, N>::empty();
    read_at(file, table, place, &mut graph)?;
    let m = judged_at(table, place, &graph)?;
    let after = engine::step_keeping(&graph, m, e)?;
    put_marking(table, W::FORM.place() * place + 1, &after);
    Ok(())
}

pub fn close<W: Word, const N: usize>(
    file: &[u8],
    table: &mut [u8],
    place: usize,
) -> Result<(), u8> {
    let mut graph = GraphOf::<W, N>::empty();
    read_at(file, table, place, &mut graph)?;
    let m = judged_at(table, place, &graph)?;
    if m.pending & m.included != W::NONE {
        return Err(15);
    }
    let size = W::FORM.place();
    table[size * place..size * (place + 1)].fill(0);
    Ok(())
}

pub fn finish<W: Word, const N: usize>(
    file: &[u8],
    table: &[u8],
    place: usize,
    room: usize,
) -> Result<[u8; WAY], u8> {
    let mut graph = GraphOf::<W, N>::empty();
    read_at(file, table, place, &mut graph)?;
    if room < WAY {
        return Err(7);
    }
    search::finish(&graph, &judged_at(table, place, &graph)?)
}
