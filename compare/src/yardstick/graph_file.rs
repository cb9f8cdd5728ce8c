//! Reading and writing graph files.
use super::engine::kept;
use super::word::{below, bit, index, Word};
use crate::value::{GraphOf, MarkingOf};

/// The three sets that a file has.
#[inline(always)]
fn stored_at<W: Word>(bytes: &[u8], at: usize) -> MarkingOf<W> {
    let set = |k: usize| W::at(bytes, at + k * W::FORM.set);
    MarkingOf {
        executed: set(0),
        pending: set(1),
        included: set(2),
        enabled: W::NONE,
    }
}

/// All four.
#[inline(always)]
pub fn marking_at<W: Word>(bytes: &[u8], at: usize) -> MarkingOf<W> {
    MarkingOf {
        enabled: W::at(bytes, at + 3 * W::FORM.set),
        ..stored_at(bytes, at)
    }
}

#[inline(always)]
pub fn put_marking<W: Word>(bytes: &mut [u8], at: usize, m: &MarkingOf<W>) {
    let sets = [m.executed, m.pending, m.included, m.enabled];
    let places = bytes[at..at + W::FORM.marking()].chunks_exact_mut(W::FORM.set);
    for (place, set) in places.zip(sets) {
        set.put(place);
    }
}

/// With the set of its opening marking.
pub fn read<W: Word, const N: usize>(bytes: &[u8]) -> Result<GraphOf<W, N>, u8> {
    let mut graph = GraphOf::empty();
    read_into(bytes, &mut graph)?;
    graph.marking = kept(&graph, graph.marking);
    Ok(graph)
}

/// Reads a file of the word's edition into a graph that starts out empty; after a refusal it is of no use. The set of its
/// opening marking is left out: who hands that on works it out. Handing the
/// graph back by value would copy 2 KB, a fifth of the time.
pub fn read_into<W: Word, const N: usize>(
    bytes: &[u8],
    graph: &mut GraphOf<W, N>,
) -> Result<(), u8> {
    if bytes.len() < 52 {
        return Err(1);
    }
    if bytes[..3] != [66, 71, W::EDITION] {
        return Err(2);
    }
    let first_row = W::FORM.first_row();
    if bytes.len() < first_row {
        return Err(1);
    }
    let a = bytes[3];
    if !(W::LEAST..=W::MOST).contains(&a) {
        return Err(3);
    }
    let events = W::at(bytes, 4);
    let marking: MarkingOf<W> = stored_at(bytes, 4 + W::FORM.set);
    let m = marking.executed | marking.pending | marking.included;
    if events & !below::<W>(a) != W::NONE || m & !events != W::NONE {
        return Err(5);
    }
    let counts = judge_contents::<W>(bytes)?;
    (graph.a, graph.events, graph.marking) = (a, events, marking);
    let mut rest = &bytes[first_row..];
    for (count, rows) in counts.into_iter().zip(relations(graph)) {
        let (part, after) = rest.split_at(count * W::FORM.row());
        read_rows(part, events, rows)?;
        rest = after;
    }
    Ok(())
}

fn relations<W, const N: usize>(graph: &mut GraphOf<W, N>) -> [&mut [W; N]; 4] {
    [
        &mut graph.conditions,
        &mut graph.responses,
        &mut graph.includes,
        &mut graph.excludes,
    ]
}

#[inline(always)]
fn judge_contents<W: Word>(bytes: &[u8]) -> Result<[usize; 4], u8> {
    let (contents, first_row) = (4 + 4 * W::FORM.set, W::FORM.first_row());
    let mut counts = [0; 4];
    let mut end = 0;
    let entries = bytes[contents..first_row].chunks_exact(4);
    for (count, entry) in counts.iter_mut().zip(entries) {
        let offset = usize::from(u16::from_le_bytes([entry[0], entry[1]]));
        *count = usize::from(u16::from_le_bytes([entry[2], entry[3]]));
        if *count > W::FORM.activities() {
            return Err(3);
        }
        if offset != end {
            return Err(4);
        }
        end += W::FORM.row() * *count;
    }
    let rest = bytes.len() - first_row;
    if rest < end {
        return Err(1);
    }
    if rest > end {
        return Err(4);
    }
    Ok(counts)
}

#[inline(always)]
fn read_rows<W: Word, const N: usize>(part: &[u8], events: W, rows: &mut [W; N]) -> Result<(), u8> {
    // the least key that may come next
    let mut least = 0;
    for row in part.chunks_exact(W::FORM.row()) {
        let key = row[0];
        let set = W::at(row, 1);
        let event = usize::from(key) < N && events & bit(key) != W::NONE;
        if !event || set & !events != W::NONE {
            return Err(5);
        }
        if set == W::NONE || key < least {
            return Err(6);
        }
        rows[index::<N>(key)] = set;
        least = key + 1;
    }
    Ok(())
}

/// For a graph that was judged or mined.
pub fn write_judged<W: Word, const N: usize>(
    graph: &GraphOf<W, N>,
    lent: &mut [u8],
) -> Result<usize, u8> {
    let all = [
        &graph.conditions,
        &graph.responses,
        &graph.includes,
        &graph.excludes,
    ];
    let counts = all.map(|rows| rows.iter().filter(|&&row| row != W::NONE).count());
    let length = W::FORM.first_row() + W::FORM.row() * counts.iter().sum::<usize>();
    if lent.len() < length {
        return Err(7);
    }
    let (head, body) = lent[..length].split_at_mut(W::FORM.first_row());
    write_head(graph, counts, head);
    let mut slots = body.chunks_exact_mut(W::FORM.row());
    for rows in all {
        for (key, &row) in rows.iter().enumerate().filter(|(_, &row)| row != W::NONE) {
            let slot = slots.next().expect("counted above");
            slot[0] = key as u8;
            row.put(&mut slot[1..]);
        }
    }
    Ok(length)
}

fn write_head<W: Word, const N: usize>(graph: &GraphOf<W, N>, counts: [usize; 4], head: &mut [u8]) {
    head[..4].copy_from_slice(&[66, 71, W::EDITION, graph.a]);
    let m = &graph.marking;
    let sets = [graph.events, m.executed, m.pending, m.included];
    let contents = 4 + 4 * W::FORM.set;
    for (place, set) in head[4..contents].chunks_exact_mut(W::FORM.set).zip(sets) {
        set.put(place);
    }
    let mut offset = 0;
    for (entry, count) in head[contents..].chunks_exact_mut(4).zip(counts) {
        entry[..2].copy_from_slice(&(offset as u16).to_le_bytes());
        entry[2..].copy_from_slice(&(count as u16).to_le_bytes());
        offset += W::FORM.row() * count;
    }
}
