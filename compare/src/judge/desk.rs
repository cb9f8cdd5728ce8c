//! The call desk (02, 5/12): one graph, and 32 places for vessels in port. The graph comes from a
//! file; the number of a file that is refused stands where the graph's 3 and 5 stand.
use super::engine::{accepting, execute, judge_graph};
use super::finish::finish_within;
use super::graph::{Graph, Marking};
use crate::value::Answer;

/// The marking of the call at a place; none where the place is free.
pub type Place = Option<Marking>;

/// Gives the lowest free place a marking at the opening state. 3, 5 and 16 come first; then 13
/// where all places are taken.
pub fn open(graph: &Result<Graph, u8>, places: &mut [Place]) -> Result<usize, u8> {
    let graph = graph.as_ref().map_err(|&number| number)?;
    judge_graph(graph)?;
    for (number, place) in places.iter_mut().enumerate() {
        if place.is_none() {
            *place = Some(graph.marking.clone());
            return Ok(number);
        }
    }
    Err(13)
}

/// 14 where the place is above 31 or not open, before all others of step, close and finish.
fn call_at(places: &mut [Place], place: usize) -> Result<&mut Marking, u8> {
    match places.get_mut(place) {
        Some(Some(marking)) => Ok(marking),
        _ => Err(14),
    }
}

/// Runs one activity at one place, and judges the marking there and no other.
pub fn step(
    graph: &Result<Graph, u8>,
    places: &mut [Place],
    place: usize,
    e: u8,
) -> Result<(), Answer> {
    let marking = call_at(places, place)?;
    let graph = graph.as_ref().map_err(|&number| number)?;
    execute(graph, marking, e)
}

/// Frees a place whose call is accepting; 15 where it is not, after 3, 5 and 16.
pub fn close(graph: &Result<Graph, u8>, places: &mut [Place], place: usize) -> Result<(), u8> {
    let marking = call_at(places, place)?;
    let graph = graph.as_ref().map_err(|&number| number)?;
    if !accepting(graph, marking)? {
        return Err(15);
    }
    places[place] = None;
    Ok(())
}

/// How the call at a place can still finish (02, 8/12): 14 first, then as at any marking.
pub fn finish(
    graph: &Result<Graph, u8>,
    places: &mut [Place],
    place: usize,
    room: usize,
) -> Result<[u8; 4], u8> {
    let marking = call_at(places, place)?;
    let graph = graph.as_ref().map_err(|&number| number)?;
    finish_within(graph, marking, room)
}
