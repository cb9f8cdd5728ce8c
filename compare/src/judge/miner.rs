//! From log to graph: the steps in their order, one after the other.
use super::engine::opened;
use super::facts::{gather, Facts};
use super::graph::{Graph, Marking};
use super::log::Log;
use super::steps::{Step, ALL};
use super::{Relations, Set};

/// 02, 3/12: how much is mined.
#[derive(Clone, Copy, PartialEq, Eq, Debug)]
pub enum Profile {
    Full,
    Light,
}

impl Profile {
    /// The light profile skips step 6.
    pub fn steps(self) -> Vec<Step> {
        let mut steps = ALL.to_vec();
        if self == Profile::Light {
            steps.remove(5);
        }
        steps
    }

    /// As `port` has it: 0 full, 1 light. Any other number is refused with 12.
    pub fn numbered(number: u8) -> Result<Profile, u8> {
        match number {
            0 => Ok(Profile::Full),
            1 => Ok(Profile::Light),
            _ => Err(12),
        }
    }
}

pub fn mine(log: &Log, profile: Profile) -> Graph {
    mine_by(log, &profile.steps())
}

pub fn mine_by(log: &Log, steps: &[Step]) -> Graph {
    let facts = gather(log);
    let relations = relations_by(&facts, steps);
    let marking = opening(&facts.events);
    opened(Graph {
        a: log.a,
        events: facts.events,
        marking,
        relations,
    })
}

pub fn relations_by(facts: &Facts, steps: &[Step]) -> Relations {
    let mut relations = Relations::default();
    for step in steps {
        relations = step(facts, &relations);
    }
    relations
}

/// Nothing executed or pending, all included. What is enabled then, the relations say.
fn opening(events: &Set) -> Marking {
    Marking {
        executed: Set::new(),
        pending: Set::new(),
        included: events.clone(),
        enabled: Set::new(),
    }
}
