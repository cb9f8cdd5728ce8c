//! Wrong versions of the mining steps, tried on the logs of the comparison's rounds.
use super::wrong_steps::*;
use super::{all_found, SEEDS};
use compare::door::{self, Door, GRAPH_ROOM};
use compare::judge::facts::{gather, Facts};
use compare::judge::graph_file;
use compare::judge::log;
use compare::judge::miner::relations_by;
use compare::judge::steps::{Step, ALL};
use compare::judge::Relations;
use compare::seeds::{logs, Prng};
use compare::{judge, port, yardstick};

/// The logs that the comparison makes once for step 7, those of its rounds, and their facts.
fn each_log(mut look: impl FnMut(&[u8], &Facts) -> bool) -> Option<u64> {
    let mut count = 0;
    for bytes in logs::telling() {
        count += 1;
        let log = log::read(&bytes).expect("sound logs");
        if look(&bytes, &gather(&log)) {
            return Some(count);
        }
    }
    for seed in 0..SEEDS {
        let mut prng = Prng::new(seed);
        for (_, of_a_kind, make) in logs::KINDS {
            for _ in 0..of_a_kind {
                count += 1;
                let bytes = make(&mut prng);
                let bytes = logs::either_size(&mut prng, bytes);
                let log = log::read(&bytes).expect("sound kinds");
                if look(&bytes, &gather(&log)) {
                    return Some(count);
                }
            }
        }
    }
    None
}

/// All ten steps with one replaced; without step 6 where asked.
fn with(number: usize, mutant: Step, light: bool) -> Vec<Step> {
    let mut steps = ALL.to_vec();
    steps[number - 1] = mutant;
    if light {
        steps.remove(5);
    }
    steps
}

/// The first log on which the mutant gives other relations.
fn found(number: usize, mutant: Step) -> Option<u64> {
    let right = ALL;
    let wrong = with(number, mutant, false);
    each_log(|_, facts| relations_by(facts, &right) != relations_by(facts, &wrong))
}

const FULL: [(&str, usize, Step); 28] = [
    (
        "step 2, responses of the first s only",
        2,
        responses_of_first,
    ),
    (
        "step 3, a t that opens a trace is passed over",
        3,
        chain_but_for_starts,
    ),
    ("step 5, s is the source", 5, step5_turned),
    ("step 6, u is not t", 6, |facts, r| {
        step6_where(facts, r, |_, u, t| u != t)
    }),
    ("step 6, u is not s", 6, |facts, r| {
        step6_where(facts, r, |s, u, _| u != s)
    }),
    ("step 6, s is not t", 6, |facts, r| {
        step6_where(facts, r, |s, _, t| s != t)
    }),
    ("step 6, the next t only", 6, step6_next_t),
    ("step 7, while pairs go", 7, step7_in_place),
    ("step 7, u is not t", 7, step7_other_u),
    ("step 7, any earlier u", 7, step7_any_earlier),
    ("step 7, left out", 7, |_, r| r.clone()),
    ("step 7, as 01 had it", 7, step7_of_01),
    ("step 7, v since the nearest u", 7, step7_nearest_u),
    (
        "step 7, v since the first u after the last s",
        7,
        step7_since_last_s,
    ),
    ("step 7, v before the first s", 7, step7_first_s),
    ("step 7, v is not s", 7, step7_v_is_not_s),
    ("step 7, v in two traces", 7, step7_in_two_traces),
    ("step 7, v beside u or s", 7, step7_neighbours),
    ("step 7, u may include t", 7, step7_u_may_include),
    ("step 8, while pairs go", 8, step8_in_place),
    ("step 8, left out for responses", 8, step8_conditions_only),
    ("step 9, left out", 9, |_, r| r.clone()),
    ("step 9, line 33 as an implication", 9, step9_implication),
    (
        "step 9, an earlier exclusion is enough",
        9,
        step9_exclusion_only,
    ),
    ("step 9, any t and not the first", 9, step9_any_t),
    ("step 9, excludes after includes", 9, step9_excludes_last),
    ("step 9, after t's own effects", 9, step9_own_effects),
    ("step 10, responses as printed", 10, step10_as_printed),
];

#[test]
fn found_in_the_full_graph() {
    all_found(
        FULL.iter()
            .map(|&(name, n, step)| (name, found(n, step)))
            .collect(),
    );
}

/// All that these leave out or put in are pairs never directly followed, which step 6
/// excludes anyway.
const LIGHT: [(&str, usize, Step); 7] = [
    ("step 1, left out", 1, |_, r| r.clone()),
    ("step 3, no self-exclusion", 3, step3_includes_only),
    ("step 4, left out", 4, |_, r| r.clone()),
    ("step 4, all sources", 4, step4_all),
    (
        "step 4, only where nothing excluded t yet",
        4,
        step4_if_none,
    ),
    ("step 5, left out", 5, |_, r| r.clone()),
    ("step 5, s may exclude itself", 5, step5_any_s),
];

/// The relations of the light graph that a door writes into a file.
fn light_by(door: &Door, bytes: &[u8]) -> Relations {
    let mut file = vec![0; GRAPH_ROOM];
    let length = (door.mine)(bytes, door::LIGHT, &mut file) / 256;
    let graph = graph_file::read(&file[..length as usize]).expect("a file that was written");
    graph.relations
}

/// Each is told apart from every implementation, by the light graph that it gives: judge,
/// yardstick, and the proved code where it is linked.
#[test]
fn found_in_the_light_graph() {
    let mut doors = vec![judge::door::DOOR, yardstick::door::DOOR];
    doors.extend(port::door());
    for door in doors {
        let told = |&(name, n, step): &(&'static str, usize, Step)| {
            let wrong = with(n, step, true);
            let differs =
                |bytes: &[u8], facts: &Facts| light_by(&door, bytes) != relations_by(facts, &wrong);
            (name, each_log(differs))
        };
        all_found(LIGHT.iter().map(told).collect());
    }
}

/// Why the comparison mines lightly too: with step 6, none of these ever shows.
#[test]
fn hidden_in_the_full_graph() {
    let shown = each_log(|_, facts| {
        let right = relations_by(facts, &ALL);
        let same = |&(_, n, step): &(&str, usize, Step)| {
            relations_by(facts, &with(n, step, false)) == right
        };
        !LIGHT.iter().all(same)
    });
    assert_eq!(shown, None);
}

/// 02, 7/12: in the light graph the new step 7 and that of 01 never differ.
#[test]
fn light_graphs_do_not_change() {
    let changed = each_log(|_, facts| {
        let before = with(7, step7_of_01, true);
        relations_by(facts, &judge::miner::Profile::Light.steps()) != relations_by(facts, &before)
    });
    assert_eq!(changed, None);
}
