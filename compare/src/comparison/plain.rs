//! The plain engine's functions, called on each implementation with the same lists, and both
//! engines on the same graphs.
use super::record::{Call, Function};
use super::{decimal, Comparison};
use crate::door::{Door, Form, OnPlain, MOST_PAIRS};
use crate::judge::door::DOOR as JUDGE;
use crate::value::PlainGraph;

/// What memory holds before it is lent.
const UNTOUCHED: u16 = 165 * 257;

fn numbers(list: &[u16]) -> String {
    let words: Vec<String> = list.iter().map(u16::to_string).collect();
    words.join(" ")
}

fn shown(graph: &PlainGraph) -> String {
    let lists: Vec<String> = graph.lists.iter().map(|list| numbers(list)).collect();
    format!("head {}\nlists {}", decimal(&graph.head), lists.join("; "))
}

fn bytes_of(memory: &[u16]) -> Vec<u8> {
    memory.iter().flat_map(|pair| pair.to_le_bytes()).collect()
}

impl Comparison {
    pub fn plain_step(&mut self, graph: &PlainGraph, marking: &[u8], activity: u8) -> u64 {
        let mut after = marking.to_vec();
        let wanted = (JUDGE.plain_step)(graph, &mut after, activity);
        self.saw("plain step", wanted as u8);
        self.record.keep(&Call {
            function: Function::PlainStep,
            input: &graph.head,
            lists: Some(&graph.lists),
            beside: marking,
            room: marking.len(),
            activity,
            place: 0,
            result: wanted,
            after: &after,
        });
        for other in self.others.clone() {
            let mut lent = marking.to_vec();
            let result = (other.plain_step)(graph, &mut lent, activity);
            if result != wanted || lent != after {
                self.differ("plain step", other.name, || {
                    let (graph, from) = (shown(graph), decimal(marking));
                    let (judge, theirs) = (decimal(&after), decimal(&lent));
                    format!(
                        "{graph}\nmarking {from}\nactivity {activity}\n\
                         judge {wanted}, marking {judge}\nother {result}, marking {theirs}"
                    )
                });
            }
        }
        wanted
    }

    pub fn plain_accepting(&mut self, graph: &PlainGraph, marking: &[u8]) -> u64 {
        let pick = |door: &Door| door.plain_accepting;
        self.on_plain(
            "plain accepting",
            Function::PlainAccepting,
            pick,
            graph,
            marking,
        )
    }

    pub fn plain_replay(&mut self, graph: &PlainGraph, trace: &[u8]) -> u64 {
        let pick = |door: &Door| door.plain_replay;
        self.on_plain("plain replay", Function::PlainReplay, pick, graph, trace)
    }

    /// A function that changes nothing: a plain graph, and a marking or a trace beside it.
    fn on_plain(
        &mut self,
        function: &'static str,
        kept_as: Function,
        pick: fn(&Door) -> OnPlain,
        graph: &PlainGraph,
        beside: &[u8],
    ) -> u64 {
        let wanted = pick(&JUDGE)(graph, beside);
        self.saw(function, wanted as u8);
        self.record.keep(&Call {
            function: kept_as,
            input: &graph.head,
            lists: Some(&graph.lists),
            beside,
            room: 0,
            activity: 0,
            place: 0,
            result: wanted,
            after: &[],
        });
        for other in self.others.clone() {
            let result = pick(&other)(graph, beside);
            if result != wanted {
                self.differ(function, other.name, || {
                    let (graph, beside) = (shown(graph), decimal(beside));
                    format!("{graph}\nbeside {beside}\njudge {wanted}\nother {result}")
                });
            }
        }
        wanted
    }

    /// The judge's result and memory, after comparing the others with them.
    pub fn fill(&mut self, file: &[u8], kind: u8, room: usize) -> (u64, Vec<u16>) {
        let mut memory = vec![UNTOUCHED; room];
        let wanted = (JUDGE.fill)(file, kind, &mut memory);
        self.saw("fill", wanted as u8);
        self.record.keep(&Call {
            function: Function::Fill,
            input: file,
            lists: None,
            beside: &[],
            room: 2 * room,
            activity: kind,
            place: 0,
            result: wanted,
            after: &bytes_of(&memory),
        });
        for other in self.others.clone() {
            let mut lent = vec![UNTOUCHED; room];
            let result = (other.fill)(file, kind, &mut lent);
            if result != wanted || lent != memory {
                self.differ("fill", other.name, || {
                    let (judge, theirs) = (numbers(&memory), numbers(&lent));
                    format!(
                        "file {}\nrelation {kind}, room {room}\n\
                         judge {wanted}, memory {judge}\nother {result}, memory {theirs}",
                        decimal(file)
                    )
                });
            }
        }
        (wanted, memory)
    }

    /// The graph of an accepted file, as `fill` and `opening` hand it to the plain engine.
    pub fn lists_of(&mut self, file: &[u8]) -> PlainGraph {
        let form = Form::in_file(file);
        let opening = self.opening(file, form.marking());
        let mut graph = PlainGraph {
            head: [&file[form.file_head()], &opening[3 * form.set..]].concat(),
            ..PlainGraph::default()
        };
        for kind in 0..4 {
            let (result, mut pairs) = self.fill(file, kind, MOST_PAIRS);
            pairs.truncate((result / 256) as usize);
            graph.lists[usize::from(kind)] = pairs;
        }
        graph
    }

    /// Both engines on one graph: the same number, place, verdict and marking.
    pub fn on_both(&mut self, file: &[u8], graph: &PlainGraph, trace: &[u8], lent: &[u8], e: u8) {
        self.input("graph: on both engines");
        for door in self.everyone() {
            let mut markings = [lent.to_vec(), lent.to_vec()];
            let on_sets = (
                (door.replay)(file, trace),
                (door.step)(file, &mut markings[0], e),
            );
            let on_lists = (
                (door.plain_replay)(graph, trace),
                (door.plain_step)(graph, &mut markings[1], e),
            );
            if on_sets != on_lists || markings[0] != markings[1] {
                self.differ("both engines", door.name, || {
                    let (file, trace, lent) = (decimal(file), decimal(trace), decimal(lent));
                    format!(
                        "file {file}\n{}\ntrace {trace}\nmarking {lent}\nactivity {e}\n\
                         on sets {on_sets:?}\non lists {on_lists:?}\nmarkings {markings:?}",
                        shown(graph)
                    )
                });
            }
        }
    }

    fn everyone(&self) -> Vec<Door> {
        let mut doors = self.others.clone();
        doors.push(JUDGE);
        doors
    }
}
