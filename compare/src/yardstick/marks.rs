//! Marks: the four counts in one array, by verdict and label.
use super::word::Word;
use super::{engine, log};
use crate::value::GraphOf;

/// At 2 x verdict + label: true negatives, false negatives, false positives, true positives.
pub type Counts = [usize; 4];

fn labels_fit(labels: &[u8], traces: usize) -> Result<(), u8> {
    if labels.len() != traces {
        return Err(18);
    }
    if labels.iter().fold(0, |all, &label| all | label) > 1 {
        return Err(19);
    }
    Ok(())
}

pub fn on_graph<W: Word, const N: usize>(
    graph: &GraphOf<W, N>,
    log: &log::Log,
    labels: &[u8],
) -> Result<Counts, u8> {
    labels_fit(labels, log.count())?;
    let mut counts = [0; 4];
    for (trace, &label) in log.traces().zip(labels) {
        let yes = engine::replay_judged(graph, trace).accepting;
        counts[2 * usize::from(yes) + usize::from(label)] += 1;
    }
    Ok(counts)
}

pub fn on_guesses(guesses: &[u8], labels: &[u8]) -> Result<Counts, u8> {
    if labels.len() > 1024 {
        return Err(3);
    }
    labels_fit(labels, guesses.len())?;
    labels_fit(guesses, labels.len())?;
    let mut counts = [0; 4];
    for (&guess, &label) in guesses.iter().zip(labels) {
        counts[2 * usize::from(guess) + usize::from(label)] += 1;
    }
    Ok(counts)
}

/// 128 where it ends accepting, else its number.
pub fn replays<W: Word, const N: usize>(
    graph: &GraphOf<W, N>,
    log: &log::Log,
    out: &mut [u8],
) -> Result<usize, u8> {
    let lent = out.get_mut(..log.count()).ok_or(7)?;
    for (byte, trace) in lent.iter_mut().zip(log.traces()) {
        let done = engine::replay_judged(graph, trace);
        *byte = if done.accepting {
            128
        } else {
            done.answer.number
        };
    }
    Ok(log.count())
}

pub fn text(marks: Result<Counts, u8>) -> String {
    let [tn, missed, fp, tp] = match marks {
        Err(number) => return format!("refused {number}\n"),
        Ok(counts) => counts,
    };
    let mut text = format!("TP {tp}\nFP {fp}\nFN {missed}\nTN {tn}\n");
    let measures = [
        ("precision", tp, tp + fp),
        ("recall", tp, tp + missed),
        ("accuracy", tp + tn, tp + fp + missed + tn),
    ];
    for (word, part, whole) in measures {
        text += &match whole {
            0 => format!("{word} none\n"),
            _ => format!("{word} {part} {whole}\n"),
        };
    }
    text
}
