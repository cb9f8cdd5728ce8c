//! Marks in exact numbers (02, 9/12), word for word.
use super::engine::replay;
use super::graph::Graph;
use super::log::Log;

/// The paper's confusion table: the verdict is the row, the label the column.
#[derive(Clone, Copy, PartialEq, Eq, Debug, Default)]
pub struct Table {
    pub tp: usize,
    pub fp: usize,
    pub fn_: usize,
    pub tn: usize,
}

/// "18 the label bytes are not as many as the traces, 19 a label above 1"
pub fn judge_labels(labels: &[u8], traces: usize) -> Result<(), u8> {
    if labels.len() != traces {
        return Err(18);
    }
    if labels.iter().any(|&label| label > 1) {
        return Err(19);
    }
    Ok(())
}

/// "The graph's verdict is yes where replay is done and accepting."
pub fn verdict(graph: &Graph, trace: &[u8]) -> bool {
    let done = replay(graph, trace);
    done.answer.number == 0 && done.accepting
}

/// "each count being the number of traces of its kind in the log"
pub fn table(verdicts: &[bool], labels: &[u8]) -> Table {
    let count = |yes: bool, label: u8| {
        let kind = |k: &usize| verdicts[*k] == yes && labels[*k] == label;
        (0..labels.len()).filter(kind).count()
    };
    Table {
        tp: count(true, 1),
        fp: count(true, 0),
        fn_: count(false, 1),
        tn: count(false, 0),
    }
}

pub fn of_graph(graph: &Graph, log: &Log, labels: &[u8]) -> Result<Table, u8> {
    judge_labels(labels, log.traces.len())?;
    let verdicts: Vec<bool> = log.traces.iter().map(|t| verdict(graph, t)).collect();
    Ok(table(&verdicts, labels))
}

/// Guesses in place of the verdicts: 3 for more labels than a log has traces, then 18 and 19
/// of the labels, then of the guesses.
pub fn of_guesses(guesses: &[u8], labels: &[u8]) -> Result<Table, u8> {
    if labels.len() > 1024 {
        return Err(3);
    }
    judge_labels(labels, guesses.len())?;
    judge_labels(guesses, labels.len())?;
    let verdicts: Vec<bool> = guesses.iter().map(|&guess| guess == 1).collect();
    Ok(table(&verdicts, labels))
}

/// "as two whole numbers each, not reduced and not rounded; a zero denominator prints as `none`"
fn measure(word: &str, part: usize, whole: usize) -> String {
    if whole == 0 {
        format!("{word} none\n")
    } else {
        format!("{word} {part} {whole}\n")
    }
}

pub fn text(marks: Result<Table, u8>) -> String {
    match marks {
        Err(number) => format!("refused {number}\n"),
        Ok(Table { tp, fp, fn_, tn }) => [
            format!("TP {tp}\n"),
            format!("FP {fp}\n"),
            format!("FN {fn_}\n"),
            format!("TN {tn}\n"),
            measure("precision", tp, tp + fp),
            measure("recall", tp, tp + fn_),
            measure("accuracy", tp + tn, tp + fp + fn_ + tn),
        ]
        .concat(),
    }
}
