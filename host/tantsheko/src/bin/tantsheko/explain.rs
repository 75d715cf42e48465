//! A lookup told cell by cell.

use crate::one::{refused, shown};
use crate::{number, open, say, Done, Stop};
use tantsheko::explain::{explain as explained, Explanation, Line};
use tantsheko::{Question, Table};

/// The question of a name.
fn question_of(name: &str) -> Result<Question, Stop> {
    Question::named(name.as_bytes()).ok_or_else(|| {
        let names = Question::ALL.map(Question::name).join(", ");
        Stop::Usage(format!("QUESTION is one of {names}, and not `{name}`"))
    })
}

/// The table, the question and its two numbers; `class` may be left out.
fn call_of(args: &[String]) -> Result<(&str, Question, u32, u32), Stop> {
    let is_name = |word: &str| word.starts_with(|c: char| c.is_alphabetic());
    let (question, rest) = match args {
        [path, name, numbers @ ..] if is_name(name) => (question_of(name)?, Some((path, numbers))),
        [path, numbers @ ..] => (Question::Class, Some((path, numbers))),
        [] => (Question::Class, None),
    };
    let [first_called, second_called] = question.arguments();
    let Some((path, [first, second])) = rest else {
        let name = match question {
            Question::Class => "[QUESTION]",
            other => other.name(),
        };
        return Err(Stop::Usage(format!(
            "explain takes TABLE {name} {first_called} {second_called}"
        )));
    };
    let (a, b) = (number(first, first_called)?, number(second, second_called)?);
    Ok((path, question, a, b))
}

/// What is asked, in words.
fn asked(question: Question, a: u32, b: u32) -> String {
    match question {
        Question::Class => format!("class of entry {a} at depth {b}"),
        Question::Climb => format!("climbing {b} up from entry {a}"),
        Question::Rating => format!("class of entry {a} at rating level {b}"),
        Question::Above => format!("entry {a} at or above entry {b}"),
        Question::Branch => format!("child of entry {a} on the way to entry {b}"),
        Question::Shared => format!("deepest class that holds entries {a} and {b}"),
        Question::Distance => format!("climbs between entries {a} and {b}"),
    }
}

/// A line for each cell, in columns.
fn cell_lines(lines: &[Line]) -> String {
    let cells = lines.iter().map(|l| l.cell.to_string().len());
    let called = lines.iter().map(|l| l.called.len());
    let (cell, place) = (cells.max().unwrap_or(0), called.max().unwrap_or(0));
    let rows = lines.iter().map(|l| {
        let (number, called) = (l.cell, &l.called);
        format!(
            "{number:>cell$}  {called:place$}  {}: {}\n",
            l.word, l.follows
        )
    });
    rows.collect()
}

/// How many cells were read.
fn count_line(question: Question, count: usize) -> String {
    match (question, count) {
        (Question::Shared | Question::Distance, _) => {
            "no cells listed: this question lists none, and the metering clause does not cover it\n"
                .to_string()
        }
        (_, 1) => "1 cell read\n".to_string(),
        _ => format!("{count} cells read\n"),
    }
}

/// The result, or the refusal with what it names.
fn result_of(told: &Explanation, table: &Table, question: Question, a: u32, b: u32) -> String {
    match told.answer.result() {
        Ok(result) => shown(question, result),
        Err(refusal) => format!(
            "refused with {} ({}), naming {}: {}",
            refusal.number(),
            refusal.word(),
            refusal.names(),
            refused(table, question, a, b, refusal)
        ),
    }
}

pub fn explain(args: &[String]) -> Done {
    let (path, question, a, b) = call_of(args)?;
    let table = open(path)?;
    let Some(told) = explained(&table, question, a, b) else {
        return Err(Stop::Fault(format!(
            "the answer of {path} does not follow from the cells that it lists"
        )));
    };
    let lines = cell_lines(&told.lines);
    let result = result_of(&told, &table, question, a, b);
    let count = count_line(question, told.lines.len());
    let asked = asked(question, a, b);
    say(&format!("{lines}{asked}: {result}\n{count}"))
}
