//! One question, one answer.

use crate::{number, open, say, Done, Stop};
use tantsheko::{Answer, Question, Refusal, Table};

/// Why there is no result, in words, with what to do.
pub fn refused(table: &Table, question: Question, a: u32, b: u32, refusal: Refusal) -> String {
    match refusal {
        Refusal::Unknown(v) => format!(
            "{v} is not an entry: the table has entries 0 to {}",
            table.entries() - 1
        ),
        Refusal::TooDeep(v) => match table.words().get(4 + v as usize) {
            Some(depth) if question == Question::Climb => {
                let lead = if b == 1 { "climb leads" } else { "climbs lead" };
                format!("entry {v} has depth {depth}, so {b} {lead} past the top")
            }
            Some(depth) => format!("entry {v} has depth {depth}, so it has no class at depth {b}"),
            None => refusal.to_string(),
        },
        Refusal::NotAbove(u) if a == b => format!("entry {u} is not above itself"),
        Refusal::NotAbove(u) => format!("entry {u} is not above entry {b}"),
        other => other.to_string(),
    }
}

/// A result as the command prints it.
pub fn shown(question: Question, result: u32) -> String {
    match (question, result) {
        (Question::Above, 1) => "yes".to_string(),
        (Question::Above, _) => "no".to_string(),
        _ => result.to_string(),
    }
}

/// The arguments without --cells, and whether it was among them.
pub fn without_cells(args: &[String]) -> (Vec<&String>, bool) {
    let words: Vec<&String> = args.iter().filter(|w| *w != "--cells").collect();
    let asked = words.len() < args.len();
    (words, asked)
}

/// The line of cells, where it is asked for.
pub fn cells_line(answer: &Answer, asked: bool) -> String {
    if !asked {
        return String::new();
    }
    let cells: Vec<String> = answer.cells().iter().map(u32::to_string).collect();
    format!("cells {}\n", cells.join(" "))
}

pub fn one(question: Question, args: &[String]) -> Done {
    let (words, cells) = without_cells(args);
    let [first_called, second_called] = question.arguments();
    let [path, first, second] = words[..] else {
        return Err(Stop::Usage(format!(
            "{} takes TABLE {first_called} {second_called}",
            question.name()
        )));
    };
    let (a, b) = (number(first, first_called)?, number(second, second_called)?);
    let table = open(path)?;
    let answer = question.ask(&table, a, b);
    let read = cells_line(&answer, cells);
    match answer.result() {
        Ok(result) => say(&format!("{}\n{read}", shown(question, result))),
        Err(refusal) => {
            say(&read)?;
            Err(Stop::Fault(refused(&table, question, a, b, refusal)))
        }
    }
}
