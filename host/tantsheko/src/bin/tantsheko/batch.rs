//! A stream of questions.

use crate::stream::{number, put, stream};
use crate::{open, Done, Stop};
use tantsheko::{Answer, Question, Table};

/// The answer to a line, or none where it is of another form.
fn answer(table: &Table, line: &[u8]) -> Option<Answer> {
    let mut fields = line.split(|&b| b == b',');
    let first = fields.next()?;
    let second = fields.next()?;
    let third = fields.next();
    if fields.next().is_some() {
        return None;
    }
    let Some(third) = third else {
        return Some(table.level(number(first)?, number(second)?));
    };
    let question = Question::named(first)?;
    Some(question.ask(table, number(second)?, number(third)?))
}

/// What stands behind a question's line.
fn row(out: &mut Vec<u8>, answer: &Answer) {
    out.push(b',');
    put(out, answer.number().into());
    out.push(b',');
    match answer.result() {
        Ok(result) => put(out, result.into()),
        Err(_) => out.push(b'-'),
    }
    out.push(b',');
    put(out, answer.cells().len() as u64);
}

pub fn batch(args: &[String]) -> Done {
    let [path] = args else {
        return Err(Stop::Usage(
            "batch takes TABLE, with questions on standard input".to_string(),
        ));
    };
    let table = open(path)?;
    stream("a question; see `tantsheko batch --help`", |line, out| {
        row(out, &answer(&table, line)?);
        Some(())
    })
}
