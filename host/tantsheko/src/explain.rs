//! An answer cell by cell, as a person would read the lookup. The cells are those that the proved library lists; what a cell
//! is comes from its number and the table's number of entries alone, and what follows from the words read up to it.

mod lookups;
mod pairs;
mod steps;

use crate::place::Place;
use crate::question::Question;
use crate::refusal::Refusal;
use crate::shape::GROUP_LIMIT;
use crate::table::{table_words, Answer, Table, HEADER_MARK, MOST_ENTRIES, TOP};

/// A cell that was read.
#[derive(Clone, Debug, PartialEq, Eq)]
pub struct Line {
    pub cell: u32,
    pub place: Place,
    /// The place in words. An index of LADDERS stands as the difference that it is.
    pub called: String,
    /// What the cell holds.
    pub word: u32,
    /// What follows from it.
    pub follows: String,
}

/// An answer with a line for each cell that it lists, in the order read: the last says how the question ends. A table of under
/// 4 words has no cell read.
#[derive(Clone, Debug, PartialEq, Eq)]
pub struct Explanation {
    pub answer: Answer,
    pub lines: Vec<Line>,
}

/// Asks a question and explains the answer. None where number, word or a cell is not what follows from the words read: the
/// proved code gives no such answer.
pub fn explain(table: &Table, question: Question, a: u32, b: u32) -> Option<Explanation> {
    let answer = question.ask(table, a, b);
    let mut trace = Trace {
        table,
        n: table.entries(),
        left: answer.cells(),
        lines: Vec::new(),
    };
    let end = match question {
        Question::Class => trace.class(a, b),
        Question::Climb => trace.climb(a, b),
        Question::Rating => trace.rating(a, b),
        Question::Above => trace.above(a, b),
        Question::Branch => trace.branch(a, b),
        Question::Shared | Question::Distance => answer.result().map_err(End::Refused),
    };
    let result = match end {
        Ok(word) => Ok(word),
        Err(End::Refused(refusal)) => Err(refusal),
        Err(End::Differs) => return None,
    };
    let lines = trace.lines;
    (trace.left.is_empty() && result == answer.result()).then_some(Explanation { answer, lines })
}

/// Why a step has no result.
enum End {
    Refused(Refusal),
    /// The cell that the step reads is not the next one of the answer.
    Differs,
}

type Step<T> = Result<T, End>;

/// The cells of an answer: those that are explained, and those that are left.
struct Trace<'a> {
    table: &'a Table,
    n: u32,
    left: &'a [u32],
    lines: Vec<Line>,
}

impl Trace<'_> {
    /// The word of the next cell, which is to be at a place.
    fn read(&mut self, wanted: Place) -> Step<u32> {
        let (&cell, left) = self.left.split_first().ok_or(End::Differs)?;
        let word = self.table.words().get(cell as usize).copied();
        let (Some(place), Some(word)) = (Place::of(self.n, cell), word) else {
            return Err(End::Differs);
        };
        if place != wanted {
            return Err(End::Differs);
        }
        self.left = left;
        self.lines.push(Line {
            cell,
            place,
            called: place.to_string(),
            word,
            follows: String::new(),
        });
        Ok(word)
    }

    /// Says what follows from the word read last.
    fn say(&mut self, follows: String) {
        if let Some(line) = self.lines.last_mut() {
            line.follows = follows;
        }
    }

    /// Calls the place read last by other words.
    fn call(&mut self, called: String) {
        if let Some(line) = self.lines.last_mut() {
            line.called = called;
        }
    }

    /// Says why the question is refused at the word read last.
    fn refuse<T>(&mut self, refusal: Refusal, follows: String) -> Step<T> {
        self.say(follows);
        Err(End::Refused(refusal))
    }

    /// Says why the word read last cannot be used.
    fn broken<T>(&mut self, why: String) -> Step<T> {
        self.refuse(Refusal::Broken, format!("{why}: the table is broken"))
    }

    /// The word read last, which is to be an entry.
    fn entry(&mut self, word: u32) -> Step<u32> {
        match word {
            _ if word < self.n => Ok(word),
            TOP => self.broken("the top mark, where an entry is to be".to_string()),
            _ => self.broken(format!("not an entry, 0 to {}", self.n - 1)),
        }
    }

    /// The depth at a place.
    fn read_depth(&mut self, place: Place) -> Step<u32> {
        let depth = self.read(place)?;
        if depth >= self.n {
            return self.broken(format!("not a depth, 0 to {}", self.n - 1));
        }
        Ok(depth)
    }

    /// The word at a place, which is the answer.
    fn read_answer(&mut self, place: Place) -> Step<u32> {
        let word = self.read(place)?;
        let entry = self.entry(word)?;
        self.say(format!("entry {entry} is the answer"));
        Ok(entry)
    }

    /// Step 1, and the numbers asked that are to be entries.
    fn opened(&mut self, asked: &[u32]) -> Step<()> {
        let (n, length) = (self.n, self.table.words().len() as u64);
        if length < 4 {
            return Err(End::Refused(Refusal::Broken));
        }
        let word = self.read(Place::Entries)?;
        let mark = format!("{HEADER_MARK} (groups of up to {GROUP_LIMIT})");
        if word < HEADER_MARK {
            return self.broken(format!("under {mark}"));
        }
        let stated = format!("{mark} + {n}, so n is {n}");
        if n == 0 || n as usize > MOST_ENTRIES {
            return self.broken(format!("{stated}, and not 1 to {MOST_ENTRIES}"));
        }
        let words = table_words(n);
        if length < words {
            return self.broken(format!(
                "{stated}, and {words} cells are needed of the {length} there"
            ));
        }
        match asked.iter().find(|&&v| v >= n) {
            None => {
                self.say(stated);
                Ok(())
            }
            Some(&v) => self.refuse(
                Refusal::Unknown(v),
                format!("{stated}, and there is no entry {v}"),
            ),
        }
    }
}

/// A number of climbs in words.
fn climbs(count: u32) -> String {
    match count {
        1 => "1 climb".to_string(),
        _ => format!("{count} climbs"),
    }
}
