//! Explanations, held against the answers of the proved library.
#![allow(dead_code)]

use reference::Sections;
use tantsheko::explain::{explain, Explanation};
use tantsheko::{Place, Question, Refusal, Table};

/// A text with each number in it as #, and the numbers.
pub fn parted(text: &str) -> (String, Vec<usize>) {
    let words = text.split(|c: char| !c.is_ascii_digit());
    let mut form = String::new();
    for c in text.chars() {
        if !c.is_ascii_digit() {
            form.push(c);
        } else if !form.ends_with('#') {
            form.push('#');
        }
    }
    (form, words.filter_map(|w| w.parse().ok()).collect())
}

/// The cell of a place's words in a table of n entries, by the sections as they are by hand.
pub fn cell_called(called: &str, n: usize) -> usize {
    let s = Sections { n };
    let (form, numbers) = parted(called);
    match (form.as_str(), &numbers[..]) {
        ("number of entries", []) => 0,
        ("number of jump entries", []) => 1,
        ("number of groups", []) => 2,
        ("number of long paths", []) => 3,
        ("DEPTH of entry #", [v]) => s.depth() + v,
        ("KIND of entry #", [v]) => s.kind() + v,
        ("LADPOS of entry #", [v]) => s.ladpos() + v,
        ("ORDER at #", [i]) => s.order() + i,
        ("PRE of entry #", [v]) => s.pre() + v,
        ("SIZE of entry #", [v]) => s.size() + v,
        ("LADDERS at #", [i]) => s.ladders() + i,
        ("LADDERS at # less #", [i, less]) => s.ladders() + i - less,
        ("position of group #", [g]) => s.groups() + 3 * g,
        ("shape of group #", [g]) => s.groups() + 3 * g + 1,
        ("parent of group #", [g]) => s.groups() + 3 * g + 2,
        ("depth of jump entry #", [j]) => s.jumps() + 21 * j,
        ("ancestor #^# above jump entry #", [2, e, j]) => s.jumps() + 21 * j + 1 + e,
        _ => panic!("no place is called {called}"),
    }
}

/// The last line says how the question ends, and no other does.
fn ends(told: &Explanation, question: Question) {
    let Some((last, before)) = told.lines.split_last() else {
        return;
    };
    for line in before {
        let ended = ["is the answer", "broken", "no entry"];
        assert!(!ended.iter().any(|e| line.follows.contains(e)), "{told:?}");
    }
    let end = match told.answer.result() {
        Ok(1) if question == Question::Above => " is at or above entry ".to_string(),
        Ok(_) if question == Question::Above => " is not at or above entry ".to_string(),
        Ok(class) => format!("entry {class} is the answer"),
        Err(Refusal::Unknown(v)) => format!("and there is no entry {v}"),
        Err(Refusal::TooDeep(_)) if question == Question::Climb => "past the top".to_string(),
        Err(Refusal::TooDeep(_)) => "no class there".to_string(),
        Err(Refusal::NotAbove(u)) => format!("entry {u} is not above "),
        Err(_) => ": the table is broken".to_string(),
    };
    assert!(last.follows.contains(&end), "{end} of {told:?}");
}

/// Whether "climb" stands behind each 1, and "climbs" behind every other number.
fn climbs_agree(follows: &str) -> bool {
    let words: Vec<&str> = follows.split([' ', ',']).collect();
    let pairs = words.windows(2);
    let mut counted = pairs.filter(|p| p[0].parse::<u32>().is_ok() && p[1].starts_with("climb"));
    counted.all(|p| (p[0] == "1") == (p[1] == "climb"))
}

/// Explains a question. Each line has its answer's cell, called by its section and place, and the cell's word; ORDER and LADDERS
/// are read where the line before says.
pub fn explained(table: &Table, question: Question, a: u32, b: u32) -> Explanation {
    let answer = question.ask(table, a, b);
    let told = explain(table, question, a, b)
        .unwrap_or_else(|| panic!("{question:?} {a} {b} gives {answer:?}"));
    assert_eq!(told.answer, answer);
    let cells: Vec<u32> = told.lines.iter().map(|l| l.cell).collect();
    assert_eq!(cells, answer.cells());
    for (at, line) in told.lines.iter().enumerate() {
        assert_eq!(line.word, table.words()[line.cell as usize]);
        let cell = cell_called(&line.called, table.entries() as usize);
        assert_eq!(
            (cell, line.place),
            (
                line.cell as usize,
                Place::of(table.entries(), line.cell).unwrap()
            )
        );
        assert!(climbs_agree(&line.follows), "{line:?}");
        let next = told.lines.get(at + 1);
        let read = line.follows.strip_prefix("so read ");
        match (next.map(|l| l.place), read) {
            (Some(Place::Order(i)), Some(said)) => {
                let (form, x) = parted(said);
                assert_eq!((form.as_str(), x[0] + x[1]), ("ORDER at # + #", i as usize));
            }
            (Some(Place::Ladders(_)), said) => assert_eq!(next.map(|l| l.called.as_str()), said),
            (Some(Place::Order(_)), None) | (_, Some(_)) => panic!("{told:?}"),
            (_, None) => {}
        }
    }
    ends(&told, question);
    told
}
