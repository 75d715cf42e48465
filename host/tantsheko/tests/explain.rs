//! Explanations beside the answers of the proved library: for every route of the steps, every shape and every way in which a
//! table is broken.

mod beside;
mod told;

use beside::TOP;
use reference::trees::{below, make as tree};
use std::collections::BTreeSet;
use tantsheko::explain::{Explanation, Line};
use tantsheko::{table_words, Place, Question, Table};
use told::{cell_called, explained, parted};

#[test]
fn every_place_is_its_cell() {
    for n in (1..=40).chain([1_048_576]) {
        let end = table_words(n) as u32;
        for cell in (0..end).step_by(if n > 40 { 97 } else { 1 }) {
            let place = Place::of(n, cell).expect("a cell of the table");
            assert_eq!(cell_called(&place.to_string(), n as usize), cell as usize);
        }
        assert_eq!(Place::of(n, end), None);
        assert_eq!(Place::of(n, u32::MAX), None);
    }
    assert_eq!(Place::of(0, 0), Some(Place::Entries));
    assert_eq!(Place::of(0, 4), None);
}

/// The steps that were gone, by the first word of each place, and the answer's number.
fn route(told: &Explanation) -> (String, u32) {
    let first = |l: &Line| l.called.split(' ').next().unwrap().to_string();
    let words: Vec<String> = told.lines.iter().map(first).collect();
    (words.join(" "), told.answer.number())
}

const AT_ONCE: &str = "number DEPTH";
const WITHIN_A_GROUP: &str = "number DEPTH KIND shape position ORDER";
const THE_GROUPS_PARENT: &str = "number DEPTH KIND shape parent";
const OVER_A_GROUP: &str = "number DEPTH KIND shape parent KIND depth ancestor LADPOS LADDERS";
const STRAIGHT_TO_A_LADDER: &str = "number DEPTH KIND depth ancestor LADPOS LADDERS";

/// The routes of a question on prepared tables.
fn routes(question: Question) -> BTreeSet<(String, u32)> {
    let lookup = [
        AT_ONCE,
        WITHIN_A_GROUP,
        THE_GROUPS_PARENT,
        OVER_A_GROUP,
        STRAIGHT_TO_A_LADDER,
    ];
    let compared = "number PRE SIZE PRE";
    let branch = lookup.map(|route| format!("{compared} DEPTH {route}"));
    let answers = match question {
        Question::Class | Question::Climb | Question::Rating => lookup.map(String::from).to_vec(),
        Question::Above => vec![compared.to_string()],
        Question::Branch => branch.to_vec(),
        Question::Shared | Question::Distance => vec![String::new()],
    };
    let refusals = match question {
        Question::Class | Question::Climb => vec![("number", 7), (AT_ONCE, 8)],
        Question::Rating | Question::Above => vec![("number", 7)],
        Question::Branch => vec![("number", 7), (compared, 10)],
        Question::Shared | Question::Distance => vec![("", 7)],
    };
    let answers = answers.into_iter().map(|route| (route, 0));
    let refusals = refusals
        .into_iter()
        .map(|(r, number)| (r.to_string(), number));
    answers.chain(refusals).collect()
}

#[test]
fn every_route() {
    let mut seed = 31;
    for question in Question::ALL {
        let mut seen = BTreeSet::new();
        for k in 0..140usize {
            let n = 1 + below(&mut seed, if k % 4 == 0 { 3000 } else { 60 }) as usize;
            let table = Table::prepare(&tree(k, n, &mut seed, k % 3 > 0)).unwrap();
            for _ in 0..200 {
                let a = below(&mut seed, n + 1);
                let b = below(&mut seed, n + 1);
                let near = a.min(n as u32 - 1);
                for (a, b) in [(a, b), (a, b % 8), (near, table.words()[4 + near as usize])] {
                    seen.insert(route(&explained(&table, question, a, b)));
                }
            }
        }
        assert_eq!(seen, routes(question), "{question:?}");
    }
}

/// Every list of up to seven entries in which a parent comes before its child, alone and below a long chain.
#[test]
fn every_shape() {
    for n in 1..=7usize {
        for code in 0..(1..n).product::<usize>() {
            let mut rest = code;
            let mut parents = vec![TOP];
            for i in 1..n {
                parents.push((rest % i) as u32);
                rest /= i;
            }
            let chain = (0..9).map(|i: u32| i.checked_sub(1).unwrap_or(TOP));
            let below = parents.iter().map(|&p| if p == TOP { 8 } else { 9 + p });
            let joined: Vec<u32> = chain.chain(below).collect();
            for list in [parents.clone(), joined] {
                let table = Table::prepare(&list).unwrap();
                for v in 0..list.len() as u32 {
                    for d in 0..=table.words()[4 + v as usize] {
                        explained(&table, Question::Class, v, d);
                    }
                }
            }
        }
    }
}

/// Why a table is broken, with each number as #, and the depths of a group as one.
const BROKEN: [&str; 16] = [
    "# (groups of up to #) + #, so n is #, and not # to #",
    "# (groups of up to #) + #, so n is #, and # cells are needed of the # there",
    "# + # is past the end of ORDER",
    "# + # × # + #, so micro: group # is past the end of GROUPS",
    "# - # is below #",
    "# - # is past the end of LADDERS",
    "a group of depths # below its root, without local number #",
    "less deep than #, though below entry #",
    "micro, and a group's parent is not",
    "not a depth, # to #",
    "not a shape, # to #",
    "not an entry, # to #",
    "not deeper than #",
    "not micro: jump entry # is past the end of JUMPS",
    "the top mark, where an entry is to be",
    "under # (groups of up to #)",
];

fn reason(follows: &str) -> String {
    let why = follows.strip_suffix(": the table is broken").unwrap();
    let mut form = parted(why).0;
    while form.contains(" # #") {
        form = form.replace(" # #", " #");
    }
    form
}

/// Words in place of one that a table of n entries holds.
fn others(word: u32, n: u32) -> [u32; 12] {
    let micro = 1 << 31;
    [
        0,
        1,
        n - 1,
        n,
        2 * n,
        word.wrapping_sub(1),
        word.wrapping_add(1),
        1 << 30,
        micro,
        micro + 8 * n,
        TOP - 1,
        TOP,
    ]
}

/// Each word that a question reads is changed in turn, and the table is cut short.
#[test]
fn every_broken_table() {
    let mut seed = 32;
    let mut reasons = BTreeSet::new();
    for k in 0..210usize {
        let n = 1 + below(&mut seed, 80);
        let table = Table::prepare(&tree(k, n as usize, &mut seed, k % 3 > 0)).unwrap();
        let words = table.words();
        for _ in 0..30 {
            let question = Question::ALL[below(&mut seed, 7) as usize];
            let a = below(&mut seed, n as usize + 1);
            let b = below(&mut seed, if k % 2 == 0 { n as usize + 1 } else { 5 });
            for &cell in question.ask(&table, a, b).cells() {
                for other in others(words[cell as usize], n) {
                    let mut bad = words.to_vec();
                    bad[cell as usize] = other;
                    let told = explained(&Table::from_words(bad), question, a, b);
                    if let (Some(last), 9) = (told.lines.last(), told.answer.number()) {
                        reasons.insert(reason(&last.follows));
                    }
                }
            }
            for length in [0, 1, 3, 4, words.len() - 1] {
                let short = Table::from_words(words[..length].to_vec());
                explained(&short, question, a, b);
            }
        }
    }
    assert_eq!(reasons, BROKEN.map(String::from).into());
}
