//! What an explanation says follows from each word, on prepared tables: every sentence against the tree.

mod told;

use reference::trees::{below, make as tree};
use reference::Sections;
use std::collections::BTreeSet;
use tantsheko::explain::{Explanation, Line};
use tantsheko::{Place, Question, Table};
use told::{explained, parted};

/// A question of a prepared table, with what it explains.
struct Asked<'a> {
    table: &'a Table,
    question: Question,
    a: usize,
    b: usize,
    told: Explanation,
}

impl Asked<'_> {
    fn explained(table: &Table, question: Question, a: u32, b: u32) -> Asked<'_> {
        Asked {
            table,
            question,
            a: a as usize,
            b: b as usize,
            told: explained(table, question, a, b),
        }
    }

    fn word(&self, cell: usize) -> usize {
        self.table.words()[cell] as usize
    }

    fn sections(&self) -> Sections {
        let n = self.table.entries() as usize;
        Sections { n }
    }

    fn depth(&self, v: usize) -> usize {
        self.word(self.sections().depth() + v)
    }

    fn position(&self, v: usize) -> usize {
        self.word(self.sections().pre() + v)
    }

    /// The positions of an entry and all below it.
    fn below(&self, v: usize) -> std::ops::Range<usize> {
        self.position(v)..self.position(v) + self.word(self.sections().size() + v)
    }

    /// The entry whose ancestor is wanted.
    fn entry(&self) -> usize {
        match self.question {
            Question::Branch => self.b,
            _ => self.a,
        }
    }

    /// The answer, where there is one.
    fn class(&self) -> usize {
        self.told.answer.result().unwrap() as usize
    }

    /// The depth of the answer.
    fn wanted(&self) -> usize {
        self.depth(self.class())
    }

    fn is_above(&self) -> bool {
        self.below(self.a).contains(&self.position(self.b))
    }

    /// The number of an entry's jump entry: the first in preorder at or below it, of size 8 or more with none so large below.
    fn jump_entry(&self, v: usize) -> usize {
        let s = self.sections();
        let large = |&i: &usize| self.below(self.word(s.order() + i)).len() >= 8;
        let ends = |&i: &usize| {
            let below = self.below(self.word(s.order() + i));
            !below.skip(1).any(|j| large(&j))
        };
        let jumps = (0..s.n).filter(large).filter(ends);
        jumps.take_while(|&i| i < self.position(v)).count()
    }

    fn root(&self, group: u32) -> usize {
        let s = self.sections();
        self.word(s.order() + self.word(s.groups() + 3 * group as usize))
    }

    /// The numbers of a sentence on a group's shape: its depths, and where the climbs from the entry lead.
    fn in_group(&self, group: u32) -> Vec<usize> {
        let (s, v) = (self.sections(), self.entry());
        let root = self.root(group);
        let first = self.position(root);
        let positions = self.below(root);
        let entries = positions.clone().map(|i| self.word(s.order() + i));
        let mut numbers: Vec<usize> = entries.map(|x| self.depth(x) - self.depth(root)).collect();
        numbers.push(self.position(v) - first);
        numbers.push(self.depth(v) - self.depth(root));
        numbers.push(self.depth(v) - self.wanted());
        let reached = self.position(self.class());
        numbers.extend(positions.contains(&reached).then(|| reached - first));
        numbers
    }
}

/// A sentence with each number as #, the depths of a group as one, and climbs in the singular.
fn form_of(follows: &str) -> String {
    let mut form = parted(follows).0.replace("climbs", "climb");
    while form.contains(" # #") {
        form = form.replace(" # #", " #");
    }
    form
}

/// A line's sentence: its form, its numbers, the word that it follows from, and the place that is read next.
struct Sentence {
    form: String,
    x: Vec<usize>,
    word: usize,
    place: Place,
    next: Option<Place>,
}

impl Sentence {
    fn of(line: &Line, next: Option<&Line>) -> Sentence {
        Sentence {
            form: form_of(&line.follows),
            x: parted(&line.follows).1,
            word: line.word as usize,
            place: line.place,
            next: next.map(|l| l.place),
        }
    }

    /// Whether it holds, where it is one of steps 1 and 2; none of another step.
    fn of_entry(&self, asked: &Asked) -> Option<bool> {
        let (x, word, a, b, n) = (&self.x[..], self.word, asked.a, asked.b, asked.sections().n);
        Some(match self.form.as_str() {
            "# (groups of up to #) + #, so n is #" => x == [1 << 30, 7, n, n],
            "# (groups of up to #) + #, so n is #, and there is no entry #" => {
                let first = if a >= n { a } else { b };
                x == [1 << 30, 7, n, n, first] && first >= n
            }
            "the depth asked, so entry # is the answer" => {
                x == [asked.entry()] && word == asked.wanted()
            }
            "less deep than #, so it has no class there" => x == [b] && word < b,
            "less deep than #, so its own class: entry # is the answer" => x == [b, a] && word < b,
            "deeper than #, so go on, # climb up" => x == [asked.wanted(), word - asked.wanted()],
            "# climb are asked, so entry # is the answer" => x == [0, a] && b == 0,
            "less than #, so climbing # up leads past the top" => x == [b, b] && word < b,
            "# climb up is depth # - # = #, so go on" => x == [b, word, b, asked.wanted()],
            _ => return None,
        })
    }

    /// The same of step 3.
    fn of_group(&self, asked: &Asked) -> Option<bool> {
        let (x, word) = (&self.x[..], self.word);
        Some(match self.form.as_str() {
            "# + # × # + #, so micro: group #, local number #" => {
                let sum = x[0] + x[1] * x[2] + x[3];
                x[..2] == [1 << 31, 8] && x[4..] == x[2..4] && sum == word
            }
            "a group of depths # below its root: local number # is at #, and # climb up is local number #"
            | "a group of depths # below its root: local number # is at #, and # climb up is out of the group" => {
                matches!(self.place, Place::Shape(group) if asked.in_group(group) == x)
            }
            "so read ORDER at # + #" => {
                self.next == Some(Place::Order((x[0] + x[1]) as u32)) && x[0] == word
            }
            "at depth # - # - # = #, so entry # is the answer" => {
                x[..4] == self.over_group(asked) && x[3] == asked.wanted() && x[4..] == [word]
            }
            "at depth # - # - # = #, deeper than #, so go on from entry #, # climb up" => {
                let (depth, wanted) = (asked.depth(word), asked.wanted());
                x[..4] == self.over_group(asked) && x[4..] == [wanted, word, depth - wanted]
            }
            "entry # is the answer" => x == [word] && word == asked.class(),
            _ => return None,
        })
    }

    /// The numbers of the parent's depth: the entry's, less its depth in the group, less 1.
    fn over_group(&self, asked: &Asked) -> [usize; 4] {
        let Place::Parent(group) = self.place else {
            panic!("{:?}", self.place);
        };
        let depth = asked.depth(asked.entry());
        let k = depth - asked.depth(asked.root(group));
        [depth, k, 1, asked.depth(self.word)]
    }

    /// The same of step 4.
    fn of_jump(&self, asked: &Asked) -> Option<bool> {
        let (x, word) = (&self.x[..], self.word);
        Some(match self.form.as_str() {
            "not micro, so go on from its jump entry, number #" => {
                matches!(self.place, Place::Kind(v) if asked.jump_entry(v as usize) == word)
                    && x == [word]
                    && self.next == Some(Place::JumpDepth(word as u32))
            }
            "from there # - # = # climb up, and #^# is the largest power of two not above #" => {
                let up = word - asked.wanted();
                let power = 1 << x[4];
                x == [word, asked.wanted(), up, 2, x[4], up] && power <= up && up < 2 * power
            }
            "so go on from entry #, # - #^# = # climb still missing" => {
                let missing = asked.depth(word) - asked.wanted();
                x[0] == word && x[2] == 2 && x[1] - (1 << x[3]) == missing && x[4] == missing
            }
            "so read LADDERS at # less #" => {
                self.next == Some(Place::Ladders((x[0] - x[1]) as u32)) && x[0] == word
            }
            _ => return None,
        })
    }

    /// The same of the questions of two entries.
    fn of_pair(&self, asked: &Asked) -> Option<bool> {
        let (x, word, a, b) = (&self.x[..], self.word, asked.a, asked.b);
        let (first, end) = (asked.below(a).start, asked.below(a).end);
        Some(match self.form.as_str() {
            "entry # and all below it start at position #" => x == [a, first] && word == first,
            "so they have positions # to #" => x == [first, end - 1],
            "among them, so entry # is at or above entry #" => x == [a, b] && asked.is_above(),
            "not among them, so entry # is not at or above entry #"
            | "not among them, so entry # is not above entry #" => {
                x == [a, b] && !asked.is_above()
            }
            "among them, so entry # is above entry #: go on" => {
                x == [a, b] && asked.is_above() && a != b
            }
            "entry # is not above itself" => x == [a] && a == b,
            "so the child is the class of entry # at depth #, which is looked up from cell # on" => {
                x == [b, asked.wanted(), 0] && word + 1 == x[1]
            }
            _ => return None,
        })
    }
}

/// How many forms of sentences there are on prepared tables.
const FORMS: usize = 28;

#[test]
fn every_sentence_is_true() {
    let mut seed = 33;
    let mut forms = BTreeSet::new();
    for k in 0..210usize {
        let n = 1 + below(&mut seed, if k % 4 == 0 { 2000 } else { 60 }) as usize;
        let table = &Table::prepare(&tree(k, n, &mut seed, k % 3 > 0)).unwrap();
        for i in 0..420 {
            let question = Question::ALL[i % 7];
            let a = below(&mut seed, n + 1);
            let b = match i % 10 {
                0 => a,
                1 | 2 => below(&mut seed, 5),
                _ => below(&mut seed, n + 1),
            };
            let asked = Asked::explained(table, question, a, b);
            let lines = &asked.told.lines;
            for (at, line) in lines.iter().enumerate() {
                let sentence = Sentence::of(line, lines.get(at + 1));
                let holds = sentence
                    .of_entry(&asked)
                    .or_else(|| sentence.of_group(&asked))
                    .or_else(|| sentence.of_jump(&asked))
                    .or_else(|| sentence.of_pair(&asked));
                assert_eq!(holds, Some(true), "{question:?} {a} {b}: {line:?}");
                forms.insert(sentence.form);
            }
        }
    }
    assert_eq!(forms.len(), FORMS, "{forms:#?}");
}
