//! What each command does.

/// Name, arguments, one line, and more.
pub const COMMANDS: [(&str, &str, &str, &str); 16] = [
    (
        "prepare",
        "LIST TABLE",
        "prepare the table of a list",
        "LIST is a text: the parent of entry 0, 1, .. on a line each, with - for the top;
or `entry,parent` lines in any order, where the first line may be a heading.
TABLE is written whole or not at all.",
    ),
    (
        "class",
        "TABLE ENTRY DEPTH [--cells]",
        "the class of an entry at a depth",
        "The class is the entry's ancestor at that depth; the top has depth 0.
With --cells a second line lists the cells of the table that were read.",
    ),
    (
        "climb",
        "TABLE ENTRY COUNT [--cells]",
        "the entry so many climbs above another",
        "With --cells a second line lists the cells of the table that were read.",
    ),
    (
        "above",
        "TABLE UPPER LOWER [--cells]",
        "whether an entry is at or above another: yes or no",
        "With --cells a second line lists the cells of the table that were read.",
    ),
    (
        "branch",
        "TABLE UPPER LOWER [--cells]",
        "the child of an entry on the way to another",
        "With --cells a second line lists the cells of the table that were read.",
    ),
    (
        "shared",
        "TABLE ENTRY ENTRY",
        "the deepest class that holds two entries, and the climbs between them",
        "Prints `class,climbs`: the first entry on both climbs to the top, and how many climbs
lead from the one entry to it and from the other. An entry is on its own climb: two
equal entries share themselves, and an entry above the other is the class.
It lists no cells: the metering clause does not cover it.",
    ),
    (
        "explain",
        "TABLE [QUESTION] ENTRY DEPTH",
        "a lookup told cell by cell, with what follows from each",
        "QUESTION and its numbers are `class ENTRY DEPTH`, where `class` may be left out,
`climb ENTRY COUNT`, `rating ENTRY LEVEL`, `above UPPER LOWER`, `branch UPPER LOWER`,
`shared ENTRY ENTRY` or `distance ENTRY ENTRY`, as in `batch`.
A line for each cell, in the order read: the cell's number, its section and the entry,
place, group or jump entry there, the word that it holds, and what follows from it. An
entry's jump entry is the first at or below it. Then the result, or the refusal with its
number and what it names, and how many cells were read. A refusal is told like any other
answer, with status 0. The cells of `premium` and `quote` are those of `rating`; shared
and distance list none.
Where the paper has groups of up to 5, groups have up to 7 entries since request 2026-08:
cell 0 is 1073741824 plus the number of entries, there are 197 shapes, numbered in the
same order, and a jump entry has size 8 or more. So cells listed before may differ. A
rating of an entry that is less deep is the entry, and not 8, since request 2026-04.",
    ),
    (
        "batch",
        "TABLE < QUESTIONS > ANSWERS",
        "answer a stream of questions",
        "A question is a line: `entry,depth` for a class, or one of `class,entry,depth`,
`climb,entry,count`, `rating,entry,level`, `above,upper,lower`, `branch,upper,lower`,
`shared,entry,entry`, `distance,entry,entry`.
A class is as `class` gives it; a rating is the class at that level, or the entry
itself where it is less deep; shared and distance are the two results of `shared`.
Each answer is the question with `,refusal,result,cells` behind it: refusal is 0 if
there is a result, else the result is -; cells is how many cells were read: shared and
distance list none, and have 0.
A line of another form ends the stream, after the answers to the lines before it.",
    ),
    (
        "pricelist",
        "TABLE LEVEL..",
        "the class of each entry at each rating level, as CSV",
        "A row for each entry: its number, then its class at each level, which is the entry
itself where it is less deep than the level.",
    ),
    (
        "changes",
        "OLD NEW LEVEL..",
        "where the price lists of two tables differ, as CSV",
        "A row `entry,level,old,new`, without a heading, for each entry and level at which the
classes of `pricelist` differ, in increasing entry and level, each level once; - for an
entry that is not in that table. Entries go by their number.
A line on standard error counts the entries in both tables, those added and gone, which
have a row at each level, and at each level the entries in both whose class differs.
Equal tables give no row, and the line says so.",
    ),
    (
        "premium",
        "TABLE RATES ENTRY LEVEL SUM [--cells]",
        "the premium of a sum insured, in cents",
        "RATES is a text: the rate of entry 0, 1, .. on a line each, from 0 to 1000000 per
million. SUM is a whole number from -2000000000 to 2000000000; a sum that takes cover
off is negative. Prints `class,cents`: the class of the entry at that rating level, or
the entry itself where it is less deep, and SUM times its rate divided by 10000, to the
nearest cent, a half going away from zero.
Refused are, in this order: what the lookup refuses (a number that is no entry, 7, or a
damaged or older table, 9), a class whose rate is over its limit or past the end of RATES (11), a
sum outside its range (12).
With --cells a second line lists the cells of the table that were read.",
    ),
    (
        "premiums",
        "TABLE RATES LEVEL < SUMS > PREMIUMS",
        "the premiums of a stream of sums at a rating level",
        "RATES is as for `premium`. A line is `entry,sum`. Each answer is
`entry,sum,refusal,class,cents,cells`: refusal is 0 if there is a premium, else class
and cents are -; cells is how many cells were read.
A line of another form ends the stream, after the answers to the lines before it.",
    ),
    (
        "sheet",
        "TABLE SHEET LEVEL",
        "check a sheet of bands for a rating level",
        "SHEET is a text of up to 4096 lines `class,from,to,rate` in any order, each ended by a
line feed, in digits alone: a class, a band of amounts from 0 to 2000000000, ends
included, and its rate from 0 to 1000000 per million. Each entry of depth LEVEL or less
is a class, the top too, and must have every amount in one band only.
Prints `0,lines` for a good sheet, else the first fault, and says on standard error
how to mend it: `13,line` for the first bad line; `14,class,amount` for the lowest
class at fault and its lowest faulty amount where no band holds it, and
`15,class,amount` where more than one does.",
    ),
    (
        "quote",
        "TABLE SHEET LEVEL ENTRY SUM [--cells]",
        "the premium of a sum insured by a sheet, in cents",
        "SHEET is as for `sheet`, and SUM as for `premium`; the band is that of the size of SUM
without its sign. Prints `class,cents`; the class is as for `premium`. Refused are, in
this order: what the lookup refuses (7, 9), what `sheet` refuses (13, 14, 15), a sum
outside its range (12).
With --cells a second line lists the cells of the table that were read.",
    ),
    (
        "quotes",
        "TABLE SHEET LEVEL < SUMS > PREMIUMS",
        "the premiums of a stream of sums by a sheet",
        "SHEET is as for `sheet`: it is checked once, and a refused sheet answers no line.
Lines and answers are those of `premiums`.",
    ),
    (
        "check",
        "TABLE LIST",
        "prepare a list again and compare",
        "Says whether TABLE is the table of LIST, word for word.",
    ),
];

/// The help of a command, or of all.
pub fn of(command: &str) -> String {
    if let Some((name, args, line, more)) = COMMANDS.iter().find(|c| c.0 == command) {
        return format!(
            "tantsheko {name} {args}\n\n{}{}.\n{more}\n",
            line[..1].to_uppercase(),
            &line[1..]
        );
    }
    let mut text = String::from("tantsheko COMMAND ..\n\n");
    for (name, args, line, _) in COMMANDS {
        text.push_str(&format!("  {:47} {line}\n", format!("{name} {args}")));
    }
    text.push_str("\n`tantsheko COMMAND --help` says more. Status: 0 done, 1 refused or a fault, 2 a wrong call.\n");
    text
}
