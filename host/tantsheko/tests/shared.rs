//! The class that two entries share and the climbs between them: beside two plain climbs and the same search by hand, and
//! as a user of the command asks for them.

mod beside;
mod folder;

use beside::{same_answer as same, TOP};
use folder::Folder;
use reference::trees::{self, below, make as tree, next};
use tantsheko::{Refusal, Table};

fn climb(parents: &[u32], v: u32) -> Vec<u32> {
    let mut climb = vec![v];
    while parents[*climb.last().unwrap() as usize] != TOP {
        climb.push(parents[*climb.last().unwrap() as usize]);
    }
    climb
}

/// The first entry on both climbs, and the climbs to it from each; or the first argument that is no entry.
fn climbed(parents: &[u32], u: u32, v: u32) -> Result<(u32, u32), Refusal> {
    if let Some(&other) = [u, v].iter().find(|&&x| x as usize >= parents.len()) {
        return Err(Refusal::Unknown(other));
    }
    let (first, second) = (climb(parents, u), climb(parents, v));
    let place = |climb: &[u32], w: u32| climb.iter().position(|&x| x == w);
    let met = first.iter().find(|&&w| place(&second, w).is_some());
    let class = *met.expect("the top is on both climbs");
    let climbs = place(&first, class).unwrap() + place(&second, class).unwrap();
    Ok((class, climbs as u32))
}

/// Both questions of two entries: against the climbs, by hand, and without cells.
fn asked(table: &Table, parents: &[u32], u: u32, v: u32) {
    let (class, climbs) = (table.nearest_common_ancestor(u, v), table.distance(u, v));
    let both = climbed(parents, u, v);
    assert_eq!(class.result(), both.map(|r| r.0), "{u} {v}");
    assert_eq!(climbs.result(), both.map(|r| r.1), "{u} {v}");
    same(
        class,
        reference::nearest_common_ancestor(table.words(), u, v),
    );
    same(climbs, reference::distance(table.words(), u, v));
}

#[test]
fn every_pair_of_small_trees() {
    let mut seed = 21;
    for k in 0..700usize {
        let n = 1 + k / 20;
        let parents = tree(k, n, &mut seed, true);
        let table = Table::prepare(&parents).unwrap();
        for u in 0..=n as u32 {
            for v in 0..=n as u32 {
                asked(&table, &parents, u, v);
            }
        }
        asked(&table, &parents, 0, u32::MAX);
        asked(&table, &parents, u32::MAX, n as u32);
    }
}

#[test]
fn pairs_of_larger_trees() {
    let mut seed = 22;
    for k in 0..280usize {
        let n = 1 + below(&mut seed, 4000) as usize;
        let parents = tree(k, n, &mut seed, k % 3 > 0);
        let table = Table::prepare(&parents).unwrap();
        for _ in 0..100 {
            let u = below(&mut seed, n);
            asked(&table, &parents, u, below(&mut seed, n));
            // An entry near it, a few climbs up and down.
            let up = climb(&parents, u);
            let w = up[below(&mut seed, up.len().min(9)) as usize];
            asked(&table, &parents, u, w);
            asked(
                &table,
                &parents,
                u,
                (w + below(&mut seed, 9)).min(n as u32 - 1),
            );
        }
    }
}

/// Two chains from the top, where every try is too low; and two short ones below a long stem, where the search takes its most
/// tries, as all but the first three are too high.
#[test]
fn the_largest_forks() {
    let n = 1 << 20;
    let mut seed = 23;
    for stem in [1, 500_000, n - 44] {
        let table = Table::prepare(&trees::fork(stem, n)).unwrap();
        let depth = |v: u32| table.words()[4 + v as usize];
        let stem = stem as u32;
        for k in 0..20_000 {
            let (u, v) = match k {
                0 => (n as u32 - 1, n as u32 - 2),
                _ => (below(&mut seed, n), below(&mut seed, n)),
            };
            let branches = u >= stem && v >= stem && u % 2 != v % 2;
            let class = if branches { stem - 1 } else { u.min(v) };
            let climbs = depth(u) + depth(v) - 2 * depth(class);
            assert_eq!(table.nearest_common_ancestor(u, v).result(), Ok(class));
            assert_eq!(table.distance(u, v).result(), Ok(climbs));
        }
    }
}

#[test]
fn damaged_tables() {
    let mut seed = 24;
    for k in 0..200usize {
        let n = 1 + below(&mut seed, 60) as usize;
        let parents = tree(k, n, &mut seed, true);
        let words = Table::prepare(&parents).unwrap().words().to_vec();
        for _ in 0..60 {
            let mut bad = words.clone();
            for _ in 0..1 + below(&mut seed, 3) {
                let cell = below(&mut seed, bad.len()) as usize;
                bad[cell] = match below(&mut seed, 4) {
                    0 => bad[cell].wrapping_add(1),
                    1 => bad[below(&mut seed, bad.len()) as usize],
                    2 => TOP,
                    _ => next(&mut seed) as u32,
                };
            }
            refuses_first(Table::from_words(bad), &mut seed);
        }
        for length in [0, 1, 3, 4, words.len() - 1] {
            refuses_first(Table::from_words(words[..length].to_vec()), &mut seed);
        }
    }
}

/// On a table of any contents: both answers by hand, word for word; 9 and 7 as ancestry gives them, else 0 within a bound, or 9.
fn refuses_first(table: Table, seed: &mut u64) {
    let n = table.entries();
    for _ in 0..20 {
        let v = below(seed, n as usize % 100 + 2);
        let u = below(seed, n as usize % 100 + 2);
        let first = table.ancestry(u, v).result();
        let class = table.nearest_common_ancestor(u, v);
        let climbs = table.distance(u, v);
        same(
            class,
            reference::nearest_common_ancestor(table.words(), u, v),
        );
        same(climbs, reference::distance(table.words(), u, v));
        for (answer, bound) in [(class, u64::from(n)), (climbs, 2 * u64::from(n))] {
            assert!(answer.cells().is_empty() && answer.places() == &[0; 15]);
            match (first, answer.result()) {
                (Err(refusal), given) => assert_eq!(given, Err(refusal)),
                (Ok(_), Err(refusal)) => assert_eq!(refusal, Refusal::Broken),
                (Ok(_), Ok(word)) => assert!(u64::from(word) < bound),
            }
        }
    }
}

const FARM: &str = "-\n0\n0\n1\n1\n3\n";

#[test]
fn the_command() {
    let f = Folder::new("shared");
    f.file("list", FARM);
    f.ok(&["prepare", "list", "table"], "");
    for (u, v, out) in [
        ("5", "4", "1,3\n"),
        ("4", "5", "1,3\n"),
        ("5", "2", "0,4\n"),
        ("5", "5", "5,0\n"),
        ("1", "5", "1,2\n"),
        ("5", "1", "1,2\n"),
        ("0", "0", "0,0\n"),
    ] {
        assert_eq!(f.ok(&["shared", "table", u, v], ""), out, "{u} {v}");
    }
    let unknown = "6 is not an entry: the table has entries 0 to 5";
    f.fails(&["shared", "table", "6", "9"], 1, unknown);
    f.fails(&["shared", "table", "5", "6"], 1, unknown);
    let about = "; see `tantsheko shared --help`";
    for (args, text) in [
        (
            vec!["shared", "table", "5"],
            "shared takes TABLE ENTRY ENTRY",
        ),
        (
            vec!["shared", "table", "5", "4", "3"],
            "shared takes TABLE ENTRY ENTRY",
        ),
        (
            vec!["shared", "table", "5", "x"],
            "ENTRY is a whole number from 0 to 4294967295, and not `x`",
        ),
        (
            vec!["shared", "table", "5", "4", "--cells"],
            "shared has no option `--cells`",
        ),
    ] {
        f.fails(&args, 2, &format!("{text}{about}"));
    }
    assert!(f.ok(&["shared", "--help"], "").contains("`class,climbs`"));
}

#[test]
fn in_a_stream() {
    let f = Folder::new("shared-batch");
    f.file("list", FARM);
    f.ok(&["prepare", "list", "table"], "");
    let questions =
        "shared,5,4\ndistance,5,4\nshared,5,5\ndistance,5,5\nshared,9,6\ndistance,5,6\n";
    let answers = "shared,5,4,0,1,0\ndistance,5,4,0,3,0\nshared,5,5,0,5,0\ndistance,5,5,0,0,0\nshared,9,6,7,-,0\ndistance,5,6,7,-,0\n";
    assert_eq!(f.ok(&["batch", "table"], questions), answers);
}
