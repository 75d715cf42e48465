//! What was measured, as lines and as a page.

use crate::pairs;
use crate::work::{median, Row, QUESTIONS};

fn ratio(pair: [f64; 2]) -> f64 {
    pair[0] / pair[1]
}

/// A tree's line on the terminal.
pub fn line(row: &Row) -> String {
    let q: Vec<String> = QUESTIONS
        .iter()
        .zip(row.questions)
        .map(|(name, t)| format!("{name} {:.0} ({:.2})", t[0], ratio(t)))
        .collect();
    format!(
        "{:7} {:12} prepare {:5.1} ({:.2})  check {:.0} ({:.2})  {}  plain climb {:.0}, lifting {:.0}",
        row.n,
        row.kind,
        row.prepare[0],
        ratio(row.prepare),
        row.check[0],
        ratio(row.check),
        q.join("  "),
        row.climb,
        row.lifting
    )
}

/// The medians of all ratios, and the greatest of them by kind.
pub fn summary(rows: &[Row]) -> String {
    let all = |f: &dyn Fn(&Row) -> f64| rows.iter().map(f).collect::<Vec<f64>>();
    let mut text = format!(
        "Preparing: median ratio {:.2}. Checking a sheet: {:.2}.",
        median(all(&|r| ratio(r.prepare))),
        median(all(&|r| ratio(r.check)))
    );
    for (q, name) in QUESTIONS.iter().enumerate() {
        text.push_str(&format!(
            " {}{}: {:.2}.",
            name[..1].to_uppercase(),
            &name[1..],
            median(all(&|r| ratio(r.questions[q])))
        ));
    }
    let mut kinds: Vec<&str> = rows.iter().map(|r| r.kind).collect();
    kinds.dedup();
    kinds.truncate(7);
    let by_kind = |kind: &str| {
        let own = rows.iter().filter(|r| r.kind == kind);
        median(own.map(|r| ratio(r.questions[0])).collect())
    };
    let listed: Vec<String> = kinds
        .iter()
        .map(|k| format!("{k} {:.2}", by_kind(k)))
        .collect();
    text.push_str(&format!(
        " Level lookup, median by kind: {}.",
        listed.join(", ")
    ));
    let again = all(&|r| r.again / r.questions[0][1]);
    let (least, most) = again.iter().fold((f64::MAX, 0.0), |(a, b), &x| {
        (f64::min(a, x), f64::max(b, x))
    });
    text.push_str(&format!(
        " Written by hand once more: {:.2} times that by hand at the median, {least:.2} to {most:.2}.",
        median(again)
    ));
    text
}

/// Proved, by hand, and the ratio.
fn told([a, b]: [f64; 2]) -> String {
    format!("{a:.1} / {b:.1} = {:.2}", a / b)
}

/// Which pairs of a tree were asked.
fn which(row: &pairs::Row) -> &'static str {
    if row.near {
        "near"
    } else {
        "any"
    }
}

/// A line on the terminal of questions about two entries.
pub fn pair_line(row: &pairs::Row) -> String {
    format!(
        "{:7} {:12} pairs {:4}  nearest common ancestor {:.0} ({:.2})  distance {:.0} ({:.2})  plain climb {:.0}",
        row.n,
        row.kind,
        which(row),
        row.nearest[0],
        ratio(row.nearest),
        row.distance[0],
        ratio(row.distance),
        row.climb
    )
}

/// The medians of the ratios of questions about two entries, and the greatest.
pub fn pair_summary(rows: &[pairs::Row]) -> String {
    let named = |name: &str, of: &dyn Fn(&pairs::Row) -> [f64; 2]| {
        let all: Vec<f64> = rows.iter().map(|r| ratio(of(r))).collect();
        let most = all.iter().copied().fold(0.0, f64::max);
        format!(
            "{name}: median ratio {:.2}, {most:.2} at the most.",
            median(all)
        )
    };
    format!(
        "{} {}",
        named("Nearest common ancestor", &|r| r.nearest),
        named("Distance", &|r| r.distance)
    )
}

fn pair_table(rows: &[pairs::Row]) -> String {
    let mut text = String::from(
        "| entries | kind | pairs | nearest common ancestor | distance | plain climb |\n|---:|---|---|---:|---:|---:|\n",
    );
    for r in rows {
        text.push_str(&format!(
            "| {} | {} | {} | {} | {} | {:.0} |\n",
            r.n,
            r.kind,
            which(r),
            told(r.nearest),
            told(r.distance),
            r.climb
        ));
    }
    text
}

/// A line of a file of the system's that starts with a name.
fn system(path: &str, name: &str) -> Option<String> {
    let text = std::fs::read_to_string(path).ok()?;
    let line = text.lines().find(|l| l.starts_with(name))?;
    Some(line.split_once(':')?.1.trim().to_string())
}

fn machine() -> String {
    let cores = std::thread::available_parallelism().map_or(0, |c| c.get());
    let model = system("/proc/cpuinfo", "model name").unwrap_or_else(|| "unknown processor".into());
    let memory = system("/proc/meminfo", "MemTotal").unwrap_or_else(|| "unknown".into());
    format!("{model}, {cores} cores in use, memory {memory}")
}

/// A work of which a tree has one.
fn work_table(rows: &[Row], times: impl Fn(&Row) -> [f64; 2]) -> String {
    let mut text =
        String::from("| entries | kind | proved | by hand | ratio |\n|---:|---|---:|---:|---:|\n");
    for r in rows {
        let [a, b] = times(r);
        text.push_str(&format!(
            "| {} | {} | {a:.1} | {b:.1} | {:.2} |\n",
            r.n,
            r.kind,
            a / b
        ));
    }
    text
}

fn question_table(rows: &[Row]) -> String {
    let heads = QUESTIONS.join(" | ");
    let mut text = format!(
        "| entries | kind | {heads} | level by hand once more | plain climb | binary lifting |\n|---:|---|{}---:|---:|---:|\n",
        "---:|".repeat(QUESTIONS.len())
    );
    for r in rows {
        let cells: Vec<String> = r.questions.iter().map(|&times| told(times)).collect();
        text.push_str(&format!(
            "| {} | {} | {} | {:.1} | {:.0} | {:.1} |\n",
            r.n,
            r.kind,
            cells.join(" | "),
            r.again,
            r.climb,
            r.lifting
        ));
    }
    text
}

/// The whole page.
pub fn page(rows: &[Row], pairs: &[pairs::Row]) -> String {
    format!(
        "# Benchmark

Written by the benchmark itself (`host/run bench`). Every figure is a median of runs that take turns in one process:
the proved code through its C interface, and the same work by hand in Rust (`host/reference`), cell list included. Trees
have their numbers permuted. Preparing is in nanoseconds an entry, a question in nanoseconds. The level lookup is asked at
depths up to the entry's; rating and premium at the depth of any entry, the premium with a rate for each entry and sums of both
signs. A sheet with bands has 4,096 lines in any order, for the deepest level of at most 512 classes; its check is in
microseconds, and a quotation of any entry is asked from the checked sheet. The level lookup by hand is written twice, apart from
each other (`questions`, `steps`), so that neither is slow by the way it is written. A plain climb and binary lifting answer the level
lookup only, and list no cells. The nearest common ancestor and the distance are asked of any two entries, and of two that
are at most eight places apart in the preorder; by hand they are the same search with step 1 once and no cell noted. The plain
climb from both goes by the list and the depths. A fork is two chains from the top.

Machine: {}.

{} {}

![Ratios of the proved code to the same work by hand](benchmark.svg)

## Preparing, ns an entry

{}
## Checking a sheet with bands, microseconds a sheet

{}
## Questions, ns: proved / by hand = ratio

{}
## Questions about two entries, ns: proved / by hand = ratio

{}
{}",
        machine(),
        summary(rows),
        pair_summary(pairs),
        work_table(rows, |r| r.prepare),
        work_table(rows, |r| r.check),
        question_table(rows),
        pair_table(pairs),
        include_str!("choices.md")
    )
}
