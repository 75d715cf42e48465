//! The ratios as a picture: preparing and the level lookup, a bar for each tree.

use crate::work::Row;

const WIDTH: usize = 900;
const BAND: usize = 220;
const LEFT: f64 = 60.0;
const MOST: f64 = 2.0;

/// A band of bars under a title, with a line at ratio 1.
fn band(rows: &[Row], title: &str, top: f64, ratio: impl Fn(&Row) -> f64) -> String {
    let height = 150.0;
    let base = top + 30.0 + height;
    let wide = (WIDTH as f64 - LEFT - 20.0) / rows.len() as f64;
    let y = |r: f64| base - height * r.min(MOST) / MOST;
    let mut text = format!(
        "<text x=\"{LEFT}\" y=\"{:.0}\" font-size=\"14\">{title}</text>\n",
        top + 18.0
    );
    for r in [0.0, 0.5, 1.0, 1.5, 2.0] {
        let colour = if r == 1.0 { "#c00" } else { "#ddd" };
        text.push_str(&format!(
            "<line x1=\"{LEFT}\" x2=\"{0}\" y1=\"{1:.1}\" y2=\"{1:.1}\" stroke=\"{colour}\"/><text x=\"{2}\" y=\"{3:.1}\" text-anchor=\"end\">{r}</text>\n",
            WIDTH - 20,
            y(r),
            LEFT - 6.0,
            y(r) + 4.0
        ));
    }
    for (i, row) in rows.iter().enumerate() {
        let r = ratio(row);
        text.push_str(&format!(
            "<rect x=\"{:.1}\" y=\"{:.1}\" width=\"{:.1}\" height=\"{:.1}\" fill=\"#47a\"><title>{} {}: {r:.2}</title></rect>\n",
            LEFT + wide * i as f64 + 1.5,
            y(r),
            wide - 3.0,
            base - y(r),
            row.n,
            row.kind
        ));
    }
    let sizes: Vec<usize> = rows.iter().map(|r| r.n).collect();
    for (i, n) in sizes.iter().enumerate() {
        if i == 0 || sizes[i - 1] != *n {
            let x = LEFT + wide * i as f64;
            text.push_str(&format!(
                "<text x=\"{x:.0}\" y=\"{:.0}\">{n} entries</text>\n",
                base + 16.0
            ));
        }
    }
    text
}

pub fn plot(rows: &[Row]) -> String {
    let first = band(rows, "Preparing: proved / by hand", 0.0, |r| {
        r.prepare[0] / r.prepare[1]
    });
    let second = band(
        rows,
        "Level lookup with cells: proved / by hand",
        BAND as f64,
        |r| r.questions[0][0] / r.questions[0][1],
    );
    format!(
        "<svg xmlns=\"http://www.w3.org/2000/svg\" viewBox=\"0 0 {WIDTH} {}\" font-family=\"sans-serif\" font-size=\"11\">\n<rect width=\"100%\" height=\"100%\" fill=\"white\"/>\n{first}{second}</svg>\n",
        2 * BAND
    )
}
