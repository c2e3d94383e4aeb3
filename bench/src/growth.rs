//! The growth of a call with the rows as a line plot in SVG, a panel for each length of keys.

use crate::orders::{Growth, Times, MOST};
use crate::plot::{stroke, text, END, MIDDLE, SMALL, TITLE};

const WIDTH: f64 = 960.0;
const HEIGHT: f64 = 444.0;
const TOP: f64 = 92.0;
const BOTTOM: f64 = 372.0;
const PANEL: f64 = 400.0;
const LEFTS: [f64; 2] = [64.0, 536.0];

/// A line of the plot: its name, its colour, and its time.
type Line = (&'static str, &'static str, fn(&Times) -> f64);

const LINES: [Line; 3] = [
    ("plain pass over the table", "#8a8a8a", |times| times.floor),
    ("plain engine", "#d9730d", |times| times.plain),
    ("rows in key order", "#1f5fa8", |times| times.ordered),
];

pub fn plot(growth: &[Growth], made: &str) -> String {
    let panels: String = growth.iter().zip(LEFTS).map(|(growth, left)| panel(growth, left)).collect();
    let title = text(16.0, 24.0, TITLE, "A Get on a full table: time of a call by the number of rows");
    let legend: String = LINES
        .iter()
        .zip([16.0, 220.0, 350.0])
        .map(|((name, colour, _), x)| {
            stroke((x, 50.0), (x + 22.0, 50.0), colour, 2.5) + &text(x + 28.0, 50.0, "", name)
        })
        .collect();
    let made = text(16.0, HEIGHT - 14.0, SMALL, made);
    format!(
        r##"<svg xmlns="http://www.w3.org/2000/svg" viewBox="0 0 {WIDTH} {HEIGHT}" width="{WIDTH}" height="{HEIGHT}" font-family="sans-serif" font-size="12" fill="#222222">
<rect width="{WIDTH}" height="{HEIGHT}" fill="#ffffff"/>
{title}{legend}{panels}{made}</svg>
"##
    )
}

/// Microseconds over rows, both from 0 on.
fn panel(Growth { length, by_rows }: &Growth, left: f64) -> String {
    let times = by_rows.iter().flat_map(|(_, times)| LINES.map(|(_, _, of)| of(times)));
    let most = (times.fold(1_000.0, f64::max) / 1_000.0).ceil();
    let x = |rows: usize| left + PANEL * rows as f64 / MOST as f64;
    let y = |ns: f64| BOTTOM - (BOTTOM - TOP) * ns / 1_000.0 / most;
    let mut drawn = text(left, TOP - 18.0, "", &format!("keys of {length} bytes"));
    let step = (most / 8.0).ceil() as usize;
    for microseconds in (0..=most as usize).step_by(step) {
        let height = y(1_000.0 * microseconds as f64);
        drawn += &stroke((left, height), (left + PANEL, height), "#dddddd", 1.0);
        drawn += &text(left - 8.0, height, END, &format!("{microseconds} µs"));
    }
    for rows in [1, 32, 64, 128, 192, 256] {
        drawn += &text(x(rows), BOTTOM + 18.0, MIDDLE, &rows.to_string());
    }
    drawn += &text(left + PANEL / 2.0, BOTTOM + 36.0, MIDDLE, "rows");
    for (_, colour, of) in LINES {
        for pair in by_rows.windows(2) {
            let [one, two] = [&pair[0], &pair[1]].map(|(rows, times)| (x(*rows), y(of(times))));
            drawn += &stroke(one, two, colour, 2.5);
        }
        for (rows, times) in by_rows {
            drawn +=
                &format!("<circle cx=\"{:.1}\" cy=\"{:.1}\" r=\"3\" fill=\"{colour}\"/>\n", x(*rows), y(of(times)));
        }
    }
    drawn
}
