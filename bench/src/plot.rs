//! Times as dot plots in SVG: a line for each case, time on a logarithmic axis.

use crate::cases::{Case, Fill, Table};
use crate::orders;
use crate::race::Times;
use crate::runs;

const WIDTH: f64 = 960.0;
const MARGIN: f64 = 16.0;
/// The axis, from its first decade to its last.
const LEFT: f64 = 236.0;
const RIGHT: f64 = 880.0;
const TOP: f64 = 96.0;
const LINE: f64 = 18.0;
const HEADING: f64 = 30.0;

/// A line of a plot: its case in words, its marks, the last two of which are joined, and the ratio at its end.
struct Line {
    heading: String,
    name: &'static str,
    note: String,
    marks: Vec<(Mark, f64)>,
    ratio: f64,
}

#[derive(Clone, Copy)]
enum Mark {
    Floor,
    /// The library in another way: a call for each frame, or by the plain engine.
    Otherwise,
    Rendering,
    Library,
}

impl Mark {
    fn draw(self, x: f64, y: f64) -> String {
        match self {
            Mark::Floor => stroke((x, y - 5.0), (x, y + 5.0), "#8a8a8a", 3.0),
            Mark::Otherwise => diamond(x, y),
            Mark::Rendering => circle(x, y, r##"fill="#ffffff" stroke="#d9730d" stroke-width="2""##),
            Mark::Library => circle(x, y, r##"fill="#1f5fa8""##),
        }
    }
}

/// A mark's name, where the legend has it.
type Named = (f64, Mark, &'static str);

/// Serving one request, and last on the keys that the plain engine's damage test takes longest for: they share a fingerprint.
pub fn serving(cases: &[(Case, Times)], sharing: &[(orders::Case, orders::Times)], made: &str) -> String {
    let line = |(case, times): &(Case, Times)| Line {
        heading: heading(&case.table),
        name: case.request.name(),
        note: format!("key {}", case.key_told()),
        marks: vec![(Mark::Floor, times.floor), (Mark::Rendering, times.rendering), (Mark::Library, times.library)],
        ratio: times.over_rendering(),
    };
    let worst = |(case, times): &(orders::Case, orders::Times)| Line {
        heading: format!("{} rows, full, keys {}", orders::MOST, case.keys.name()),
        name: case.what.name(),
        note: format!("key {}", case.length),
        marks: vec![
            (Mark::Floor, times.floor),
            (Mark::Otherwise, times.plain),
            (Mark::Rendering, times.rendering),
            (Mark::Library, times.ordered),
        ],
        ratio: times.ordered / times.rendering,
    };
    let legend = [
        (24.0, Mark::Floor, "plain pass over the table"),
        (206.0, Mark::Rendering, "Rust rendering"),
        (318.0, Mark::Library, "library"),
        (386.0, Mark::Otherwise, "its plain engine, where keys share a fingerprint"),
    ];
    let lines: Vec<Line> = cases.iter().map(line).chain(sharing.iter().map(worst)).collect();
    plot("Serving one request: time of a call, logarithmic", "library / rendering", &legend, &lines, made)
}

/// Serving a run.
pub fn runs(cases: &[(runs::Case, runs::Times)], made: &str) -> String {
    let line = |(case, times): &(runs::Case, runs::Times)| Line {
        heading: match case.key() {
            Some(key) => format!("{}, {} rows, keys of {key}", case.what.name(), case.rows),
            None => format!("{}, {} rows", case.what.name(), case.rows),
        },
        name: match case.frames {
            1 => "by itself",
            _ => "in a run",
        },
        note: format!("of {}", case.frames),
        marks: vec![
            (Mark::Floor, times.floor),
            (Mark::Otherwise, times.one_by_one),
            (Mark::Rendering, times.rendering),
            (Mark::Library, times.run),
        ],
        ratio: times.over_rendering(),
    };
    let legend = [
        (24.0, Mark::Floor, "share of a plain pass"),
        (190.0, Mark::Otherwise, "library, a call for each frame"),
        (400.0, Mark::Rendering, "Rust rendering, as a run"),
        (580.0, Mark::Library, "library, as a run"),
    ];
    let lines: Vec<Line> = cases.iter().map(line).collect();
    plot("Serving a run: time of a frame, logarithmic", "run / rendering", &legend, &lines, made)
}

fn plot(title: &str, ratio: &str, named: &[Named], lines: &[Line], made: &str) -> String {
    let axis = Axis::of(lines);
    let mut drawn = String::new();
    let mut y = TOP;
    for group in lines.chunk_by(|a, b| a.heading == b.heading) {
        y += HEADING;
        drawn += &text(MARGIN, y - 12.0, BOLD, &group[0].heading);
        for line in group {
            y += LINE;
            drawn += &draw(&axis, y - 6.0, line);
        }
    }
    let height = y + 64.0;
    let (title, legend, grid) = (text(MARGIN, 24.0, TITLE, title), legend(named, ratio), axis.grid(y + 8.0));
    let made = text(MARGIN, height - 16.0, SMALL, made);
    format!(
        r##"<svg xmlns="http://www.w3.org/2000/svg" viewBox="0 0 {WIDTH} {height}" width="{WIDTH}" height="{height}" font-family="sans-serif" font-size="12" fill="#222222">
<rect width="{WIDTH}" height="{height}" fill="#ffffff"/>
{title}{legend}{grid}{drawn}{made}</svg>
"##
    )
}

/// Decades of nanoseconds: the first is at most every time but a floor's, the last is above all.
struct Axis {
    first: i32,
    last: i32,
}

impl Axis {
    fn of(lines: &[Line]) -> Axis {
        let times = || lines.iter().flat_map(|line| line.marks.iter().map(|(_, time)| *time));
        let (least, most) = (times().fold(f64::INFINITY, f64::min), times().fold(0.0, f64::max));
        Axis { first: (least.log10().floor() as i32).max(0), last: most.log10().ceil() as i32 }
    }

    fn x(&self, ns: f64) -> f64 {
        let first = f64::from(self.first);
        LEFT + (RIGHT - LEFT) * (ns.log10() - first).max(0.0) / (f64::from(self.last) - first)
    }

    fn grid(&self, bottom: f64) -> String {
        let decade = |decade: i32| {
            let x = self.x(10f64.powi(decade));
            let name = duration(decade);
            let [above, below] = [TOP - 12.0, bottom + 14.0].map(|y| text(x, y, MIDDLE, &name));
            stroke((x, TOP), (x, bottom), "#dddddd", 1.0) + &above + &below
        };
        (self.first..=self.last).map(decade).collect()
    }
}

/// A decade of nanoseconds by its name.
fn duration(decade: i32) -> String {
    let unit = ["ns", "µs", "ms", "s"][decade as usize / 3];
    format!("{} {unit}", 10i32.pow(decade as u32 % 3))
}

fn heading(table: &Table) -> String {
    let rows = if table.rows == 1 { "1 row".to_string() } else { format!("{} rows", table.rows) };
    let fill = match table.fill {
        Fill::Free => "free",
        Fill::Rising => "full",
        Fill::Scattered => "full, keys scattered",
        Fill::LastByte => "full, keys apart by the last byte",
        Fill::FirstByte => "full, keys apart by the first byte",
    };
    format!("{rows}, {fill}")
}

fn legend(named: &[Named], ratio: &str) -> String {
    let y = 52.0;
    let names = named.iter().map(|(x, mark, name)| mark.draw(*x, y) + &text(x + 10.0, y, "", name));
    names.collect::<String>() + &text(WIDTH - MARGIN, y, END, ratio)
}

fn draw(axis: &Axis, y: f64, line: &Line) -> String {
    let joined = line.marks.len() - 2;
    let [from, to] = [joined, joined + 1].map(|at| axis.x(line.marks[at].1));
    let style = if line.ratio > 1.0 { SLOWER } else { END };
    let marks = line.marks.iter().map(|(mark, time)| mark.draw(axis.x(*time), y));
    [
        text(MARGIN + 12.0, y, "", line.name),
        text(LEFT - 12.0, y, END, &line.note),
        stroke((from, y), (to, y), "#999999", 1.5),
        marks.collect(),
        text(WIDTH - MARGIN, y, style, &format!("{:.2}", line.ratio)),
    ]
    .concat()
}

fn circle(x: f64, y: f64, style: &str) -> String {
    format!("<circle cx=\"{x:.1}\" cy=\"{y}\" r=\"4.5\" {style}/>\n")
}

fn diamond(x: f64, y: f64) -> String {
    let corners = [(x - 5.0, y), (x, y - 5.0), (x + 5.0, y), (x, y + 5.0)];
    let points = corners.map(|(x, y)| format!("{x:.1},{y:.1}")).join(" ");
    format!("<polygon points=\"{points}\" fill=\"#8fb4dc\"/>\n")
}

pub fn stroke((x1, y1): (f64, f64), (x2, y2): (f64, f64), colour: &str, width: f64) -> String {
    format!(
        "<line x1=\"{x1:.1}\" y1=\"{y1:.1}\" x2=\"{x2:.1}\" y2=\"{y2:.1}\" stroke=\"{colour}\" stroke-width=\"{width}\"/>\n"
    )
}

pub const TITLE: &str = r#"font-size="17" font-weight="bold""#;
const BOLD: &str = r#"font-weight="bold""#;
pub const SMALL: &str = r##"font-size="11" fill="#666666""##;
pub const MIDDLE: &str = r#"text-anchor="middle""#;
pub const END: &str = r#"text-anchor="end""#;
const SLOWER: &str = r##"text-anchor="end" font-weight="bold" fill="#b00020""##;

/// Text whose middle is at this height.
pub fn text(x: f64, y: f64, style: &str, words: &str) -> String {
    format!("<text x=\"{x:.1}\" y=\"{:.1}\" {style}>{words}</text>\n", y + 4.0)
}
