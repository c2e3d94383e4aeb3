//! The figures in words and as Markdown.

use crate::cases::{Case, Fill, Table};
use crate::goal::Goal;
use crate::race::Times;
use crate::voyages::{ReplayTimes, Voyage};
use crate::{orders, runs};

/// The damage test on 256 free rows is promised to take at most this many plain passes.
const DAMAGE_LIMIT: f64 = 4.0;

pub struct Figures {
    pub serving: Vec<(Case, Times)>,
    pub damage: Vec<(Table, Times)>,
    pub replays: Vec<(Voyage, ReplayTimes)>,
    pub runs: runs::Figures,
    pub orders: orders::Figures,
}

impl Figures {
    pub fn within_limit(&self) -> bool {
        self.damage_in_passes() <= DAMAGE_LIMIT
    }

    /// The damage test's time on 256 free rows.
    fn damage_in_passes(&self) -> f64 {
        let free = self.damage.iter().find(|(table, _)| table.rows == 256 && table.is_free());
        free.map_or(f64::NAN, |(_, times)| times.over_floor())
    }

    pub fn on_serving(&self) -> String {
        let cases = self.serving.len();
        match self.serving.iter().filter(|(_, times)| times.is_slower()).count() {
            0 => format!("The library is at least as fast as the rendering in all {cases} cases."),
            slower => format!("The library is slower than the rendering in {slower} of {cases} cases."),
        }
    }

    pub fn on_damage(&self) -> String {
        let passes = self.damage_in_passes();
        let kept = if self.within_limit() { "kept" } else { "broken" };
        format!(
            "On 256 free rows the damage test takes {passes:.2} plain passes. The limit of {DAMAGE_LIMIT} is {kept}."
        )
    }

    pub fn on_replays(&self) -> String {
        let shares = self.replays.iter().map(|(_, times)| times.over_one_by_one());
        let most = shares.fold(0.0, f64::max);
        format!("In a replay a frame takes at most {most:.2} of the time of its own call.")
    }

    pub fn on_runs(&self) -> String {
        let cases = self.runs.cases.len();
        match self.runs.slower() {
            0 => format!("A run of the library is at least as fast as the rendering's in all {cases} cases."),
            slower => format!("A run of the library is slower than the rendering's in {slower} of {cases} cases."),
        }
    }

    pub fn goals(&self) -> Vec<Goal> {
        self.runs.goals().into_iter().chain(self.orders.goals()).collect()
    }

    pub fn markdown(&self) -> String {
        let serving = self.serving.iter().map(|(case, times)| serving_line(case, times)).collect::<String>();
        let damage = self.damage.iter().map(|(table, times)| damage_line(table, times)).collect::<String>();
        let replays = self.replays.iter().map(|(voyage, times)| replay_line(voyage, times)).collect::<String>();
        format!(
            "### Serving

{}

| Request | Rows | Used | Key, bytes | {TIMES} |
|---|---|---|---|---|---|---|---|---|
{serving}
### The damage test

{}

| Rows | Keys | Floor, GB/s | {TIMES} |
|---|---|---|---|---|---|---|---|
{damage}
### Replays, by the frame

{}

| Keys | Bytes | Frames | Rendering, ns | One by one, ns | Library, ns | Library / rendering | Library / one by one |
|---|---|---|---|---|---|---|---|
{replays}
### Runs, by the frame

{}

{}
{}",
            self.on_serving(),
            self.on_damage(),
            self.on_replays(),
            self.on_runs(),
            on_runs(&self.runs),
            on_orders(&self.orders),
        )
    }
}

/// The goals, and whether they hold.
fn goal_table(goals: Vec<Goal>) -> String {
    let line = |goal: Goal| {
        let holds = if goal.holds { "yes" } else { "**no**" };
        format!("| {} | {} | {holds} |\n", goal.words, goal.measured)
    };
    format!("| Goal | Measured | Holds |\n|---|---|---|\n{}", goals.into_iter().map(line).collect::<String>())
}

fn on_runs(figures: &runs::Figures) -> String {
    let line = |(case, times): &(runs::Case, runs::Times)| {
        let key = case.key().map_or("none".into(), |key| key.to_string());
        let runs::Times { floor, rendering, plain, one_by_one, run } = *times;
        let cells = [floor, rendering, plain, one_by_one, run].map(precise).join(" | ");
        let over_rendering = marked(times.over_rendering());
        let what = case.what.name();
        format!(
            "| {what} | {} | {} | {key} | {cells} | {over_rendering} | {:.3} |\n",
            case.frames,
            case.rows,
            times.over_one_by_one()
        )
    };
    format!(
        "{}
| Request | Frames | Rows | Key, bytes | Floor's share, ns | Rendering, ns | Plain, ns | One by one, ns | Run, ns | Run / rendering | Run / one by one |
|---|---|---|---|---|---|---|---|---|---|---|
{}",
        goal_table(figures.goals()),
        figures.cases.iter().map(line).collect::<String>(),
    )
}

/// A ratio, in bold where it is above 1.
fn marked(ratio: f64) -> String {
    let bold = if ratio > 1.0 { "**" } else { "" };
    format!("{bold}{ratio:.2}{bold}")
}

/// Nanoseconds, with a tenth where there are few.
fn precise(number: f64) -> String {
    if number < 100.0 {
        format!("{number:.1}")
    } else {
        grouped(number)
    }
}

/// Rows in key order: the goals, and what they are judged by.
fn on_orders(figures: &orders::Figures) -> String {
    let cases = figures.cases.iter().map(|(case, times)| {
        let (what, keys, length) = (case.what.name(), case.keys.name(), case.length);
        format!("| {what} | {length}, {keys} | {} |\n", order_cells(times))
    });
    let fronts = figures.fronts.iter().map(|front| {
        let (moved, over) = (grouped(front.memmove), front.times.ordered / front.memmove);
        format!("| {} | {} | {moved} | {over:.2} |\n", front.length, order_cells(&front.times))
    });
    let growth = figures.growth.iter().flat_map(|growth| {
        let line = |(rows, times): &(usize, orders::Times)| {
            format!("| {rows} | {} | {} |\n", growth.length, order_cells(times))
        };
        growth.by_rows.iter().map(line).collect::<Vec<_>>()
    });
    format!(
        "### Rows in key order, 256 rows

{}
| What | Keys, bytes | {ORDER_TIMES} |
|---|---|---|---|---|---|---|---|---|
{}
A Set of a new key before all of 255 rows, which moves 334,560 bytes, beside `memmove` of them:

| Key, bytes | {ORDER_TIMES} | memmove, ns | Key order / memmove |
|---|---|---|---|---|---|---|---|---|---|
{}
A Get of the last that came, by the number of rows, keys scattered:

| Rows | Keys, bytes | {ORDER_TIMES} |
|---|---|---|---|---|---|---|---|---|
{}",
        goal_table(figures.goals()),
        cases.collect::<String>(),
        fronts.collect::<String>(),
        growth.collect::<String>(),
    )
}

const ORDER_TIMES: &str =
    "Floor, ns | Rendering, ns | Plain, ns | Key order, ns | Key order / rendering | Key order / plain | Key order / floor";

fn order_cells(times: &orders::Times) -> String {
    let orders::Times { floor, rendering, plain, ordered, .. } = *times;
    let ratios = [ordered / rendering, times.over_plain()].map(marked);
    let [floor, rendering, plain, ordered] = [floor, rendering, plain, ordered].map(grouped);
    format!("{floor} | {rendering} | {plain} | {ordered} | {} | {:.2}", ratios.join(" | "), times.over_floor())
}

fn serving_line(case: &Case, times: &Times) -> String {
    let Case { table, request } = case;
    let (name, rows, used, key) = (request.name(), table.rows, table.used(), case.key_told());
    let order = match table.fill {
        Fill::Scattered => ", scattered",
        Fill::LastByte => ", apart by the last byte",
        Fill::FirstByte => ", apart by the first byte",
        Fill::Free | Fill::Rising => "",
    };
    format!("| {name} | {rows} | {used}{order} | {key} | {} |\n", cells(times))
}

fn damage_line(table: &Table, times: &Times) -> String {
    let Table { rows, fill, key, .. } = *table;
    let keys = match fill {
        Fill::Free => "none".to_string(),
        Fill::Rising => format!("{rows} of {key} bytes, rising"),
        Fill::Scattered => format!("{rows} of {key} bytes, scattered"),
        Fill::LastByte => format!("{rows} of {key} bytes, apart by the last one"),
        Fill::FirstByte => format!("{rows} of {key} bytes, apart by the first one"),
    };
    let speed = table.memory().len() as f64 / times.floor;
    format!("| {rows} | {keys} | {speed:.0} | {} |\n", cells(times))
}

fn replay_line(voyage: &Voyage, times: &ReplayTimes) -> String {
    let (over_rendering, over_one_by_one) = (times.over_rendering(), times.over_one_by_one());
    let [bytes, frames] = [voyage.trace.len(), voyage.frames()].map(|number| grouped(number as f64));
    let [rendering, one_by_one, library] = [times.rendering, times.one_by_one, times.library].map(grouped);
    let ratios = format!("{} | {over_one_by_one:.2}", marked(over_rendering));
    format!("| {} | {bytes} | {frames} | {rendering} | {one_by_one} | {library} | {ratios} |\n", voyage.keys)
}

const TIMES: &str = "Floor, ns | Rendering, ns | Library, ns | Library / rendering | Library / floor";

fn cells(times: &Times) -> String {
    let [floor, rendering, library] = [times.floor, times.rendering, times.library].map(grouped);
    let (over_rendering, over_floor) = (marked(times.over_rendering()), times.over_floor());
    format!("{floor} | {rendering} | {library} | {over_rendering} | {over_floor:.2}")
}

/// A whole number, its thousands apart.
fn grouped(number: f64) -> String {
    let digits = format!("{number:.0}");
    let apart =
        |(i, digit)| if i > 0 && (digits.len() - i) % 3 == 0 { format!(",{digit}") } else { format!("{digit}") };
    digits.chars().enumerate().map(apart).collect()
}
