//! docs/BENCH.md and docs/growth.svg, from the rows that were measured.

use crate::measure::Row;
use std::fmt::Write;

/// What a call may take, in plain's times.
const TARGET: f64 = 1.5;

/// The middle and the worst ratio of each call, in the order of the rows.
pub fn ratios(rows: &[Row]) -> Vec<(&str, f64, f64)> {
    let mut entries: Vec<&str> = Vec::new();
    for row in rows {
        if !entries.contains(&row.entry) {
            entries.push(row.entry);
        }
    }
    let mut all = Vec::new();
    for entry in entries {
        let mut some: Vec<f64> =
            rows.iter().filter(|row| row.entry == entry).filter_map(Row::ratio).collect();
        some.sort_by(f64::total_cmp);
        if let Some(worst) = some.last() {
            all.push((entry, some[some.len() / 2], *worst));
        }
    }
    all
}

const HEAD: &str = "# Benchmarks

Ours against `bench/plain`, an unproved Rust implementation with the same answers, refusals and final buffers: the same machine,
the same bytes and slices, both built for release. Written by `bench/ratios`. A time is the least of 28 rounds, ours and plain
turn by turn, seven in each of four passes over all rows; the ratio `ours / plain` is what counts, the target is 1.5.

Buffers: every call clears what it is lent, ours and plain alike, inside the timed call; nothing is cleared outside it, and the
buffers are full of the call before. Each input is first compared, the answer and every buffer.

`read` is plain with a hash map for the codes, `read, scan` plain that goes through the stops for each code. `build` is plain with
one scan for each departure, as ours; `build, by hubs` is the pruned search of source document 004 (its Algorithm 3), which finds
the same labels but no pivots by the rule. `judge` is an early ask of a stop that there is not: the whole file is judged, and then
the answer is 12.
";

/// The whole of docs/BENCH.md.
pub fn markdown(rows: &[Row], growth: &[Growth]) -> String {
    let mut text = HEAD.to_string();
    text.push_str("\n## In short\n| call | middle ratio | worst ratio |\n|---|---|---|\n");
    for (entry, middle, worst) in ratios(rows) {
        writeln!(text, "| {entry} | {middle:.2} | {worst:.2} |").unwrap();
    }
    let is_over = |row: &&Row| row.ratio().is_some_and(|r| r > TARGET);
    let grown = growth.iter().flat_map(|g| [&g.build, &g.check]);
    let over: Vec<&Row> = rows.iter().chain(grown).filter(is_over).collect();
    text.push_str("\nOver the target: ");
    let names: Vec<String> =
        over.iter().map(|row| format!("{} on {}", row.entry, row.input)).collect();
    text.push_str(if names.is_empty() { "none" } else { "" });
    text.push_str(&names.join("; "));
    text.push_str(".\n\n## How build and check grow\n");
    text.push_str("The city of 255 stops with 512 to 4,096 runs, milliseconds a call.\n\n");
    text.push_str("![build and check by the number of runs](growth.svg)\n\n");
    text.push_str("| runs | build, ours | plain | by hubs | check, ours | plain |\n|---|---|---|---|---|---|\n");
    for g in growth {
        let [a, b, c, d, e] = g.millis();
        writeln!(text, "| {} | {a:.2} | {b:.2} | {c:.2} | {d:.2} | {e:.2} |", g.runs).unwrap();
    }
    text.push_str("\n## All rows\nMicroseconds a call.\n\n| call | input | ours | plain | ratio |\n|---|---|---|---|---|\n");
    for row in rows {
        let (ours, plain) = (1e6 * row.ours.unwrap_or(0.0), 1e6 * row.plain);
        let ratio = row.ratio().unwrap_or(0.0);
        writeln!(text, "| {} | {} | {ours:.2} | {plain:.2} | {ratio:.2} |", row.entry, row.input)
            .unwrap();
    }
    text
}

/// Seconds a call on a day with so many runs.
pub struct Growth {
    pub runs: u32,
    pub build: Row,
    pub by_hubs: f64,
    pub check: Row,
}

impl Growth {
    /// The least times of two measurements of one point.
    pub fn keep_least(&mut self, again: &Growth) {
        self.build.keep_least(&again.build);
        self.by_hubs = self.by_hubs.min(again.by_hubs);
        self.check.keep_least(&again.check);
    }

    fn millis(&self) -> [f64; 5] {
        let ours = |row: &Row| row.ours.unwrap_or(0.0);
        [ours(&self.build), self.build.plain, self.by_hubs, ours(&self.check), self.check.plain]
            .map(|seconds| 1e3 * seconds)
    }
}

/// Two pictures side by side: build and check, milliseconds over runs.
pub fn picture(growth: &[Growth]) -> String {
    let mut svg = String::from(
        "<svg xmlns=\"http://www.w3.org/2000/svg\" viewBox=\"0 0 860 360\" font-family=\"sans-serif\" font-size=\"13\">\n\
         <rect width=\"860\" height=\"360\" fill=\"white\"/>\n",
    );
    let build = [("ours", "#b03030", 0), ("plain Rust", "#3050a0", 1), ("by hubs", "#508040", 2)];
    let check = [("ours", "#b03030", 3), ("plain Rust", "#3050a0", 4)];
    panel(&mut svg, 0.0, "build", growth, &build);
    panel(&mut svg, 430.0, "check", growth, &check);
    svg.push_str("</svg>\n");
    svg
}

/// The least of 1, 2, 5, 10, .. that is no less.
fn round_up(value: f64) -> f64 {
    let mut step = 0.01;
    loop {
        for factor in [1.0, 2.0, 5.0] {
            if factor * step >= value {
                return factor * step;
            }
        }
        step *= 10.0;
    }
}

fn panel(
    svg: &mut String,
    left: f64,
    title: &str,
    growth: &[Growth],
    lines: &[(&str, &str, usize)],
) {
    let most =
        growth.iter().flat_map(|g| lines.iter().map(|line| g.millis()[line.2])).fold(0.0, f64::max);
    let top = round_up(most);
    let last = growth.last().map_or(1, |g| g.runs) as f64;
    let x = |runs: f64| left + 60.0 + 330.0 * runs / last;
    let y = |millis: f64| 300.0 - 250.0 * millis / top;
    writeln!(
        svg,
        "<text x=\"{}\" y=\"28\" font-size=\"16\">{title}: milliseconds by runs</text>",
        left + 60.0
    )
    .unwrap();
    for part in 0..=4 {
        let value = top * part as f64 / 4.0;
        let (from, to, at) = (x(0.0), x(last), y(value));
        writeln!(svg, "<path d=\"M{from:.1} {at:.1}H{to:.1}\" stroke=\"#dddddd\"/>").unwrap();
        writeln!(
            svg,
            "<text x=\"{:.1}\" y=\"{:.1}\" text-anchor=\"end\">{value}</text>",
            from - 8.0,
            at + 4.0
        )
        .unwrap();
    }
    for g in growth {
        let at = x(g.runs as f64);
        writeln!(svg, "<text x=\"{at:.1}\" y=\"320\" text-anchor=\"middle\">{}</text>", g.runs)
            .unwrap();
    }
    for (i, (name, colour, column)) in lines.iter().enumerate() {
        let places: Vec<String> = growth
            .iter()
            .map(|g| format!("{:.1},{:.1}", x(g.runs as f64), y(g.millis()[*column])))
            .collect();
        writeln!(
            svg,
            "<polyline points=\"{}\" fill=\"none\" stroke=\"{colour}\" stroke-width=\"2\"/>",
            places.join(" ")
        )
        .unwrap();
        for place in &places {
            let (cx, cy) = place.split_once(',').unwrap();
            writeln!(svg, "<circle cx=\"{cx}\" cy=\"{cy}\" r=\"3\" fill=\"{colour}\"/>").unwrap();
        }
        let at = 60.0 + 20.0 * i as f64;
        writeln!(
            svg,
            "<path d=\"M{:.1} {at:.1}h22\" stroke=\"{colour}\" stroke-width=\"2\"/>",
            left + 80.0
        )
        .unwrap();
        writeln!(svg, "<text x=\"{:.1}\" y=\"{:.1}\">{name}</text>", left + 110.0, at + 4.0)
            .unwrap();
    }
}
