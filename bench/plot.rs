//! The plot of time against rows, as SVG.

use crate::cases::Group;
use crate::report::line_through;
use crate::sides::Side;
use crate::timing::Times;

const WIDTH: f64 = 960.0;
const HEIGHT: f64 = 460.0;

/// Colours for light and for dark. The plot has a ground of its own, so it is readable on any page.
const STYLE: &str = "
    text { font: 13px sans-serif; fill: #1f2328 }
    .title { font-weight: bold }
    .ground { fill: #ffffff }
    .grid { stroke: #d8dee4 }
    .frame { stroke: #59636e; fill: none }
    .fit { stroke: #1f2328; stroke-dasharray: 5 4; fill: none }
    .line { stroke-width: 2; fill: none }
    .ours { stroke: #0969da }
    .plain { stroke: #bc4c00 }
    .openssl { stroke: #1a7f37 }
    .mark { stroke-width: 2; fill: #ffffff }
    @media (prefers-color-scheme: dark) {
        text { fill: #e6edf3 }
        .ground { fill: #0d1117 }
        .grid { stroke: #30363d }
        .frame { stroke: #9198a1 }
        .fit { stroke: #e6edf3 }
        .ours { stroke: #58a6ff }
        .plain { stroke: #f0883e }
        .openssl { stroke: #3fb950 }
        .mark { fill: #0d1117 }
    }";

/// Two panels side by side, each with a line for each of the three, and a legend.
pub fn drawn(times: &Times) -> String {
    let mut svg = format!(
        "<svg xmlns=\"http://www.w3.org/2000/svg\" viewBox=\"0 0 {WIDTH} {HEIGHT}\" role=\"img\" \
         aria-label=\"Time of a call against rows, for this library, plain Rust and OpenSSL\">\n\
         <style>{STYLE}\n</style>\n\
         <rect class=\"ground\" width=\"{WIDTH}\" height=\"{HEIGHT}\"/>\n"
    );
    let reading = Panel { title: "Reading an IPv4 value", group: Group::ReadingGrowth, left: 78.0 };
    let title = "Checking a path of two certificates, IPv4";
    let path = Panel { title, group: Group::PathGrowth, left: 558.0 };
    let decades = decades(times);
    svg += &reading.drawn(times, decades);
    svg += &path.drawn(times, decades);
    svg += &legend();
    svg + "</svg>\n"
}

/// The powers of ten around all times that are drawn.
fn decades(times: &Times) -> (i32, i32) {
    let drawn = times.of(Group::ReadingGrowth).chain(times.of(Group::PathGrowth));
    let logs = drawn.flat_map(|case| Side::ALL.map(|side| case.median(side).log10()));
    let logs: Vec<f64> = logs.collect();
    let lowest = logs.iter().copied().fold(f64::MAX, f64::min);
    let highest = logs.iter().copied().fold(f64::MIN, f64::max);
    (lowest.floor() as i32, highest.ceil() as i32)
}

/// One growth: time upwards and rows to the right, both on logarithmic scales.
struct Panel {
    title: &'static str,
    group: Group,
    left: f64,
}

impl Panel {
    const TOP: f64 = 78.0;
    const WIDTH: f64 = 380.0;
    const HEIGHT: f64 = 316.0;
    const BOTTOM: f64 = Panel::TOP + Panel::HEIGHT;
    /// 2 to the 9th is 512, the most rows.
    const DOUBLINGS: u32 = 9;

    fn drawn(&self, times: &Times, decades: (i32, i32)) -> String {
        let place = |rows: f64, time: f64| {
            let (lowest, highest) = (decades.0 as f64, decades.1 as f64);
            let right = rows.log2() / Panel::DOUBLINGS as f64;
            let up = (time.log10() - lowest) / (highest - lowest);
            (self.left + right * Panel::WIDTH, Panel::BOTTOM - up * Panel::HEIGHT)
        };
        let mut svg = self.axes(decades, &place);
        let fit = line_through(times, self.group, Side::Ours);
        let steps = (0..=90).map(|step| 2f64.powf(step as f64 / 10.0));
        let points: Vec<(f64, f64)> = steps.map(|rows| place(rows, fit.at(rows))).collect();
        for side in Side::ALL {
            let cases = times.of(self.group);
            let points: Vec<(f64, f64)> =
                cases.map(|case| place(case.rows as f64, case.median(side))).collect();
            svg += &line(&format!("line {}", class(side)), &points);
            svg.extend(points.iter().map(|&point| mark(side, point)));
        }
        svg + &line("fit", &points)
    }

    fn axes(&self, decades: (i32, i32), place: &impl Fn(f64, f64) -> (f64, f64)) -> String {
        let (left, top, bottom) = (self.left, Panel::TOP, Panel::BOTTOM);
        let (right, middle) = (left + Panel::WIDTH, left + Panel::WIDTH / 2.0);
        let mut svg = text("title", "middle", (middle, top - 12.0), self.title);
        for decade in decades.0..=decades.1 {
            let (_, y) = place(1.0, 10f64.powi(decade));
            svg += &line("grid", &[(left, y), (right, y)]);
            svg += &text("", "end", (left - 8.0, y + 4.0), &time_label(decade));
        }
        for rows in (0..=Panel::DOUBLINGS).map(|doublings| 1 << doublings) {
            let (x, _) = place(rows as f64, 1.0);
            svg += &line("grid", &[(x, top), (x, bottom)]);
            svg += &text("", "middle", (x, bottom + 18.0), &rows.to_string());
        }
        svg += &text("", "middle", (middle, bottom + 40.0), "rows, on a logarithmic scale");
        let (x, y) = (left - 60.0, (top + bottom) / 2.0);
        svg += &format!(
            "<text text-anchor=\"middle\" transform=\"translate({x} {y}) rotate(-90)\">\
             time of a call, on a logarithmic scale</text>\n"
        );
        svg + &line("frame", &[(left, top), (left, bottom), (right, bottom)])
    }
}

fn legend() -> String {
    let mut svg = String::new();
    let y = 26.0;
    for (side, x) in Side::ALL.into_iter().zip([120.0, 270.0, 410.0]) {
        svg += &line(&format!("line {}", class(side)), &[(x, y), (x + 36.0, y)]);
        svg += &mark(side, (x + 18.0, y));
        svg += &text("", "start", (x + 44.0, y + 4.0), side.name());
    }
    svg += &line("fit", &[(530.0, y), (566.0, y)]);
    svg + &text("", "start", (574.0, y + 4.0), "fit to this library: fixed + rows × time per row")
}

/// 10 to the power of the decade, in nanoseconds, with a unit.
fn time_label(decade: i32) -> String {
    let units = ["ns", "µs", "ms", "s"];
    let unit = decade.div_euclid(3).clamp(0, 3);
    format!("{} {}", 10f64.powi(decade - 3 * unit), units[unit as usize])
}

fn class(side: Side) -> &'static str {
    match side {
        Side::Ours => "ours",
        Side::Plain => "plain",
        Side::OpenSsl => "openssl",
    }
}

/// A circle, a square or a triangle.
fn mark(side: Side, (x, y): (f64, f64)) -> String {
    let class = class(side);
    let (left, top) = (x - 3.5, y - 3.5);
    match side {
        Side::Ours => {
            format!("<circle class=\"mark {class}\" cx=\"{x:.1}\" cy=\"{y:.1}\" r=\"4\"/>\n")
        }
        Side::Plain => format!(
            "<rect class=\"mark {class}\" x=\"{left:.1}\" y=\"{top:.1}\" width=\"7\" height=\"7\"/>\n"
        ),
        Side::OpenSsl => format!(
            "<path class=\"mark {class}\" d=\"M{x:.1} {:.1} l4.5 8 h-9 z\"/>\n",
            y - 5.0
        ),
    }
}

fn line(class: &str, points: &[(f64, f64)]) -> String {
    let points: Vec<String> = points.iter().map(|(x, y)| format!("{x:.1},{y:.1}")).collect();
    format!("<polyline class=\"{class}\" points=\"{}\"/>\n", points.join(" "))
}

fn text(class: &str, anchor: &str, (x, y): (f64, f64), text: &str) -> String {
    format!(
        "<text class=\"{class}\" text-anchor=\"{anchor}\" x=\"{x:.1}\" y=\"{y:.1}\">{text}</text>\n"
    )
}
