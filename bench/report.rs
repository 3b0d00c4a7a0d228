//! The numbers as text.

use crate::cases::Group;
use crate::fit::Line;
use crate::machine::Machine;
use crate::sides::Side;
use crate::timing::{CaseTimes, Samples, Times};

const START: &str = "<!-- numbers: bench/run replaces what follows -->\n";
const END: &str = "<!-- end of the numbers -->\n";

/// The document with these numbers between its markers, if it has them.
pub fn replaced(document: &str, numbers: &str) -> Option<String> {
    let (before, rest) = document.split_once(START)?;
    let (_, after) = rest.split_once(END)?;
    Some(format!("{before}{START}\n{numbers}\n{END}{after}"))
}

/// All numbers, in Markdown.
pub fn numbers(machine: &Machine, times: &Times) -> String {
    let parts = [
        conditions(machine, times),
        heading("Checking a path", ratios(times, Group::Path, "Path")),
        heading("Reading a value", ratios(times, Group::Reading, "Value")),
        heading("Writing a value", ratios(times, Group::Writing, "Table")),
        heading("Growth: reading an IPv4 value", growth(times, Group::ReadingGrowth)),
        heading("Growth: a path of two certificates, IPv4", growth(times, Group::PathGrowth)),
        heading("The fixed cost", clearing(times)),
    ];
    parts.join("\n\n")
}

fn heading(title: &str, text: String) -> String {
    format!("### {title}\n\n{text}")
}

fn conditions(machine: &Machine, times: &Times) -> String {
    let spreads = times.cases.iter().flat_map(|case| &case.sides).map(Samples::spread);
    let mut spreads: Vec<f64> = spreads.collect();
    spreads.sort_by(f64::total_cmp);
    let percent = |place: usize| format!("{:.1}%", 100.0 * spreads[place]);
    let Machine { processor, processors, load, compiler, openssl } = machine;
    let busy = if *load > 1.0 { ": **busy with other work, so preliminary**" } else { "" };
    format!(
        "- Processor: {processor}; {processors} of them, load average {load} before the run{busy}\n\
         - {openssl} (Debian's package); {compiler}\n\
         - Unit: nanoseconds per call, medians of {} rounds. The middle half of the rounds lies \
         within {} of the median in half of all measurements, and within {} in the worst",
        times.rounds,
        percent(spreads.len() / 2),
        percent(spreads.len() - 1),
    )
}

/// A line for each case: the three times, and the other two over ours.
fn ratios(times: &Times, group: Group, title: &str) -> String {
    let head = [title, "this library", "plain Rust", "OpenSSL", "plain / ours", "OpenSSL / ours"];
    table(&head, times.of(group).map(line_of).collect())
}

fn line_of(case: &CaseTimes) -> Vec<String> {
    let [ours, plain, openssl] = Side::ALL.map(|side| case.median(side));
    let ratio = |time: f64| format!("{:.1}", time / ours);
    vec![
        case.name.clone(),
        thousands(ours),
        thousands(plain),
        thousands(openssl),
        ratio(plain),
        ratio(openssl),
    ]
}

/// The same by rows, and the lines through them.
fn growth(times: &Times, group: Group) -> String {
    let head = ["Straight line", "fixed", "per row", "largest deviation"];
    let lines = Side::ALL.map(|side| {
        let Line { fixed, per_row, worst } = line_through(times, group, side);
        let rows = if worst.rows == 1 { "row" } else { "rows" };
        let deviation = format!("{:+.1}% at {} {rows}", 100.0 * worst.part, worst.rows);
        vec![side.name().to_string(), thousands(fixed), format!("{per_row:.1}"), deviation]
    });
    format!("{}\n\n{}", ratios(times, group, "Rows"), table(&head, lines.to_vec()))
}

/// The line through the times of one side in a group that grows.
pub fn line_through(times: &Times, group: Group, side: Side) -> Line {
    let points: Vec<(usize, f64)> =
        times.of(group).map(|case| (case.rows, case.median(side))).collect();
    Line::through(&points)
}

/// What the library pays for its lent tables, whatever is read.
fn clearing(times: &Times) -> String {
    let smallest = |group| times.of(group).next().map_or(0.0, |case| case.median(Side::Ours));
    format!(
        "The clearing of lent tables by itself: one table of 3,072 numbers takes {} ns, two take {} \
         ns. A call of this library for a single row takes {} ns (reading, one table) and {} ns \
         (path, two tables).",
        thousands(times.clearing_one.median()),
        thousands(times.clearing_two.median()),
        thousands(smallest(Group::ReadingGrowth)),
        thousands(smallest(Group::PathGrowth)),
    )
}

/// Whole, with a comma before each three digits.
fn thousands(number: f64) -> String {
    let digits = format!("{number:.0}");
    let mut text = String::new();
    for (place, digit) in digits.char_indices() {
        let left = digits.len() - place;
        if left % 3 == 0 && text.ends_with(|last: char| last.is_ascii_digit()) {
            text.push(',');
        }
        text.push(digit);
    }
    text
}

/// A table whose columns are as wide as what is in them, the first to the left.
fn table(head: &[&str], lines: Vec<Vec<String>>) -> String {
    let head: Vec<String> = head.iter().map(|title| title.to_string()).collect();
    let width = |column: usize| {
        lines.iter().chain([&head]).map(|line| line[column].len()).max().unwrap_or(0)
    };
    let widths: Vec<usize> = (0..head.len()).map(width).collect();
    let row = |cells: &[String]| {
        let cells =
            cells.iter().zip(&widths).enumerate().map(|(column, (cell, width))| match column {
                0 => format!(" {cell:<width$} "),
                _ => format!(" {cell:>width$} "),
            });
        format!("|{}|", cells.collect::<Vec<_>>().join("|"))
    };
    let rule = widths.iter().enumerate().map(|(column, width)| match column {
        0 => "-".repeat(width + 2),
        _ => format!("{}:", "-".repeat(width + 1)),
    });
    let rule = format!("|{}|", rule.collect::<Vec<_>>().join("|"));
    let mut text = vec![row(&head), rule];
    text.extend(lines.iter().map(|line| row(line)));
    text.join("\n")
}
