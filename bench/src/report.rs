//! The lines that are printed.

use std::iter;

use crate::side::Side;

/// The width of a family's name.
const NAME: usize = 44;

/// What stands for a side that was not asked. Such sides come last.
const NOT_ASKED: &str = "-";

/// One family's numbers.
pub struct Row<'a> {
    pub name: &'a str,
    /// What the planner did, empty for routes.
    pub facts: String,
    /// Seconds of a pass for each side that was asked.
    pub seconds: Vec<f64>,
    /// Calls in a pass.
    pub calls: usize,
    /// Records made in a pass by each of them, none for routes.
    pub records: Vec<usize>,
}

/// What a side's answers to a family's jobs were.
pub struct Counts {
    /// How many were 0, 8 and 9.
    pub answers: [usize; 3],
    pub records: usize,
}

impl Counts {
    fn jobs(&self) -> usize {
        self.answers.iter().sum()
    }
}

/// The head of the planner's [`Row::facts`]: those of all sides, and of an earlier
/// one its own.
pub fn facts_head(sides: &[&dyn Side]) -> String {
    let earlier = earlier(sides).map(|(_, side)| format!("  {0} 0/8/9  {0} rec.", side.name()));
    format!(
        "  ans. 0/8/9  rec. a job  deepest{}",
        String::from_iter(earlier)
    )
}

/// The planner's facts under their head.
pub fn facts(sides: &[&dyn Side], counts: &[Counts], deepest: usize) -> String {
    let columns = |number: usize| {
        let Some(counts) = counts.get(number) else {
            return (NOT_ASKED.into(), NOT_ASKED.into());
        };
        let [found, none, full] = counts.answers;
        (
            format!("{found}/{none}/{full}"),
            (counts.records / counts.jobs().max(1)).to_string(),
        )
    };
    let (answers, records) = columns(0);
    let earlier = earlier(sides).map(|(number, side)| {
        let width = side.name().len();
        let (answers, records) = columns(number);
        format!("{answers:>0$} {records:>1$}", width + 8, width + 6)
    });
    format!(
        "{answers:>12} {records:>11} {deepest:>8}{}",
        String::from_iter(earlier)
    )
}

fn earlier<'a>(sides: &'a [&dyn Side]) -> impl Iterator<Item = (usize, &'a dyn Side)> {
    let numbered = sides.iter().copied().enumerate();
    numbered.filter(|(_, side)| side.earlier())
}

/// The head of a table: its title, the facts, a time for each side, a ratio of
/// the first side to each other, and for the planner records a second.
pub fn print_head(title: &str, facts: &str, sides: &[&dyn Side]) {
    print!("\n{title:<NAME$}{facts}");
    for side in sides {
        print!("{:>14}", format!("{} µs", side.name()));
    }
    for side in &sides[1..] {
        print!("{:>18}", format!("{}/{}", sides[0].name(), side.name()));
    }
    if !facts.is_empty() {
        for side in sides {
            print!("{:>22}", format!("{} records/s", side.name()));
        }
    }
    println!();
}

/// One line under the head.
pub fn print_row(row: &Row, sides: &[&dyn Side]) {
    print!("{:<NAME$}{}", row.name, row.facts);
    let times = row.seconds.iter();
    let times = times.map(|seconds| format!("{:.2}", seconds / row.calls as f64 * 1e6));
    print_numbers(times, sides.len(), 14);
    let ratios = row.seconds[1..].iter();
    let ratios = ratios.map(|seconds| format!("{:.2}", row.seconds[0] / seconds));
    print_numbers(ratios, sides.len() - 1, 18);
    if !row.records.is_empty() {
        let records = row.records.iter().zip(&row.seconds);
        let records = records.map(|(records, seconds)| format!("{:.0}", *records as f64 / seconds));
        print_numbers(records, sides.len(), 22);
    }
    println!();
}

/// So many numbers, each so wide.
fn print_numbers(numbers: impl Iterator<Item = String>, count: usize, width: usize) {
    for number in numbers.chain(iter::repeat(NOT_ASKED.into())).take(count) {
        print!("{number:>width$}");
    }
}
