//! What the program prints for the bytes on its standard input.

use crate::book::Book;
use crate::job::Job;
use crate::planner::{self, PlanAnswer};
use crate::route;

/// "the program reads at most 300 bytes" (P3).
pub const MOST_BYTES: usize = 300;
/// It "uses N = 128".
pub const RECORDS: usize = 128;

/// Exactly what document 01's program prints for this input.
pub fn print_book(bytes: &[u8]) -> String {
    print_book_with(bytes, RECORDS)
}

/// The same with another capacity N. Longer input is judged on its first 300
/// bytes.
pub fn print_book_with(bytes: &[u8], capacity: usize) -> String {
    let read = &bytes[..bytes.len().min(MOST_BYTES)];
    let lines = match Book::read(read) {
        Ok(book) => {
            let job = book.job();
            answer_lines(&job, &planner::plan(&job, capacity))
        }
        Err(refusal) => vec![answer_line(refusal.number())],
    };
    lines.iter().map(|line| format!("{line}\n")).collect()
}

/// "One line `answer` and the number", and what follows it.
fn answer_lines(job: &Job, answer: &PlanAnswer) -> Vec<String> {
    let mut lines = vec![answer_line(answer.number)];
    lines.extend(told_lines(job, answer));
    lines
}

fn answer_line(number: u8) -> String {
    format!("answer {number}")
}

/// "For 5 a line `carrier i`; for 6 `carriers i j`; for 8 and 9 `records r`."
/// 16 is "printed like" 6 (P1), and 7 tells its table and the needed length.
fn told_lines(job: &Job, answer: &PlanAnswer) -> Vec<String> {
    match answer.number {
        0 => plan_lines(job, answer),
        5 => vec![format!("carrier {}", answer.carrier)],
        6 | 16 => vec![format!("carriers {} {}", answer.carrier, answer.other)],
        7 => vec![
            format!("table {}", answer.table),
            format!("needed {}", answer.needed),
        ],
        8 | 9 => vec![format!("records {}", answer.records)],
        _ => vec![],
    }
}

/// "For 0, then `sum`, `records`, and for each carrier its number, cost and
/// cells from step 0 to its cost."
fn plan_lines(job: &Job, answer: &PlanAnswer) -> Vec<String> {
    let mut lines = vec![
        format!("sum {}", answer.sum),
        format!("records {}", answer.records),
    ];
    for (number, (carrier, route)) in job.carriers.iter().zip(&answer.routes).enumerate() {
        lines.push(carrier_line(number, route, carrier.goal));
    }
    lines
}

fn carrier_line(number: usize, route: &[u8], goal: u8) -> String {
    let cost = route::cost(route, goal);
    let cells: String = route[..=cost]
        .iter()
        .map(|cell| format!(" {cell}"))
        .collect();
    format!("carrier {number} cost {cost} cells{cells}")
}

#[cfg(test)]
mod tests {
    use super::*;
    use crate::book::Bodies;

    fn bodies() -> Bodies {
        let mut hall = vec![3, 3];
        hall.extend([46; 9]);
        Bodies {
            hall,
            carriers: vec![3, 5, 0, 1, 7, 0],
            limits: vec![4],
        }
    }

    #[test]
    fn the_printed_book() {
        let lines = "answer 0\nsum 5\nrecords 3\n\
                     carrier 0 cost 3 cells 3 3 4 5\n\
                     carrier 1 cost 2 cells 1 4 7\n";
        assert_eq!(print_book(&bodies().bind()), lines);
    }

    #[test]
    fn every_other_line() {
        assert_eq!(print_book(&[]), "answer 11\n");
        let book = |change: &dyn Fn(&mut Bodies)| {
            let mut changed = bodies();
            change(&mut changed);
            print_book(&changed.bind())
        };
        assert_eq!(book(&|b| b.hall[0] = 0), "answer 1\n");
        assert_eq!(book(&|b| b.hall[2] = 0), "answer 2\n");
        assert_eq!(book(&|b| b.limits[0] = 64), "answer 3\n");
        assert_eq!(book(&|b| b.carriers.clear()), "answer 4\n");
        assert_eq!(book(&|b| b.carriers[3] = 9), "answer 5\ncarrier 1\n");
        assert_eq!(book(&|b| b.carriers[5] = 5), "answer 5\ncarrier 1\n");
        assert_eq!(book(&|b| b.carriers[3] = 3), "answer 6\ncarriers 0 1\n");
        assert_eq!(book(&|b| b.carriers[4] = 5), "answer 16\ncarriers 0 1\n");
        assert_eq!(book(&|b| b.limits[0] = 1), "answer 8\nrecords 0\n");
        assert_eq!(book(&|b| b.limits.clear()), "answer 14\n");
        let short = print_book_with(&bodies().bind(), 2);
        assert_eq!(short, "answer 9\nrecords 2\n");
    }

    #[test]
    fn the_lines_of_a_short_table() {
        let bytes = bodies().bind();
        let job = Book::read(&bytes).expect("in order").job();
        let answer = planner::plan_lent(&job, RECORDS, [1024, 1279, 0, 0]);
        let lines = ["answer 7", "table 1", "needed 1280"];
        assert_eq!(answer_lines(&job, &answer), lines);
    }

    #[test]
    fn longer_input_is_judged_on_its_first_300_bytes() {
        let long = Bodies {
            hall: [&[4, 2], &[46; 8][..]].concat(),
            carriers: [0; 273].to_vec(),
            ..bodies()
        };
        let mut book = long.bind();
        assert_eq!(book.len(), MOST_BYTES);
        assert_eq!(print_book(&book), "answer 4\n");
        book.extend([1; 50]);
        assert_eq!(print_book(&book), "answer 4\n");
        book.truncate(MOST_BYTES - 1);
        assert_eq!(print_book(&book), "answer 13\n");
    }
}
