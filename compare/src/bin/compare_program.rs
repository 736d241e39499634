//! `compare_program [--rough] SEED COUNT PROGRAM [WORD...]` runs the program,
//! with `c/forks.c` loaded into it, on COUNT books, and compares what it prints
//! with the second program. It must also exit with 0 and be silent on its
//! standard error. With `--rough` the books are mostly damaged, or no books at
//! all. It prints one line, and exits non-zero at the first difference, with the
//! book printed.

use std::process::ExitCode;

use compare::counts::Numbers;
use compare::process::Process;
use compare::program::{self, Ended};
use compare::request::{self, Request};
use second::damage;
use second::print::print_book;
use second::random::Random;

fn main() -> ExitCode {
    request::carry_out("compare_program", compare)
}

fn compare(request: &Request) -> Result<String, String> {
    let draw = if request.rough {
        damage::rough_input
    } else {
        damage::book
    };
    let mut random = Random::new(request.seed);
    let mut forks = Process::start(&request.program)?;
    let mut answers = Numbers::default();
    for number in 0..request.count {
        let book = draw(&mut random);
        let answer = try_book(&mut forks, &book);
        answers.add(answer.map_err(|why| format!("book {number} {book:?}\n{why}"))?);
    }
    forks.finish()?;
    let count = request.count;
    Ok(format!(
        "{count} books, 0 differ; how often each answer: {answers}"
    ))
}

/// The answer to the book, if the program agrees.
fn try_book(forks: &mut Process, book: &[u8]) -> Result<usize, String> {
    let expected = print_book(book);
    let Ended {
        status,
        printed,
        errors,
    } = program::run(forks, book).map_err(|error| format!("the program's forks: {error}"))?;
    if status == 0 && errors.is_empty() && printed == expected {
        return Ok(answer_in(&expected));
    }
    Err(format!(
        "expected:\n{expected}printed:\n{printed}wait status {status}\n{errors}"
    ))
}

/// The number on the first line, after `answer`.
fn answer_in(lines: &str) -> usize {
    let first = lines.lines().next();
    let number = first.and_then(|line| line.strip_prefix("answer ")?.parse().ok());
    number.expect("the first line is an answer")
}
