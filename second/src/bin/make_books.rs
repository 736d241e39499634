//! `make_books SEED COUNT OUTFILE [--near]` writes COUNT books into OUTFILE,
//! each as its 16-bit length, low byte first, and then its bytes, and beside it
//! OUTFILE.expected with the printed lines of each and an empty line.
//!
//! Without `--near` N is 128, as in the program. With it each book has its own
//! N, for accepted jobs near the job's need of records; OUTFILE.records holds
//! one N per line.

use std::collections::BTreeMap;
use std::process::ExitCode;

use second::book::{Bodies, Book};
use second::print::{self, RECORDS};
use second::random::Random;
use second::{damage, generate};

struct Request {
    seed: u64,
    count: usize,
    out: String,
    near: bool,
}

/// The files to be written, and how often each answer was given.
#[derive(Default)]
struct Books {
    books: Vec<u8>,
    expected: String,
    records: String,
    answers: BTreeMap<String, usize>,
}

fn main() -> ExitCode {
    let arguments: Vec<String> = std::env::args().skip(1).collect();
    let Some(request) = request(&arguments) else {
        eprintln!("usage: make_books SEED COUNT OUTFILE [--near]");
        return ExitCode::from(2);
    };
    let books = make(&request);
    if let Err(error) = write(&request, &books) {
        eprintln!("make_books: {error}");
        return ExitCode::from(2);
    }
    println!("{} books", request.count);
    for (answer, count) in &books.answers {
        println!("{answer}: {count}");
    }
    ExitCode::SUCCESS
}

fn request(arguments: &[String]) -> Option<Request> {
    let (needed, near) = match arguments {
        [needed @ .., option] if option == "--near" => (needed, true),
        needed => (needed, false),
    };
    let [seed, count, out] = needed else {
        return None;
    };
    Some(Request {
        seed: seed.parse().ok()?,
        count: count.parse().ok()?,
        out: out.clone(),
        near,
    })
}

fn make(request: &Request) -> Books {
    let mut random = Random::new(request.seed);
    let mut books = Books::default();
    for _ in 0..request.count {
        let (book, capacity) = if request.near {
            book_and_capacity(&mut random)
        } else {
            (damage::book(&mut random), RECORDS)
        };
        books.add(&book, capacity);
    }
    books
}

/// A book and an N for it: for an accepted job near its need of records, else
/// (and now and then) any, lawful or not.
fn book_and_capacity(random: &mut Random) -> (Vec<u8>, usize) {
    let book = match random.below(100) {
        0..=29 => Bodies::of(&generate::job(random)).bind(),
        30..=54 => Bodies::of(&generate::waiting(random)).bind(),
        55..=89 => Bodies::of(&generate::crowded(random)).bind(),
        90..=96 => Bodies::of(&damage::refused_job(random)).bind(),
        _ => damage::damaged_book(random),
    };
    let accepted = Book::read(&book).map(|book| book.job());
    let capacity = match accepted {
        Ok(job) if job.refusal(None).is_none() && random.chance(94) => {
            generate::capacity_near_need(random, &job)
        }
        _ => random.pick(&[0, 1, 2, 128, 1024, 1025]),
    };
    (book, capacity)
}

impl Books {
    fn add(&mut self, book: &[u8], capacity: usize) {
        let length = u16::try_from(book.len()).expect("a book is short");
        self.books.extend(length.to_le_bytes());
        self.books.extend(book);
        let lines = print::print_book_with(book, capacity);
        let answer = lines.lines().next().expect("at least one line");
        *self.answers.entry(answer.to_string()).or_default() += 1;
        self.expected += &lines;
        self.expected += "\n";
        self.records += &format!("{capacity}\n");
    }
}

fn write(request: &Request, books: &Books) -> std::io::Result<()> {
    std::fs::write(&request.out, &books.books)?;
    std::fs::write(format!("{}.expected", request.out), &books.expected)?;
    if request.near {
        std::fs::write(format!("{}.records", request.out), &books.records)?;
    }
    Ok(())
}
