//! Reads a book from standard input and prints what document 01's program
//! prints. `--records N` takes another capacity than 128.

use std::io::{self, Read};
use std::process::ExitCode;

use second::print::{MOST_BYTES, RECORDS, print_book_with};

fn main() -> ExitCode {
    let arguments: Vec<String> = std::env::args().skip(1).collect();
    let Some(capacity) = capacity(&arguments) else {
        eprintln!("usage: second [--records N] < book");
        return ExitCode::from(2);
    };
    match read_book() {
        Ok(book) => {
            print!("{}", print_book_with(&book, capacity));
            ExitCode::SUCCESS
        }
        Err(error) => {
            eprintln!("second: standard input: {error}");
            ExitCode::from(2)
        }
    }
}

fn capacity(arguments: &[String]) -> Option<usize> {
    match arguments {
        [] => Some(RECORDS),
        [option, number] if option == "--records" => number.parse().ok(),
        _ => None,
    }
}

/// "the program reads at most 300 bytes" from standard input.
fn read_book() -> io::Result<Vec<u8>> {
    let mut book = Vec::new();
    io::stdin().take(MOST_BYTES as u64).read_to_end(&mut book)?;
    Ok(book)
}
