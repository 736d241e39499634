//! The command line of a comparison: `[--rough] SEED COUNT PROGRAM [WORD...]`.

use std::process::ExitCode;

/// What is asked for. `rough` asks for inputs that are mostly damaged.
pub struct Request {
    pub rough: bool,
    pub seed: u64,
    pub count: usize,
    /// A program and its words; at least one.
    pub program: Vec<String>,
}

impl Request {
    /// None if the words are not as above.
    pub fn read(words: &[String]) -> Option<Self> {
        let (rough, needed) = match words {
            [option, needed @ ..] if option == "--rough" => (true, needed),
            needed => (false, needed),
        };
        let [seed, count, program @ ..] = needed else {
            return None;
        };
        let request = Request {
            rough,
            seed: seed.parse().ok()?,
            count: count.parse().ok()?,
            program: program.to_vec(),
        };
        (!program.is_empty()).then_some(request)
    }
}

/// Carries out the request on the command line of the comparison called `name`,
/// and prints its seed with what came out: the words for a comparison in which
/// nothing differs, or the difference.
pub fn carry_out(name: &str, compare: fn(&Request) -> Result<String, String>) -> ExitCode {
    let words: Vec<String> = std::env::args().skip(1).collect();
    let Some(request) = Request::read(&words) else {
        eprintln!("usage: {name} [--rough] SEED COUNT PROGRAM [WORD...]");
        return ExitCode::from(2);
    };
    match compare(&request) {
        Ok(alike) => {
            println!("seed {}: {alike}", request.seed);
            ExitCode::SUCCESS
        }
        Err(difference) => {
            println!("seed {}: {difference}", request.seed);
            ExitCode::FAILURE
        }
    }
}

#[cfg(test)]
mod tests {
    use super::*;

    fn read(line: &str) -> Option<(bool, u64, usize, usize)> {
        let words: Vec<String> = line.split_whitespace().map(String::from).collect();
        Request::read(&words).map(|r| (r.rough, r.seed, r.count, r.program.len()))
    }

    #[test]
    fn words() {
        assert_eq!(read("7 20 program"), Some((false, 7, 20, 1)));
        assert_eq!(read("--rough 7 20 program word"), Some((true, 7, 20, 2)));
        assert_eq!(read("7 20"), None);
        assert_eq!(read("--rough 20 program"), None);
        assert_eq!(read(""), None);
    }
}
