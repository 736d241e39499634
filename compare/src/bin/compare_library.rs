//! `compare_library [--rough] SEED COUNT SERVER [WORD...]` draws COUNT jobs and
//! books and compares the library, called by SERVER (`c/server.c`), with the
//! second program; then it tries one job for each hundred drawn at every N. With
//! `--rough` the inputs are mostly damaged, or any bytes and numbers. It prints
//! one line, and exits non-zero at the first difference, with the job printed.

use std::process::ExitCode;

use compare::counts::Counts;
use compare::draw::{EVERY_KIND, ROUGH};
use compare::process::Process;
use compare::request::{self, Request};
use compare::rounds;
use compare::trial::Comparer;
use second::random::Random;

/// How many jobs are drawn for one that is tried at every N.
const DRAWN_FOR_ONE: usize = 100;

fn main() -> ExitCode {
    request::carry_out("compare_library", compare)
}

fn compare(request: &Request) -> Result<String, String> {
    let drawing = if request.rough { ROUGH } else { EVERY_KIND };
    let mut comparer = Comparer {
        random: Random::new(request.seed),
        server: Process::start(&request.program)?,
        counts: Counts::default(),
    };
    for number in 0..request.count {
        rounds::one_job(&mut comparer, &drawing).map_err(|why| format!("job {number}: {why}"))?;
    }
    for number in 0..request.count / DRAWN_FOR_ONE {
        rounds::every_capacity(&mut comparer)
            .map_err(|why| format!("every N, job {number}: {why}"))?;
    }
    comparer.server.finish()?;
    let (count, counts) = (request.count, comparer.counts);
    Ok(format!(
        "{count} jobs, 0 differ; how often each number: {counts}"
    ))
}
