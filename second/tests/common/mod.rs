//! What the tests of refusals share.

use second::book::Bodies;
use second::check::{meeting_check, route_check};
use second::job::{Carrier, Job};
use second::planner::{plan, plan_lent};
use second::print::print_book;

pub const N: usize = 128;

/// Eight carriers in an open hall of 4 by 4, each from a cell of the upper half
/// to the cell two rows below it: no two share an end. The slip of each by its start.
pub fn eight_slipping(slip_of: fn(u8) -> u8) -> Job {
    let carriers = (0..8).map(|start| Carrier {
        start,
        goal: start + 8,
        slip: slip_of(start),
    });
    Job {
        width: 4,
        height: 4,
        hall: vec![46; 16],
        carriers: carriers.collect(),
        horizon: 6,
    }
}

/// The planner, both checks and the program give this number with this carrier and
/// this other, the program with this second line, even where every lent table is
/// too short, and the plan too.
pub fn refused_everywhere(job: &Job, number: u8, i: usize, j: usize, line: &str) {
    let told = [usize::from(number), 0, 0, i, j, 0, 0];
    assert_eq!(plan(job, N).told(), told);
    assert_eq!(plan_lent(job, N, [0; 4]).told(), told);
    let told = [usize::from(number), i, j, 0, 0, 0, 0];
    for bytes in [vec![], vec![0; 8 * 7]] {
        assert_eq!(route_check(job, &bytes).told(), told);
        assert_eq!(meeting_check(job, &bytes).told(), told);
    }
    let lines = format!("answer {number}\n{line}\n");
    assert_eq!(print_book(&Bodies::of(job).bind()), lines);
}
