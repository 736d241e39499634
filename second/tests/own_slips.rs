//! P3 of document 02, "Heavy carriers slip more", sentence by sentence.

mod common;

use common::{N, eight_slipping, refused_everywhere};
use second::book::{Bodies, Book};
use second::check::{CheckAnswer, meeting_check, route_check};
use second::job::{Carrier, Job};
use second::planner::plan;
use second::print::{MOST_BYTES, print_book};

/// Eight carriers with slips from 0 to 4.
fn eight() -> Job {
    eight_slipping(|start| start % 5)
}

/// 5 with this carrier, wherever 5 is given.
fn five_everywhere(job: &Job, carrier: usize) {
    refused_everywhere(job, 5, carrier, 0, &format!("carrier {carrier}"));
}

/// "a slip above 4 is 5", with the first carrier whose start, goal or slip is wrong.
#[test]
fn a_slip_above_4_is_5() {
    assert_eq!(eight().refusal(Some(N)), None);
    for slip in 5..=255 {
        let mut job = eight();
        job.carriers[3].slip = slip;
        five_everywhere(&job, 3);
    }
    let mut job = eight();
    job.carriers[6].start = 16;
    five_everywhere(&job, 6);
    job.carriers[4].slip = 5;
    five_everywhere(&job, 4);
    job.carriers[2].goal = 99;
    five_everywhere(&job, 2);
    job.carriers[0].slip = 255;
    five_everywhere(&job, 0);
}

/// Also before shared starts and goals, of the same carriers or of others.
#[test]
fn a_slip_above_4_comes_before_shared_ends() {
    let mut job = eight();
    job.carriers[1].start = job.carriers[0].start;
    job.carriers[3].goal = job.carriers[2].goal;
    job.carriers[7].slip = 6;
    five_everywhere(&job, 7);
    job.carriers[1].slip = 5;
    five_everywhere(&job, 1);
}

/// "3 speaks of H and N only".
#[test]
fn three_speaks_of_the_horizon_and_the_capacity_only() {
    let mut job = eight();
    job.horizon = 63;
    job.carriers[0].slip = 5;
    for n in [1, 1024] {
        assert_eq!(plan(&job, n).number, 5);
    }
    for n in [0, 1025] {
        assert_eq!(plan(&job, n).number, 3);
    }
    job.horizon = 64;
    assert_eq!(plan(&job, 1).number, 3);
    assert_eq!(route_check(&job, &[]).number, 3);
    assert_eq!(meeting_check(&job, &[]).number, 3);
}

/// The last step of the routes below.
const LAST: usize = 6;

/// What the meeting check tells of two in an open hall of 5 by 5, with these slips,
/// whose routes go as said.
fn told(slips: [u8; 2], routes: [[u8; LAST + 1]; 2]) -> CheckAnswer {
    let ends = [(0, 1), (5, 6)].into_iter().zip(slips);
    let carriers = ends.map(|((start, goal), slip)| Carrier { start, goal, slip });
    let job = Job {
        width: 5,
        height: 5,
        hall: vec![46; 25],
        carriers: carriers.collect(),
        horizon: LAST,
    };
    meeting_check(&job, &routes.concat())
}

/// Every two slips from 0 to 4.
fn slips() -> impl Iterator<Item = [u8; 2]> {
    (0..5).flat_map(|i| (0..5).map(move |j| [i, j]))
}

/// "Carriers i and j meet if i at t and j at u are on one cell and u − t lies from
/// −(slip of j) to slip of i"; "least e, then least distance"; "at equal steps the
/// smaller number counts as earlier".
#[test]
fn who_meets_for_every_two_slips_and_steps() {
    for slips in slips() {
        for (t, u) in (0..=LAST).flat_map(|t| (0..=LAST).map(move |u| (t, u))) {
            let mut routes = [
                [100, 101, 102, 103, 104, 105, 106],
                [200, 201, 202, 203, 204, 205, 206],
            ];
            (routes[0][t], routes[1][u]) = (9, 9);
            let [slip_i, slip_j] = slips.map(i32::from);
            let apart = u as i32 - t as i32;
            let meet = -slip_j <= apart && apart <= slip_i;
            let (carrier, other) = if t <= u { (0, 1) } else { (1, 0) };
            let meeting = CheckAnswer {
                number: 22,
                carrier,
                other,
                step: t.min(u),
                distance: t.abs_diff(u),
                ..CheckAnswer::default()
            };
            let wanted = if meet {
                meeting
            } else {
                CheckAnswer::default()
            };
            assert_eq!(told(slips, routes), wanted, "{slips:?}, {t}, {u}");
        }
    }
}

/// "Swaps count only between two carriers of slip 0."
#[test]
fn who_swaps_for_every_two_slips() {
    let routes = [[1, 2, 3, 4, 5, 6, 7], [11, 12, 4, 3, 15, 16, 17]];
    for slips in slips() {
        let (carrier, other, swap) = match slips {
            [0, 0] => (0, 1, true),
            [0, _] => (1, 0, false),
            _ => (0, 1, false),
        };
        let wanted = CheckAnswer {
            number: 22,
            carrier,
            other,
            step: 2,
            distance: usize::from(!swap),
            swap,
            ..CheckAnswer::default()
        };
        assert_eq!(told(slips, routes), wanted, "{slips:?}");
    }
}

/// "i is barred from e to e + slip of j, j from e to e + slip of i": where two ways
/// cross and there is no other, the one waits for as long as the other may slip. At
/// equal steps the smaller number is in child one, which is taken at equal sums.
#[test]
fn each_waits_for_as_long_as_the_other_may_slip() {
    for [i, j] in slips() {
        let carrier = |start, goal, slip| Carrier { start, goal, slip };
        let job = Job {
            width: 3,
            height: 3,
            hall: b"#.#...#.#".to_vec(),
            carriers: vec![carrier(3, 5, i), carrier(1, 7, j)],
            horizon: 12,
        };
        let waits = |from: u8, to: u8, slip: u8| {
            let mut route = vec![from; usize::from(slip) + 2];
            route.push(4);
            route.resize(13, to);
            route
        };
        let goes = |from: u8, to: u8| {
            let mut route = vec![from, 4];
            route.resize(13, to);
            route
        };
        let routes = if j <= i {
            [waits(3, 5, j), goes(1, 7)]
        } else {
            [goes(3, 5), waits(1, 7, i)]
        };
        let answer = plan(&job, N);
        let sum = 5 + usize::from(i.min(j));
        assert_eq!((answer.number, answer.sum, answer.records), (0, sum, 3));
        assert_eq!(answer.routes, routes, "{i}, {j}");
    }
}

/// "the program reads at most 300 bytes": one more than the longest book of a job
/// that is not refused.
#[test]
fn the_longest_book_has_299_bytes() {
    let carriers = (0..8).map(|start| Carrier {
        start,
        goal: 255 - start,
        slip: start / 2,
    });
    let job = Job {
        width: 16,
        height: 16,
        hall: vec![46; 256],
        carriers: carriers.collect(),
        horizon: 63,
    };
    let bytes = Bodies::of(&job).bind();
    assert_eq!(bytes.len(), 299);
    assert_eq!(bytes.len() + 1, MOST_BYTES);
    let read = Book::read(&bytes).expect("in order").job();
    assert_eq!(read, job);
    assert_eq!(read.refusal(Some(N)), None);
    let lines = print_book(&[&bytes[..], &[0; 50]].concat());
    assert_eq!(lines, "answer 13\n");
}
