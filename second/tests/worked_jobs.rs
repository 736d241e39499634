//! "Jobs worked by hand": all of them, as P2 has their ties, every slip being their
//! k, and the wrong turns they guard against; and jobs of unequal slips. "Cells all
//! open; k is 0 and N is 128 where not given".

use second::brute::{holds, least_sum, tree_by_words};
use second::check::{CheckAnswer, meeting_check, route_check};
use second::job::{Carrier, Job};
use second::planner::{PlanAnswer, plan};

/// Start, goal and slip of each carrier.
fn slipping(size: (usize, usize), records: &[(u8, u8, u8)], horizon: usize) -> Job {
    let carriers = records.iter();
    let carriers = carriers.map(|&(start, goal, slip)| Carrier { start, goal, slip });
    Job {
        width: size.0,
        height: size.1,
        hall: vec![46; size.0 * size.1],
        carriers: carriers.collect(),
        horizon,
    }
}

/// Start and goal of each carrier, the slip of all being k.
fn job(size: (usize, usize), ends: &[(u8, u8)], k: u8, horizon: usize) -> Job {
    let records: Vec<_> = ends.iter().map(|&(start, goal)| (start, goal, k)).collect();
    slipping(size, &records, horizon)
}

fn found(sum: usize, records: usize, routes: &[&[u8]]) -> PlanAnswer {
    PlanAnswer {
        sum,
        records,
        routes: routes.iter().map(|route| route.to_vec()).collect(),
        ..PlanAnswer::default()
    }
}

fn not_found(number: u8, records: usize) -> PlanAnswer {
    PlanAnswer {
        number,
        records,
        ..PlanAnswer::default()
    }
}

/// The job's answer, which the rules taken word by word must give too, if it is
/// no refusal; a plan must also pass both checks and every pattern of holds, and
/// its sum must be the least by brute force.
fn answer(job: &Job, capacity: usize) -> PlanAnswer {
    let answer = plan(job, capacity);
    if job.refusal(Some(capacity)).is_none() {
        let told = (answer.number, answer.sum, answer.records);
        let by_words = tree_by_words::search(job, capacity);
        assert_eq!((told, &answer.routes), (told_of(&by_words), &by_words.3));
    }
    if answer.number == 0 {
        let bytes = answer.plan_bytes();
        assert_eq!(route_check(job, &bytes), CheckAnswer::default());
        assert_eq!(meeting_check(job, &bytes), CheckAnswer::default());
        let routes: Vec<&[u8]> = answer.routes.iter().map(Vec::as_slice).collect();
        assert!(!holds::some_pattern_collides(&routes, &job.slips()));
        assert_eq!(least_sum::least_sum(job), Some(answer.sum));
    }
    if answer.number == 8 {
        assert_eq!(least_sum::least_sum(job), None);
    }
    answer
}

fn told_of(told: &tree_by_words::Told) -> (u8, usize, usize) {
    (told.0, told.1, told.2)
}

#[test]
fn crossing_in_a_square() {
    let cross = job((3, 3), &[(3, 5), (1, 7)], 0, 4);
    let plan = found(5, 3, &[&[3, 3, 4, 5, 5], &[1, 4, 7, 7, 7]]);
    assert_eq!(answer(&cross, 3), plan);
    assert_eq!(answer(&cross, 128), plan);
    assert_eq!(answer(&cross, 2), not_found(9, 2));
    assert_eq!(answer(&cross, 1), not_found(9, 1));
}

#[test]
fn crossing_in_a_square_with_slips() {
    let cross = job((3, 3), &[(3, 5), (1, 7)], 1, 4);
    let plan = found(6, 3, &[&[3, 3, 3, 4, 5], &[1, 4, 7, 7, 7]]);
    assert_eq!(answer(&cross, 3), plan);
}

/// Beyond document 01: with slips of 2 one of two that cross stands still for three steps
/// and once for two.
#[test]
fn crossing_in_larger_halls_with_greater_slips() {
    let square = job((4, 4), &[(4, 7), (1, 13)], 2, 10);
    let across = [4, 4, 4, 4, 5, 6, 7, 7, 7, 7, 7];
    let down = [1, 5, 9, 13, 13, 13, 13, 13, 13, 13, 13];
    assert_eq!(answer(&square, 128), found(9, 9, &[&across, &down]));
    let wide = job((5, 3), &[(5, 9), (2, 12)], 2, 10);
    let across = [5, 5, 5, 6, 7, 8, 9, 9, 9, 9, 9];
    let down = [2, 7, 12, 12, 12, 12, 12, 12, 12, 12, 12];
    assert_eq!(answer(&wide, 128), found(8, 5, &[&across, &down]));
}

#[test]
fn one_carrier_in_a_row() {
    let row = |horizon| job((3, 1), &[(0, 2)], 0, horizon);
    assert_eq!(answer(&row(2), 128), found(2, 1, &[&[0, 1, 2]]));
    assert_eq!(answer(&row(1), 128), not_found(8, 0));
}

#[test]
fn head_on_in_a_row() {
    let row = job((3, 1), &[(0, 2), (2, 0)], 0, 2);
    assert_eq!(answer(&row, 128), not_found(8, 1));
}

#[test]
fn one_cell() {
    let cell = job((1, 1), &[(0, 0)], 0, 0);
    assert_eq!(answer(&cell, 128), found(0, 1, &[&[0]]));
}

#[test]
fn swap_of_two() {
    let two = job((2, 1), &[(0, 1), (1, 0)], 0, 1);
    assert_eq!(answer(&two, 128), not_found(8, 1));
}

#[test]
fn following_in_a_row() {
    let row = |k, horizon| job((3, 1), &[(0, 1), (1, 2)], k, horizon);
    assert_eq!(answer(&row(0, 1), 128), found(2, 1, &[&[0, 1], &[1, 2]]));
    assert_eq!(answer(&row(1, 1), 128), not_found(8, 1));
    let plan = found(3, 2, &[&[0, 0, 1], &[1, 2, 2]]);
    assert_eq!(answer(&row(1, 2), 128), plan);
}

#[test]
fn past_a_carrier_on_its_goal() {
    let hall = job((4, 2), &[(6, 2), (0, 3)], 0, 3);
    let answer = answer(&hall, 128);
    assert_eq!((answer.number, answer.sum), (0, 6));
}

/// Each gives way to the one that slips: it may not follow closely behind.
#[test]
fn head_on_with_a_way_round() {
    let hall = |slips: [u8; 2]| slipping((4, 2), &[(0, 3, slips[0]), (3, 0, slips[1])], 8);
    let round = [0, 1, 5, 6, 2, 3, 3, 3, 3];
    let straight = [3, 2, 1, 0, 0, 0, 0, 0, 0];
    let plan = found(8, 9, &[&round, &straight]);
    assert_eq!(answer(&hall([0, 1]), 128), plan);
    let straight = [0, 1, 2, 3, 3, 3, 3, 3, 3];
    let round = [3, 2, 6, 5, 1, 0, 0, 0, 0];
    let plan = found(8, 11, &[&straight, &round]);
    assert_eq!(answer(&hall([1, 0]), 128), plan);
}

#[test]
fn head_on_in_a_row_where_one_slips() {
    let row = slipping((3, 1), &[(0, 2, 0), (2, 0, 1)], 6);
    assert_eq!(answer(&row, 128), not_found(8, 38));
}

#[test]
fn three_of_different_slips_in_a_square() {
    let square = slipping((3, 3), &[(3, 5, 2), (1, 7, 0), (8, 0, 1)], 10);
    let across = [3, 3, 4, 5, 5, 5, 5, 5, 5, 5, 5];
    let down = [1, 4, 7, 7, 7, 7, 7, 7, 7, 7, 7];
    let corner = [8, 5, 2, 1, 0, 0, 0, 0, 0, 0, 0];
    let plan = found(9, 3, &[&across, &down, &corner]);
    assert_eq!(answer(&square, 128), plan);
}

#[test]
fn told_numbers_of_refusals() {
    let mut square = job((3, 3), &[(3, 5), (1, 7)], 0, 4);
    square.carriers[1].goal = 9;
    let told = PlanAnswer {
        number: 5,
        carrier: 1,
        ..PlanAnswer::default()
    };
    assert_eq!(answer(&square, 128), told);
    square.carriers[1].goal = 5;
    let told = PlanAnswer {
        number: 16,
        other: 1,
        ..PlanAnswer::default()
    };
    assert_eq!(answer(&square, 128), told);
    assert_eq!(answer(&square, 0), not_found(3, 0));
    assert_eq!(answer(&square, 1025), not_found(3, 0));
    square.carriers[0].slip = 5;
    let told = PlanAnswer {
        number: 5,
        ..PlanAnswer::default()
    };
    assert_eq!(answer(&square, 128), told);
}
