//! Document 01, "Jobs worked by hand", cells all open, slips 0 and N 128 where not
//! given, on both yardsticks, with document 02's P2 and P3; carriers that share a
//! start or a goal, and wrong ones.

use bench::compare::planned;
use bench::task::{Carrier, PlanTask, Tables, Told};
use bench::yardstick::{BY_CELL, BY_LAYER, OPEN};

/// `carriers` has the start, the goal and the slip of each in turn.
fn job(width: usize, height: usize, carriers: &[u8], h: usize) -> PlanTask {
    PlanTask {
        hall: vec![OPEN; width * height],
        width,
        height,
        carriers: (carriers.as_chunks().0.iter())
            .map(|&[start, goal, slip]| Carrier { start, goal, slip })
            .collect(),
        h,
        n: 128,
    }
}

/// What both yardsticks tell, and the tables afterwards.
fn solved(task: &PlanTask) -> (Told, Tables) {
    let solved = planned(&BY_CELL, task);
    assert_eq!(solved, planned(&BY_LAYER, task));
    solved
}

fn told(task: &PlanTask) -> Told {
    solved(task).0
}

fn counted(number: usize, sum: usize, records: usize) -> Told {
    [number, sum, records, 0, 0, 0, 0]
}

/// The job with one slip for all carriers.
fn slipping(task: &PlanTask, slip: u8) -> PlanTask {
    let mut task = task.clone();
    for carrier in &mut task.carriers {
        carrier.slip = slip;
    }
    task
}

/// What is told of two carriers that share an end.
fn pair(number: usize, carrier: usize, other: usize) -> Told {
    [number, 0, 0, carrier, other, 0, 0]
}

fn routes(task: &PlanTask) -> Vec<u8> {
    solved(task).1.output[..task.stretch_len()].to_vec()
}

#[test]
fn crossing_in_a_square() {
    let square = job(3, 3, &[3, 5, 0, 1, 7, 0], 4);
    let three = PlanTask { n: 3, ..square };
    assert_eq!(told(&three), counted(0, 5, 3));
    assert_eq!(routes(&three), [3, 3, 4, 5, 5, 1, 4, 7, 7, 7]);
    let delayed = slipping(&three, 1);
    let two = PlanTask { n: 2, ..three };
    assert_eq!(told(&two), counted(9, 0, 2));
    assert_eq!(told(&delayed), counted(0, 6, 3));
    assert_eq!(routes(&delayed), [3, 3, 3, 4, 5, 1, 4, 7, 7, 7]);
}

/// "Prefer standing to wandering": a carrier that must lose steps waits.
#[test]
fn standing() {
    let square = job(4, 4, &[4, 7, 2, 1, 13, 2], 10);
    assert_eq!(told(&square), counted(0, 9, 9));
    let first = [4, 4, 4, 4, 5, 6, 7, 7, 7, 7, 7];
    let second = [1, 5, 9, 13, 13, 13, 13, 13, 13, 13, 13];
    assert_eq!(routes(&square), [first, second].concat());
    let wide = job(5, 3, &[5, 9, 2, 2, 12, 2], 10);
    assert_eq!(told(&wide), counted(0, 8, 5));
    let first = [5, 5, 5, 6, 7, 8, 9, 9, 9, 9, 9];
    let second = [2, 7, 12, 12, 12, 12, 12, 12, 12, 12, 12];
    assert_eq!(routes(&wide), [first, second].concat());
}

/// "Each carrier's record now has its own slip": the one that slips keeps its way.
#[test]
fn own_slips() {
    let second_slips = job(4, 2, &[0, 3, 0, 3, 0, 1], 8);
    assert_eq!(told(&second_slips), counted(0, 8, 9));
    let first = [0, 1, 5, 6, 2, 3, 3, 3, 3];
    let second = [3, 2, 1, 0, 0, 0, 0, 0, 0];
    assert_eq!(routes(&second_slips), [first, second].concat());
    let first_slips = job(4, 2, &[0, 3, 1, 3, 0, 0], 8);
    assert_eq!(told(&first_slips), counted(0, 8, 11));
    let first = [0, 1, 2, 3, 3, 3, 3, 3, 3];
    let second = [3, 2, 6, 5, 1, 0, 0, 0, 0];
    assert_eq!(routes(&first_slips), [first, second].concat());
    let row = job(3, 1, &[0, 2, 0, 2, 0, 1], 6);
    assert_eq!(told(&row), counted(8, 0, 38));
    let three = job(3, 3, &[3, 5, 2, 1, 7, 0, 8, 0, 1], 10);
    assert_eq!(told(&three), counted(0, 9, 3));
    let first = [3, 3, 4, 5, 5, 5, 5, 5, 5, 5, 5];
    let second = [1, 4, 7, 7, 7, 7, 7, 7, 7, 7, 7];
    let third = [8, 5, 2, 1, 0, 0, 0, 0, 0, 0, 0];
    assert_eq!(routes(&three), [first, second, third].concat());
}

#[test]
fn one_carrier() {
    assert_eq!(told(&job(3, 1, &[0, 2, 0], 2)), counted(0, 2, 1));
    assert_eq!(told(&job(3, 1, &[0, 2, 0], 1)), counted(8, 0, 0));
    assert_eq!(told(&job(1, 1, &[0, 0, 0], 0)), counted(0, 0, 1));
}

#[test]
fn head_on() {
    assert_eq!(told(&job(3, 1, &[0, 2, 0, 2, 0, 0], 2)), counted(8, 0, 1));
    assert_eq!(told(&job(2, 1, &[0, 1, 0, 1, 0, 0], 1)), counted(8, 0, 1));
}

#[test]
fn one_behind_the_other() {
    let row = job(3, 1, &[0, 1, 0, 1, 2, 0], 1);
    assert_eq!(told(&row), counted(0, 2, 1));
    let delayed = slipping(&row, 1);
    assert_eq!(told(&delayed), counted(8, 0, 1));
    let longer = PlanTask { h: 2, ..delayed };
    assert_eq!(told(&longer), counted(0, 3, 2));
    assert_eq!(routes(&longer), [0, 0, 1, 1, 2, 2]);
}

#[test]
fn past_a_carrier_on_its_goal() {
    let [number, sum, ..] = told(&job(4, 2, &[6, 2, 0, 0, 3, 0], 3));
    assert_eq!((number, sum), (0, 6));
}

#[test]
fn shared_ends() {
    let row = |ends: &[[u8; 2]]| {
        let carriers: Vec<_> = ends.iter().map(|&[start, goal]| [start, goal, 0]).collect();
        job(16, 1, carriers.as_flattened(), 15)
    };
    let start = [[0, 1], [1, 2], [2, 3], [1, 4]];
    assert_eq!(told(&row(&start)), pair(6, 1, 3));
    let goal = [[0, 1], [1, 2], [2, 3], [4, 2]];
    assert_eq!(told(&row(&goal)), pair(16, 1, 3));
    assert_eq!(told(&row(&[[0, 1], [0, 1]])), pair(6, 0, 1));
    let starts = [0, 1, 2, 3, 4, 5, 6, 6];
    let goals = [8, 8, 9, 10, 11, 12, 13, 14];
    let eight: Vec<_> = (0..8).map(|i| [starts[i], goals[i]]).collect();
    assert_eq!(told(&row(&eight)), pair(6, 6, 7));
    assert_eq!(told(&row(&[[0, 1], [1, 2]])), counted(0, 2, 1));
}

/// "a slip above 4 is 5", with the first carrier that is wrong in any way.
#[test]
fn wrong_carriers() {
    let row = |carriers: &[u8]| told(&job(3, 1, carriers, 2));
    let wrong = |carrier: usize| [5, 0, 0, carrier, 0, 0, 0];
    assert_eq!(row(&[0, 1, 5, 1, 2, 0]), wrong(0));
    assert_eq!(row(&[0, 1, 4, 1, 2, 5]), wrong(1));
    assert_eq!(row(&[0, 1, 5, 1, 3, 0]), wrong(0));
    assert_eq!(row(&[0, 1, 0, 1, 3, 0, 2, 0, 5]), wrong(1));
    let longer = job(3, 1, &[0, 1, 5], 64);
    assert_eq!(told(&longer), counted(3, 0, 0));
}
