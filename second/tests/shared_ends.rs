//! P1 of document 02, "Tell us which ends are shared", sentence by sentence.

mod common;

use common::{N, eight_slipping, refused_everywhere};
use second::check::{CheckAnswer, meeting_check, route_check};
use second::job::Job;
use second::planner::{plan, plan_lent};
use second::tables::least_lengths;

/// Eight carriers that do not slip.
fn eight() -> Job {
    eight_slipping(|_| 0)
}

fn share_start(job: &mut Job, i: usize, j: usize) {
    job.carriers[j].start = job.carriers[i].start;
}

fn share_goal(job: &mut Job, i: usize, j: usize) {
    job.carriers[j].goal = job.carriers[i].goal;
}

/// This number with this pair, wherever 6 and 16 are given.
fn pair_everywhere(job: &Job, number: u8, i: usize, j: usize) {
    refused_everywhere(job, number, i, j, &format!("carriers {i} {j}"));
}

/// "Keep 6 for two carriers with one start".
#[test]
fn one_start_is_6() {
    let mut job = eight();
    share_start(&mut job, 2, 5);
    pair_everywhere(&job, 6, 2, 5);
    share_start(&mut job, 1, 7);
    pair_everywhere(&job, 6, 1, 7);
    share_start(&mut job, 1, 3);
    pair_everywhere(&job, 6, 1, 3);
}

/// "and use a new number for one goal": "16 shared goal".
#[test]
fn one_goal_is_16() {
    let mut job = eight();
    share_goal(&mut job, 2, 5);
    pair_everywhere(&job, 16, 2, 5);
    share_goal(&mut job, 1, 7);
    pair_everywhere(&job, 16, 1, 7);
    share_goal(&mut job, 1, 3);
    pair_everywhere(&job, 16, 1, 3);
}

/// "each with the pair": each its own, whichever is the lesser.
#[test]
fn one_goal_of_0_and_1_beside_one_start_of_6_and_7_is_6_with_6_and_7() {
    let mut job = eight();
    share_goal(&mut job, 0, 1);
    pair_everywhere(&job, 16, 0, 1);
    share_start(&mut job, 6, 7);
    pair_everywhere(&job, 6, 6, 7);
}

#[test]
fn one_pair_with_one_start_and_one_goal_is_6() {
    let mut job = eight();
    job.carriers[4] = job.carriers[2];
    pair_everywhere(&job, 6, 2, 4);
}

/// Only "two carriers with one start" and with "one goal" are refused.
#[test]
fn a_goal_that_is_the_start_of_another_is_no_fault() {
    let mut job = eight();
    job.carriers[0].goal = job.carriers[1].start;
    job.carriers[1].goal = job.carriers[0].start;
    job.carriers[2].goal = job.carriers[2].start;
    assert_eq!(job.refusal(Some(N)), None);
    let bytes = vec![0; 8 * 7];
    assert_eq!(route_check(&job, &bytes).number, 21);
    assert_eq!(meeting_check(&job, &bytes).number, 22);
}

/// "directly after 6 wherever 6 is given": before 7, but behind 1 to 5, a fault of
/// each being added here to a shared goal and tables that are too short.
#[test]
fn lower_numbers_come_before_16() {
    let mut job = eight();
    share_goal(&mut job, 0, 1);
    assert_eq!(numbers(&job), [16; 3]);
    job.carriers[5].goal = 16;
    assert_eq!(numbers(&job), [5; 3]);
    job.carriers.push(job.carriers[0]);
    assert_eq!(numbers(&job), [4; 3]);
    job.horizon = 64;
    assert_eq!(numbers(&job), [3; 3]);
    job.hall.pop();
    assert_eq!(numbers(&job), [2; 3]);
    job.width = 17;
    assert_eq!(numbers(&job), [1; 3]);
}

/// What the planner and both checks give back where all that is lent is empty.
fn numbers(job: &Job) -> [u8; 3] {
    let planned = plan_lent(job, N, [0; 4]);
    let checked = [route_check(job, &[]), meeting_check(job, &[])];
    [planned.number, checked[0].number, checked[1].number]
}

/// "Likewise 7 should name the first short table, in document 01's order, and
/// the length it needed": every choice of short tables, each by one entry. "7
/// reads the new length" of the layers (P2).
#[test]
fn seven_names_the_first_short_table_and_what_it_needed() {
    let job = eight();
    let least = [8 * 3, 3 * 8 * 7, 2 * 7 * 16, 8 * 7];
    assert_eq!(least_lengths(&job, 3), least);
    for short in 1..16 {
        let is_short = |table: usize| short >> table & 1 == 1;
        let lengths = [0, 1, 2, 3].map(|table| least[table] - usize::from(is_short(table)));
        let mut tables = 0..4;
        let first = tables.find(|&table| is_short(table)).expect("one is short");
        let told = [7, 0, 0, 0, 0, first, least[first]];
        assert_eq!(plan_lent(&job, 3, lengths).told(), told);
    }
    assert_eq!(plan_lent(&job, 3, least), plan(&job, 3));
    assert_ne!(plan(&job, 3).number, 7);
}

/// The same of the plan, the only table that the two checks are lent.
#[test]
fn seven_of_a_check_tells_the_length_that_the_plan_needed() {
    let short = CheckAnswer {
        number: 7,
        needed: 8 * 7,
        ..CheckAnswer::default()
    };
    for length in [0, 1, 8 * 7 - 1] {
        assert_eq!(route_check(&eight(), &vec![0; length]), short);
        assert_eq!(meeting_check(&eight(), &vec![0; length]), short);
    }
}

/// What is told grows at its end: "Untold numbers are 0".
#[test]
fn the_new_numbers_are_told_last() {
    let found = plan(&eight(), N);
    let (sum, records) = (found.sum, found.records);
    assert_eq!(found.told(), [0, sum, records, 0, 0, 0, 0]);
    let meeting = CheckAnswer {
        number: 22,
        carrier: 1,
        other: 2,
        step: 3,
        distance: 4,
        swap: true,
        needed: 5,
    };
    assert_eq!(meeting.told(), [22, 1, 2, 3, 4, 1, 5]);
}
