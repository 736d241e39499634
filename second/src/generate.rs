//! Random jobs that pass checks 1 to 6 and 16.

use crate::bar::Barred;
use crate::floor::Floor;
use crate::job::{CLOSED, Carrier, Job, MOST_CARRIERS, MOST_HORIZON, MOST_RECORDS, OPEN};
use crate::planner;
use crate::random::Random;
use crate::route;

/// A job of any kind: halls of every shape, 1 to 8 carriers, slips 0 to 4, equal and
/// unequal, H 0 to 63 but mostly just long enough. Most have a route for every
/// carrier.
pub fn job(random: &mut Random) -> Job {
    let connected = random.chance(90);
    loop {
        let (width, height) = any_shape(random);
        let density = random.pick(&[0, 0, 10, 20, 30, 45]);
        let carriers = random.pick(&[1, 2, 2, 3, 3, 4, 4, 5, 6, 7, 8]);
        let job = job_in(random, (width, height), density, carriers);
        if !connected || longest_alone(&job).is_some() {
            return job;
        }
    }
}

/// A job in a small hall with many carriers: many meetings, much need of
/// records.
pub fn crowded(random: &mut Random) -> Job {
    loop {
        let shape = (random.between(2, 6), random.between(2, 6));
        let density = random.pick(&[0, 0, 10, 20]);
        let carriers = random.between(3, MOST_CARRIERS);
        let job = job_in(random, shape, density, carriers);
        if longest_alone(&job).is_some() {
            return job;
        }
    }
}

/// A job in which carriers lose steps, so that rule 2's ties matter: ways that
/// cross, or an aisle in which one lets another pass and may have touched its
/// goal before.
pub fn waiting(random: &mut Random) -> Job {
    loop {
        let mut job = losing_steps(random, 6, 8);
        let Some(longest) = longest_alone(&job) else {
            continue;
        };
        job.horizon = (longest + to_lose(random, &job)).min(MOST_HORIZON);
        return job;
    }
}

/// A job as [`waiting`] has them, small enough for brute force: 2 or 3 carriers,
/// at most 16 cells, H at most 6, slips mostly 0 to 2.
pub fn small_waiting(random: &mut Random) -> Job {
    let mut job = losing_steps(random, 4, 5);
    job.carriers.truncate(3);
    give_small_slips(random, &mut job.carriers);
    job.horizon = random.between(4, 6);
    job
}

/// A job small enough for brute force: 2 or 3 carriers, at most 9 cells, H at
/// most 5, slips mostly 0 to 2.
pub fn small(random: &mut Random) -> Job {
    let shapes = [
        (3, 3),
        (3, 3),
        (3, 3),
        (4, 2),
        (2, 4),
        (3, 2),
        (2, 3),
        (2, 2),
        (5, 1),
        (1, 6),
        (9, 1),
    ];
    loop {
        let shape = random.pick(&shapes);
        let density = random.pick(&[0, 0, 0, 15, 30]);
        let carriers = random.between(2, 3);
        let mut job = job_in(random, shape, density, carriers);
        give_small_slips(random, &mut job.carriers);
        job.horizon = random.pick(&[0, 1, 2, 3, 4, 4, 5, 5, 5]);
        if job.carriers.len() >= 2 {
            return job;
        }
    }
}

/// A capacity at, just below or just above the job's need of records, found by
/// a run with the greatest N; that N itself, or nearly, if the need is greater.
pub fn capacity_near_need(random: &mut Random, job: &Job) -> usize {
    let need = planner::plan(job, MOST_RECORDS).records;
    let near = random.between(need.saturating_sub(2), need + 1);
    near.clamp(1, MOST_RECORDS)
}

/// A crowded job whose need of records lies near `capacity`: the nearest found
/// in a few tries.
pub fn needing_about(random: &mut Random, capacity: usize) -> Job {
    const TRIES: usize = 40;
    let reach = capacity + capacity / 4;
    let tried = (0..TRIES).map(|_| {
        let job = crowded(random);
        let need = planner::plan(&job, reach).records;
        (need.abs_diff(capacity), job)
    });
    let nearest = tried.min_by_key(|(off, _)| *off);
    nearest.expect("at least one try").1
}

/// Ways that cross in a hall with so many columns and rows at most, or an aisle of
/// so many cells at most. The horizon is still to be set.
fn losing_steps(random: &mut Random, most: usize, longest: usize) -> Job {
    loop {
        let ((width, height), hall, mut carriers) = if random.chance(65) {
            crossing_ways(random, most)
        } else {
            aisle_with_bays(random, longest)
        };
        give_slips(random, &mut carriers);
        let job = Job {
            width,
            height,
            hall,
            carriers,
            horizon: 0,
        };
        if job.carriers.len() > 1 && job.refusal(None).is_none() {
            return job;
        }
    }
}

/// Slips 0 to 4.
fn give_slips(random: &mut Random, carriers: &mut [Carrier]) {
    give_slips_of(random, carriers, &[0, 0, 0, 1, 1, 1, 2, 2, 3, 4]);
}

/// Slips 0 to 2, one in ten 4: within so few steps hardly anybody passes a carrier
/// that slips so far.
fn give_small_slips(random: &mut Random, carriers: &mut [Carrier]) {
    give_slips_of(random, carriers, &[0, 0, 0, 1, 1, 1, 2, 2, 2, 4]);
}

/// One slip for all; or one for a single carrier, heavy among light ones or light
/// among heavy ones, and one for the others; or each its own, now and then none for
/// the first two, which are often head-on.
fn give_slips_of(random: &mut Random, carriers: &mut [Carrier], slips: &[u8]) {
    let sort = random.below(20);
    let (single, usual) = (random.below(carriers.len()), random.pick(slips));
    for (i, carrier) in carriers.iter_mut().enumerate() {
        carrier.slip = match sort {
            0..=7 => usual,
            8..=11 if i != single => usual,
            12..=13 if i < 2 => 0,
            _ => random.pick(slips),
        };
    }
}

/// How many steps more than a carrier alone needs the horizon leaves it: often
/// enough to let another pass, whatever its slip.
fn to_lose(random: &mut Random, job: &Job) -> usize {
    let greatest = job.slips().into_iter().max().unwrap_or(0);
    random.between(1, 3 + 2 * greatest)
}

/// Shape, hall bytes and carriers, whose slips are still to be given.
type Layout = ((usize, usize), Vec<u8>, Vec<Carrier>);

/// Carriers that go from edge to edge, some along a row and some along a column,
/// both ways, often two of them head-on. Now and then an end is a closed cell.
fn crossing_ways(random: &mut Random, most: usize) -> Layout {
    let shape = (random.between(2, most), random.between(2, most));
    let density = random.pick(&[0, 0, 0, 10]);
    let hall = hall(random, shape.0 * shape.1, density);
    let first = way(random, shape);
    let mut carriers = vec![first];
    if random.chance(35) {
        carriers.push(without_slip(first.goal, first.start));
    }
    for _ in 0..20 {
        let way = way(random, shape);
        let apart = |other: &Carrier| other.start != way.start && other.goal != way.goal;
        if carriers.iter().all(apart) {
            carriers.push(way);
        }
    }
    carriers.truncate(random.pick(&[2, 3, 3, 4, 4, 5]));
    (shape, hall, carriers)
}

/// From an edge straight to the one opposite.
fn way(random: &mut Random, (width, height): (usize, usize)) -> Carrier {
    let (row, column) = (random.below(height), random.below(width));
    let along_row = (row * width, row * width + width - 1);
    let along_column = (column, (height - 1) * width + column);
    let (from, to) = random.pick(&[along_row, along_column]);
    let (start, goal) = random.pick(&[(from, to), (to, from)]);
    without_slip(start as u8, goal as u8)
}

fn without_slip(start: u8, goal: u8) -> Carrier {
    let slip = 0;
    Carrier { start, goal, slip }
}

/// A narrow aisle with a bay here and there on both sides, along the rows or along
/// the columns. Often one of the carriers is parked (start = goal).
fn aisle_with_bays(random: &mut Random, longest: usize) -> Layout {
    let length = random.between(3, longest);
    let mut sides = [CLOSED, OPEN, CLOSED].map(|byte| vec![byte; length]);
    for bay in 0..random.between(1, 3) {
        sides[2 * (bay % 2)][random.below(length)] = OPEN;
    }
    let (shape, hall) = if random.chance(50) {
        ((length, 3), sides.concat())
    } else {
        let across = (0..length).flat_map(|at| [0, 1, 2].map(|side| sides[side][at]));
        ((3, length), across.collect())
    };
    let few = random.between(2, 3);
    let mut carriers = carriers_on(random, &hall, few);
    if random.chance(40) {
        let parked = &mut carriers[0];
        parked.goal = parked.start;
    }
    (shape, hall, carriers)
}

fn any_shape(random: &mut Random) -> (usize, usize) {
    match random.below(12) {
        0 => (random.between(1, 16), 1),
        1 => (1, random.between(1, 16)),
        2 => (random.between(1, 16), random.between(2, 3)),
        3 => (random.between(2, 3), random.between(1, 16)),
        4..=7 => (random.between(2, 6), random.between(2, 6)),
        8..=10 => (random.between(1, 16), random.between(1, 16)),
        _ => (16, 16),
    }
}

/// A job in a hall of this shape with this share of closed cells (in 100) and
/// this many carriers, or as many as there are open cells.
fn job_in(
    random: &mut Random,
    (width, height): (usize, usize),
    density: usize,
    carriers: usize,
) -> Job {
    let hall = hall(random, width * height, density);
    let mut carriers = carriers_on(random, &hall, carriers);
    give_slips(random, &mut carriers);
    let mut job = Job {
        width,
        height,
        hall,
        carriers,
        horizon: MOST_HORIZON,
    };
    job.horizon = horizon_for(random, &job);
    job
}

/// Hall bytes with at least one open cell.
fn hall(random: &mut Random, cells: usize, density: usize) -> Vec<u8> {
    let mut hall: Vec<u8> = (0..cells)
        .map(|_| if random.chance(density) { CLOSED } else { OPEN })
        .collect();
    let open = random.below(cells);
    hall[open] = OPEN;
    hall
}

/// Carriers with different starts and different goals, their slips still to be
/// given. Some are parked (start = goal), some have the start of another as their
/// goal, which is no fault.
fn carriers_on(random: &mut Random, hall: &[u8], carriers: usize) -> Vec<Carrier> {
    let mut starts: Vec<u8> = (0..=u8::MAX)
        .zip(hall)
        .filter(|(_, byte)| **byte == OPEN)
        .map(|(cell, _)| cell)
        .collect();
    let mut goals = starts.clone();
    random.shuffle(&mut starts);
    random.shuffle(&mut goals);
    starts.truncate(carriers);
    for i in 0..starts.len() {
        match random.below(100) {
            0..=7 => send(&mut goals, i, starts[i]),
            8..=19 => send(&mut goals, i, random.pick(&starts)),
            _ => {}
        }
    }
    let ends = starts.into_iter().zip(goals);
    ends.map(|(start, goal)| without_slip(start, goal))
        .collect()
}

/// Gives carrier i the cell as its goal, and its goal to the one that had that.
fn send(goals: &mut [u8], i: usize, cell: u8) {
    let had = goals.iter().position(|goal| *goal == cell);
    goals.swap(i, had.expect("each open cell is a goal of the list"));
}

/// A horizon for the job: mostly just long enough.
fn horizon_for(random: &mut Random, job: &Job) -> usize {
    let Some(longest) = longest_alone(job) else {
        return random.between(0, MOST_HORIZON);
    };
    let horizon = match random.below(25) {
        0 => 0,
        1 => MOST_HORIZON,
        2 => random.between(0, MOST_HORIZON),
        3 => longest.saturating_sub(1),
        4 | 5 => longest,
        _ => longest + to_lose(random, job),
    };
    horizon.min(MOST_HORIZON)
}

/// The greatest cost of a carrier that is alone in the hall, if each has a
/// route within the greatest horizon.
fn longest_alone(job: &Job) -> Option<usize> {
    let floor = Floor::new(job);
    let costs = job.carriers.iter().map(|&carrier| {
        let route = route::best_route(&floor, carrier, MOST_HORIZON, &Barred::default())?;
        Some(route::cost(&route, carrier.goal))
    });
    costs.collect::<Option<Vec<_>>>()?.into_iter().max()
}

#[cfg(test)]
mod tests {
    use super::*;
    use std::collections::BTreeSet;

    #[test]
    fn jobs_pass_checks_1_to_6_and_16() {
        let mut random = Random::new(7);
        for _ in 0..300 {
            assert_eq!(job(&mut random).refusal(None), None);
            assert_eq!(crowded(&mut random).refusal(None), None);
            assert_eq!(waiting(&mut random).refusal(None), None);
            assert_eq!(small_waiting(&mut random).refusal(None), None);
            assert_eq!(small(&mut random).refusal(None), None);
        }
    }

    /// Of each sort of job a good part has equal slips and a good part unequal ones,
    /// and there are those in which the slips decide who may pass whom: one that
    /// slips and one that doesn't head-on, two without slip head-on beside others
    /// that slip, and a parked carrier beside one with another slip.
    #[test]
    fn slips_are_often_equal_and_often_unequal() {
        for draw in [job, crowded, waiting, small_waiting, small] {
            let mut random = Random::new(14);
            let mut jobs: Vec<Job> = (0..600).map(|_| draw(&mut random)).collect();
            jobs.retain(|job| job.carriers.len() > 1);
            let unequal = jobs.iter().filter(|job| !have_equal_slips(job)).count();
            assert!(3 * unequal > jobs.len(), "{unequal} of {}", jobs.len());
            assert!(4 * unequal < 3 * jobs.len(), "{unequal} of {}", jobs.len());
            let slips: BTreeSet<usize> = jobs.iter().flat_map(Job::slips).collect();
            assert!(slips.is_superset(&BTreeSet::from([0, 1, 2, 4])));
        }
    }

    #[test]
    fn slips_decide_who_may_pass_whom() {
        for draw in [waiting, small_waiting] {
            let mut random = Random::new(15);
            let jobs: Vec<Job> = (0..1000).map(|_| draw(&mut random)).collect();
            let many = |what: &dyn Fn(&Job, Carrier, Carrier) -> bool| {
                let shows = |job: &&Job| {
                    let mut pairs = job.carriers.iter().flat_map(|a| {
                        let others = job.carriers.iter();
                        others.map(move |b| (*a, *b))
                    });
                    pairs.any(|(a, b)| a != b && what(job, a, b))
                };
                jobs.iter().filter(shows).count()
            };
            let head_on = |a: Carrier, b: Carrier| a.start == b.goal && a.goal == b.start;
            let parked = |a: Carrier| a.start == a.goal;
            let one_slips = many(&|_, a, b| head_on(a, b) && a.slip == 0 && b.slip > 0);
            let far = many(&|_, a, b| head_on(a, b) && (a.slip, b.slip) == (0, 4));
            let none_slips = many(&|job, a, b| {
                head_on(a, b) && (a.slip, b.slip) == (0, 0) && !have_equal_slips(job)
            });
            let beside_parked = many(&|_, a, b| parked(a) && a.slip != b.slip);
            assert!(one_slips > 20, "only {one_slips}");
            assert!(far > 2, "only {far}");
            assert!(none_slips > 10, "only {none_slips}");
            assert!(beside_parked > 50, "only {beside_parked}");
        }
    }

    fn have_equal_slips(job: &Job) -> bool {
        let first = job.carriers[0].slip;
        job.carriers.iter().all(|carrier| carrier.slip == first)
    }

    #[test]
    fn the_start_of_another_is_often_a_goal() {
        let mut random = Random::new(9);
        let chained = |job: &Job| {
            let starts = job.carriers.iter().enumerate();
            let mut pairs =
                starts.flat_map(|a| job.carriers.iter().enumerate().map(move |b| (a, b)));
            pairs.any(|((i, a), (j, b))| i != j && a.start == b.goal)
        };
        let jobs = (0..300).map(|_| job(&mut random));
        let many = jobs.filter(chained).count();
        assert!(many > 100, "only {many}");
    }

    #[test]
    fn the_capacity_lies_around_the_need() {
        let mut random = Random::new(8);
        let mut answers = [0; 10];
        for _ in 0..25 {
            let job = crowded(&mut random);
            let capacity = capacity_near_need(&mut random, &job);
            answers[usize::from(planner::plan(&job, capacity).number)] += 1;
        }
        assert!(answers[0] > 2 && answers[9] > 2, "{answers:?}");
    }
}
