//! Refusals 5, 6, 16 and 7 by their words: the carriers with each fault and all
//! pairs of carriers are listed, and each table is asked by its own sentence.

use crate::job::{Carrier, Job};

/// The number with the carrier and the other that are told.
pub type Told = (usize, usize, usize);

/// All carriers with "a start or goal ... outside the grid or closed".
pub fn with_wrong_end(job: &Job) -> Vec<usize> {
    let outside_or_closed = |cell: u8| {
        let cell = usize::from(cell);
        cell >= job.width * job.height || job.hall[cell] == b'#'
    };
    with_fault(job, |carrier| {
        outside_or_closed(carrier.start) || outside_or_closed(carrier.goal)
    })
}

/// All carriers with "a slip above 4".
pub fn with_wrong_slip(job: &Job) -> Vec<usize> {
    with_fault(job, |carrier| ![0, 1, 2, 3, 4].contains(&carrier.slip))
}

fn with_fault(job: &Job, fault: impl Fn(&Carrier) -> bool) -> Vec<usize> {
    let carriers = 0..job.carriers.len();
    carriers.filter(|&i| fault(&job.carriers[i])).collect()
}

/// All pairs i < j of "two carriers with one start".
pub fn with_one_start(job: &Job) -> Vec<(usize, usize)> {
    with_one(job, |carrier| carrier.start)
}

/// All pairs i < j with "one goal".
pub fn with_one_goal(job: &Job) -> Vec<(usize, usize)> {
    with_one(job, |carrier| carrier.goal)
}

fn with_one(job: &Job, end: fn(&Carrier) -> u8) -> Vec<(usize, usize)> {
    let carriers = &job.carriers;
    let mut pairs = Vec::new();
    for j in 0..carriers.len() {
        for i in 0..j {
            if end(&carriers[i]) == end(&carriers[j]) {
                pairs.push((i, j));
            }
        }
    }
    pairs
}

/// What is refused of a job that passes checks 1 to 4: 5 with the "first such
/// carrier" of either list, or what is shared.
pub fn refused(job: &Job) -> Option<Told> {
    let faults = [with_wrong_end(job), with_wrong_slip(job)].concat();
    match faults.into_iter().min() {
        Some(carrier) => Some((5, carrier, 0)),
        None => shared(job),
    }
}

/// 5 as far as it is said of starts and goals.
pub fn wrong_end(job: &Job) -> Option<Told> {
    let first = with_wrong_end(job).into_iter().min();
    first.map(|carrier| (5, carrier, 0))
}

/// The number with "least i, then least j": 6, or 16 "directly after 6".
pub fn shared(job: &Job) -> Option<Told> {
    if let Some((i, j)) = with_one_start(job).into_iter().min() {
        return Some((6, i, j));
    }
    let (i, j) = with_one_goal(job).into_iter().min()?;
    Some((16, i, j))
}

/// "the first short table, in document 01's order, and the length it needed"; the
/// layers as P2 has them, "twice its length".
pub fn short_table(job: &Job, n: usize, lengths: [usize; 4]) -> Option<(usize, usize)> {
    let [columns, plans, layers, output] = lengths;
    let (m, steps) = (job.carriers.len(), job.horizon + 1);
    if columns < 8 * n {
        return Some((0, 8 * n));
    }
    if plans < n * m * steps {
        return Some((1, n * m * steps));
    }
    let once = steps * job.width * job.height;
    if layers < once + once {
        return Some((2, once + once));
    }
    (output < m * steps).then_some((3, m * steps))
}
