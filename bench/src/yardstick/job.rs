//! Checks 1 to 7, "the lowest number is given", and document 02's 16, "directly
//! after 6".

use super::floor::{CLOSED, OPEN};
use super::records::MOST_RECORDS;
use crate::task::{Carrier, PlanTask, Tables, Told};

const MOST_SIDE: usize = 16;
const MOST_SLIP: u8 = 4;
pub const MOST_HORIZON: usize = 63;
pub const MOST_CARRIERS: usize = 8;

/// What is told of a job or of tables that are refused.
pub fn refusal(task: &PlanTask, tables: &Tables) -> Option<Told> {
    let alone = |number| Some([number, 0, 0, 0, 0, 0, 0]);
    if !right_sides(task.width, task.height) {
        return alone(1);
    }
    if !right_hall(&task.hall, task.width, task.height) {
        return alone(2);
    }
    if !right_limits(task) {
        return alone(3);
    }
    if !(1..=MOST_CARRIERS).contains(&task.count()) {
        return alone(4);
    }
    if let Some(carrier) = wrong_carrier(task) {
        return Some([5, 0, 0, carrier, 0, 0, 0]);
    }
    if let Some((carrier, other)) = sharing(task, |carrier| carrier.start) {
        return Some([6, 0, 0, carrier, other, 0, 0]);
    }
    if let Some((carrier, other)) = sharing(task, |carrier| carrier.goal) {
        return Some([16, 0, 0, carrier, other, 0, 0]);
    }
    let (table, needed) = short(task, tables)?;
    Some([7, 0, 0, 0, 0, table, needed])
}

pub fn right_sides(width: usize, height: usize) -> bool {
    (1..=MOST_SIDE).contains(&width) && (1..=MOST_SIDE).contains(&height)
}

pub fn right_hall(hall: &[u8], width: usize, height: usize) -> bool {
    let right_byte = |byte: u8| byte == OPEN || byte == CLOSED;
    // All bytes are looked at: without a way out the loop is vectorised.
    hall.len() == width * height
        && hall
            .iter()
            .fold(true, |right, &byte| right & right_byte(byte))
}

fn right_limits(task: &PlanTask) -> bool {
    task.h <= MOST_HORIZON && (1..=MOST_RECORDS).contains(&task.n)
}

/// The first carrier of which an end is "outside the grid or closed", or the slip
/// "above 4".
fn wrong_carrier(task: &PlanTask) -> Option<usize> {
    let open = |cell: u8| task.hall.get(usize::from(cell)) == Some(&OPEN);
    let right =
        |carrier: &Carrier| open(carrier.start) && open(carrier.goal) && carrier.slip <= MOST_SLIP;
    task.carriers.iter().position(|carrier| !right(carrier))
}

/// The first two carriers with one start, or with one goal: "least i, then least
/// j, i < j".
fn sharing(task: &PlanTask, end: fn(&Carrier) -> u8) -> Option<(usize, usize)> {
    task.carriers.iter().enumerate().find_map(|(i, carrier)| {
        let mut behind = task.carriers[i + 1..].iter();
        let offset = behind.position(|other| end(other) == end(carrier))?;
        Some((i, i + 1 + offset))
    })
}

/// Document 02: "the first short table, in document 01's order, and the length it
/// needed".
fn short(task: &PlanTask, tables: &Tables) -> Option<(usize, usize)> {
    [
        (tables.columns.len(), task.columns_len()),
        (tables.plans.len(), task.plans_len()),
        (tables.layers.len(), task.layers_len()),
        (tables.output.len(), task.stretch_len()),
    ]
    .into_iter()
    .enumerate()
    .find(|(_, (lent, needed))| lent < needed)
    .map(|(table, (_, needed))| (table, needed))
}
