//! Jobs for the planner.

use std::iter::repeat_with;

use super::{CAPACITY, INPUTS};
use crate::task::{Carrier, PlanTask, Tables};
use crate::yardstick::records::chain_of;
use crate::yardstick::{BY_CELL, CLOSED, OPEN};
use second::random::Random;

pub struct PlanFamily {
    pub name: String,
    pub tasks: Vec<PlanTask>,
    /// Is an earlier planner asked too?
    pub for_earlier: bool,
}

/// What counts as a deep chain.
const DEEP: usize = 100;

/// A corner of three cells and the two cells that close it off, in a hall of
/// 2 by 8. Chains over 100 deep come from rooms that are full: there the
/// carriers can only wait for one another.
const CORNER: [u8; 3] = [0, 1, 2];
const WALL: [u8; 2] = [3, 4];

/// The narrow halls.
const NARROW: Shape = Shape {
    width: 2,
    height: 8,
    closed: 0,
    h: 63,
};

/// The halls of source 002, table 1: "an open 8x8 grid".
const OPEN_HALL: Shape = Shape {
    width: 8,
    height: 8,
    closed: 0,
    h: 24,
};

struct Shape {
    width: usize,
    height: usize,
    /// Closed cells in 100.
    closed: usize,
    h: usize,
}

/// The families of the brief, in its order, and one of unequal slips.
pub fn plan_families(random: &mut Random) -> Vec<PlanFamily> {
    let mut families = Vec::new();
    for carriers in [4, 6, 8] {
        for slip in [0, 1, 2] {
            families.push(open_family(random, carriers, slip));
        }
    }
    families.push(closed_family(random));
    families.push(narrow_family(random));
    families.push(deep_family(random));
    families.push(unequal_family(random));
    families
}

fn open_family(random: &mut Random, carriers: usize, slip: u8) -> PlanFamily {
    PlanFamily {
        name: format!("8 by 8 open, {carriers} carriers, slip {slip}"),
        tasks: draw_jobs(random, &OPEN_HALL, &vec![slip; carriers], |_| true),
        for_earlier: true,
    }
}

/// Source 002: "with 20% random obstacles", in the largest hall.
fn closed_family(random: &mut Random) -> PlanFamily {
    let shape = Shape {
        width: 16,
        height: 16,
        closed: 20,
        h: 63,
    };
    PlanFamily {
        name: "16 by 16, 20 % closed, 4 carriers, slip 1".into(),
        tasks: draw_jobs(random, &shape, &[1; 4], has_root),
        for_earlier: true,
    }
}

fn narrow_family(random: &mut Random) -> PlanFamily {
    PlanFamily {
        name: "2 by 8 open, 6 carriers, slip 0".into(),
        tasks: draw_jobs(random, &NARROW, &[0; 6], |_| true),
        for_earlier: true,
    }
}

fn deep_family(random: &mut Random) -> PlanFamily {
    let drawn = repeat_with(|| draw_deep_job(random));
    PlanFamily {
        name: "2 by 8, a full corner, 4 carriers, slip 0".into(),
        tasks: drawn
            .filter(|task| deepest_chain(task) > DEEP)
            .take(INPUTS)
            .collect(),
        for_earlier: true,
    }
}

/// Carriers that slip beside others that slip less or not at all. An earlier planner
/// may know one slip for all of them only.
fn unequal_family(random: &mut Random) -> PlanFamily {
    PlanFamily {
        name: "8 by 8 open, 6 carriers, slips 0 1 2 0 1 2".into(),
        tasks: draw_jobs(random, &OPEN_HALL, &[0, 1, 2, 0, 1, 2], |_| true),
        for_earlier: false,
    }
}

fn draw_jobs(
    random: &mut Random,
    shape: &Shape,
    slips: &[u8],
    wanted: fn(&PlanTask) -> bool,
) -> Vec<PlanTask> {
    repeat_with(|| draw_job(random, shape, slips))
        .filter(wanted)
        .take(INPUTS)
        .collect()
}

/// A job with different starts and different goals, and a carrier for each slip.
fn draw_job(random: &mut Random, shape: &Shape, slips: &[u8]) -> PlanTask {
    let hall: Vec<u8> = (0..shape.width * shape.height)
        .map(|_| hall_byte(random, shape.closed))
        .collect();
    let carriers = draw_carriers(random, &open_cells(&hall), slips);
    task(shape, hall, carriers)
}

/// A narrow job with three carriers that fill a corner and one elsewhere.
fn draw_deep_job(random: &mut Random) -> PlanTask {
    let mut hall = vec![OPEN; NARROW.width * NARROW.height];
    for cell in WALL {
        hall[usize::from(cell)] = CLOSED;
    }
    let elsewhere: Vec<u8> = open_cells(&hall)
        .into_iter()
        .filter(|cell| !CORNER.contains(cell))
        .collect();
    let mut carriers = draw_carriers(random, &CORNER, &[0; CORNER.len()]);
    carriers.extend(draw_carriers(random, &elsewhere, &[0]));
    random.shuffle(&mut carriers);
    task(&NARROW, hall, carriers)
}

/// A carrier for each slip, with different starts and different goals.
fn draw_carriers(random: &mut Random, cells: &[u8], slips: &[u8]) -> Vec<Carrier> {
    let mut starts = cells.to_vec();
    let mut goals = cells.to_vec();
    random.shuffle(&mut starts);
    random.shuffle(&mut goals);
    let records = starts.into_iter().zip(goals).zip(slips);
    records
        .map(|((start, goal), &slip)| Carrier { start, goal, slip })
        .collect()
}

fn task(shape: &Shape, hall: Vec<u8>, carriers: Vec<Carrier>) -> PlanTask {
    PlanTask {
        hall,
        width: shape.width,
        height: shape.height,
        carriers,
        h: shape.h,
        n: CAPACITY,
    }
}

fn hall_byte(random: &mut Random, closed: usize) -> u8 {
    if random.below(100) < closed {
        CLOSED
    } else {
        OPEN
    }
}

fn open_cells(hall: &[u8]) -> Vec<u8> {
    (0..=u8::MAX)
        .zip(hall)
        .filter(|(_, byte)| **byte == OPEN)
        .map(|(cell, _)| cell)
        .collect()
}

/// Has each carrier a route without bars?
fn has_root(task: &PlanTask) -> bool {
    let mut tables = Tables::new(task, 0, 0);
    BY_CELL.grow(task, &mut tables).records() > 0
}

/// The most bars on one chain of the job's tree.
pub fn deepest_chain(task: &PlanTask) -> usize {
    let mut tables = Tables::new(task, 0, 0);
    let records = BY_CELL.grow(task, &mut tables).records();
    let depth = |node| chain_of(&tables.columns, task.n, node).count() - 1;
    (0..records).map(depth).max().unwrap_or(0)
}
