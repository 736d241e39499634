//! Best-route calls under a chain of bars.
//!
//! A chain is grown as the search grows one: each bar takes from the carrier a
//! cell or a crossing of the best route under the bars before it.

use std::iter::repeat_with;

use super::{CAPACITY, INPUTS};
use crate::side::Side;
use crate::task::{COLUMNS, NO_ROUTE, RouteTask};
use crate::yardstick::records::{Bar, write_record, write_root};
use crate::yardstick::{BY_CELL, OPEN};
use second::random::Random;

pub struct RouteFamily {
    pub name: &'static str,
    pub tasks: Vec<RouteTask>,
}

/// How often a bar that leaves no route is drawn again.
const TRIES: usize = 20;

/// The carrier whose route is asked for.
const CARRIER: usize = 1;

#[derive(Clone, Copy)]
enum BarKind {
    /// A cell, from a step on for as many steps more.
    Stay {
        more: usize,
    },
    Crossing,
}

struct Shape {
    name: &'static str,
    width: usize,
    height: usize,
    h: usize,
    bars: usize,
    kind: BarKind,
}

/// The families of the brief, in its order.
pub fn route_families(random: &mut Random) -> Vec<RouteFamily> {
    let wide_stays = BarKind::Stay { more: 2 };
    let narrow_stays = BarKind::Stay { more: 0 };
    [
        shape("16 by 16, H 63, no bars", (16, 16), 63, 0, wide_stays),
        shape("16 by 16, H 63, 35 stays", (16, 16), 63, 35, wide_stays),
        shape("16 by 16, H 63, 150 stays", (16, 16), 63, 150, wide_stays),
        shape("8 by 8, H 24, no bars", (8, 8), 24, 0, wide_stays),
        shape("2 by 8, H 63, 150 stays", (2, 8), 63, 150, narrow_stays),
        shape(
            "2 by 8, H 63, 150 crossings",
            (2, 8),
            63,
            150,
            BarKind::Crossing,
        ),
    ]
    .map(|shape| family(random, &shape))
    .into()
}

fn shape(
    name: &'static str,
    (width, height): (usize, usize),
    h: usize,
    bars: usize,
    kind: BarKind,
) -> Shape {
    Shape {
        name,
        width,
        height,
        h,
        bars,
        kind,
    }
}

fn family(random: &mut Random, shape: &Shape) -> RouteFamily {
    let drawn = repeat_with(|| chained(random, shape));
    RouteFamily {
        name: shape.name,
        tasks: drawn.flatten().take(INPUTS).collect(),
    }
}

/// A call under a full chain of bars; nothing if the carrier ran out of routes.
fn chained(random: &mut Random, shape: &Shape) -> Option<RouteTask> {
    let mut task = bare(random, shape);
    for _ in 0..shape.bars {
        (0..TRIES).find(|_| add_bar(random, &mut task, shape.kind))?;
    }
    Some(task)
}

/// A call at the root of an open hall.
fn bare(random: &mut Random, shape: &Shape) -> RouteTask {
    let size = shape.width * shape.height;
    let start = random.below(size);
    let mut columns = vec![0; COLUMNS * CAPACITY];
    write_root(&mut columns, CAPACITY);
    RouteTask {
        hall: vec![OPEN; size],
        width: shape.width,
        height: shape.height,
        start,
        goal: (start + 1 + random.below(size - 1)) % size,
        h: shape.h,
        columns,
        capacity: CAPACITY,
        node: 0,
        carrier: CARRIER,
    }
}

/// Adds a child with one more bar; false, and the call as it was, if the bar
/// would leave no route.
fn add_bar(random: &mut Random, task: &mut RouteTask, kind: BarKind) -> bool {
    let (cost, route) = best_route(task);
    let Some(bar) = draw_bar(random, &route, cost, kind) else {
        return false;
    };
    let parent = task.node;
    let child = parent + 1;
    write_record(&mut task.columns, CAPACITY, child, parent, CARRIER, bar);
    task.node = child;
    let remains = best_route(task).0 != NO_ROUTE;
    if !remains {
        task.node = parent;
    }
    remains
}

/// A bar on a random step of the route; nothing if the carrier stays there and
/// a crossing is wanted.
fn draw_bar(random: &mut Random, route: &[u8], cost: usize, kind: BarKind) -> Option<Bar> {
    let step = random.below(cost);
    let [from, to] = [route[step], route[step + 1]].map(usize::from);
    match kind {
        BarKind::Stay { more } => Some(Bar::Stay {
            cell: to,
            first: step + 1,
            last: (step + 1 + more).min(route.len() - 1),
        }),
        BarKind::Crossing => (from != to).then_some(Bar::Crossing { from, to, step }),
    }
}

fn best_route(task: &RouteTask) -> (usize, Vec<u8>) {
    let mut layers = vec![0; task.layers_len()];
    let mut route = vec![0; task.stretch_len()];
    let cost = BY_CELL.best_route(task, &mut layers, &mut route);
    (cost, route)
}
