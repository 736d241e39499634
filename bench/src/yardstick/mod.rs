//! The yardstick: document 01's rules, with document 02's as far as they are built,
//! in release Rust, as one would write them for speed with the idea of the proved
//! planner. Layers of the best ways on are filled from step H down to 0 and the route
//! is read off forwards; the bars of a node are walked once a route, into marks; the
//! search is best-first over record columns. Safe Rust over slices.
//!
//! The layers are filled in one of two ways ([`fill`]): cell by cell ([`by_cell`]), or
//! all cells of a layer at once ([`by_layer`]). All else is shared.

#![forbid(unsafe_code)]

mod by_cell;
mod by_layer;
mod clash;
mod crossings;
mod fill;
mod floor;
mod job;
mod planner;
pub mod records;
mod route;

use std::marker::PhantomData;

use crate::side::Side;
use crate::task::{BAD_ARGUMENTS, PlanTask, RouteTask, Tables, Told};
use fill::Fill;
use floor::Floor;
use route::Router;

pub use floor::{CLOSED, OPEN};
pub use planner::Outcome;

/// The rules with one way of filling a layer.
pub struct Yardstick<F>(PhantomData<F>);

/// The yardstick that fills a layer cell by cell.
pub const BY_CELL: Yardstick<by_cell::ByCell> = Yardstick(PhantomData);

/// The yardstick that fills all cells of a layer at once.
pub const BY_LAYER: Yardstick<by_layer::ByLayer> = Yardstick(PhantomData);

impl<F: Fill> Yardstick<F> {
    /// Grows the tree of an accepted job and leaves it in the tables.
    pub fn grow(&self, task: &PlanTask, tables: &mut Tables) -> Outcome {
        planner::search::<F>(task, tables)
    }
}

impl<F: Fill> Side for Yardstick<F> {
    fn name(&self) -> &'static str {
        F::NAME
    }

    fn best_route(&self, task: &RouteTask, layers: &mut [u8], stretch: &mut [u8]) -> usize {
        if !accepts(task, layers, stretch) {
            return BAD_ARGUMENTS;
        }
        let floor = Floor::new(&task.hall, task.width);
        let mut router = Router::<F>::new(floor, task.h);
        let bars = records::bars_of(&task.columns, task.capacity, task.node, task.carrier);
        let cost = router.seek(task.start, task.goal, bars, layers);
        if cost != fill::NONE {
            router.write(task.start, cost, layers, stretch);
        }
        usize::from(cost)
    }

    fn plan(&self, task: &PlanTask, tables: &mut Tables) -> Told {
        match job::refusal(task, tables) {
            Some(told) => told,
            None => planner::plan::<F>(task, tables),
        }
    }
}

/// Are the arguments of a best-route call good ones?
fn accepts(task: &RouteTask, layers: &[u8], stretch: &[u8]) -> bool {
    job::right_sides(task.width, task.height)
        && job::right_hall(&task.hall, task.width, task.height)
        && task.h <= job::MOST_HORIZON
        && task.start < task.hall.len()
        && task.goal < task.hall.len()
        && layers.len() >= task.layers_len()
        && stretch.len() >= task.stretch_len()
        && records::chain_falls(&task.columns, task.capacity, task.node)
}
