//! The inputs: families of best-route calls and of jobs, from one seed.

mod chains;
mod jobs;

pub use chains::{RouteFamily, route_families};
pub use jobs::{PlanFamily, deepest_chain, plan_families};

/// The seed of all inputs.
pub const SEED: u64 = 20_180_710;

/// Inputs in a family.
const INPUTS: usize = 32;

/// "N = 1024".
const CAPACITY: usize = 1024;
