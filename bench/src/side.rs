//! What the benchmark asks of the proved planner and of the yardsticks alike.

use crate::task::{PlanTask, RouteTask, Tables, Told};

pub trait Side {
    fn name(&self) -> &'static str;

    /// Is this an earlier planner, whose rules may differ?
    fn earlier(&self) -> bool {
        false
    }

    /// Writes the best route into the stretch, of h + 1 bytes, and gives its cost, 255 for no
    /// route, 254 for bad arguments.
    fn best_route(&self, task: &RouteTask, layers: &mut [u8], stretch: &mut [u8]) -> usize;

    /// Plans a job in the lent tables.
    fn plan(&self, task: &PlanTask, tables: &mut Tables) -> Told;
}
