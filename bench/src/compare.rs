//! Equal results of all sides on every input; of an earlier planner, which may take
//! another route or need other records, equal costs and answers.

use crate::side::Side;
use crate::task::{PlanTask, RouteTask, Tables, Told};

/// Lent tables hold this byte before a compared call, so that entries which
/// have to be unchanged are seen.
const BEFORE: u8 = 0xA5;

/// Entries lent beyond the least lengths.
const SPARE: usize = 3;

/// The answer that depends on how many records the rules take.
const NO_RECORD_LEFT: usize = 9;

/// The sides whose cost or stretch differs from the first side's.
pub fn differing_routes<'a>(sides: &[&'a dyn Side], task: &RouteTask) -> Vec<&'a str> {
    let result = |side: &dyn Side| {
        let mut layers = vec![BEFORE; task.layers_len()];
        let mut stretch = vec![BEFORE; task.stretch_len()];
        (side.best_route(task, &mut layers, &mut stretch), stretch)
    };
    differing(sides, result, |(cost, _), (other, _)| cost == other)
}

/// The sides whose told numbers, or any table, differ from the first side's.
pub fn differing_plans<'a>(sides: &[&'a dyn Side], task: &PlanTask) -> Vec<&'a str> {
    differing(
        sides,
        |side| planned(side, task),
        |(told, _), (other, _)| same_sum(told, other),
    )
}

/// The same answer and sum, as far as both had the records for one.
fn same_sum(told: &Told, other: &Told) -> bool {
    [told, other].iter().any(|told| told[0] == NO_RECORD_LEFT) || told[..2] == other[..2]
}

/// What a side tells of a job, and the tables afterwards.
pub fn planned(side: &dyn Side, task: &PlanTask) -> (Told, Tables) {
    let mut tables = Tables::new(task, SPARE, BEFORE);
    (side.plan(task, &mut tables), tables)
}

/// The sides that differ from the first; `agree` is what is asked of an earlier one.
fn differing<'a, R: PartialEq>(
    sides: &[&'a dyn Side],
    result: impl Fn(&dyn Side) -> R,
    agree: impl Fn(&R, &R) -> bool,
) -> Vec<&'a str> {
    let expected = result(sides[0]);
    let differs = |side: &dyn Side| {
        let result = result(side);
        result != expected && !(side.earlier() && agree(&result, &expected))
    };
    (sides[1..].iter())
        .filter(|side| differs(**side))
        .map(|side| side.name())
        .collect()
}
