//! The lent tables, which this planner judges by their lengths and never
//! touches: check 7, "a lent table is too short".

use crate::job::Job;

/// The lengths of record columns, plans, layers and output, each in its own
/// entries.
pub type Lengths = [usize; 4];

/// Tables that suffice for every job.
pub const ENOUGH: Lengths = [usize::MAX; 4];

/// What 7 tells: "the first short table, in document 01's order, and the length
/// it needed" (P1).
#[derive(Clone, Copy, Debug, PartialEq, Eq)]
pub struct ShortTable {
    /// 0 for the record columns, 1 plans, 2 layers, 3 output.
    pub table: usize,
    pub needed: usize,
}

/// "Lent tables, for m carriers: record columns, 16-bit, at least 8 × N; plans,
/// bytes, at least N × m × (H + 1); layers, bytes, at least (H + 1) × width ×
/// height; output, at least m × (H + 1) bytes." P2: "The layers table needs twice
/// its length." Asked only for a job and an N that pass checks 1 to 4: then no
/// product is too great.
pub fn least_lengths(job: &Job, capacity: usize) -> Lengths {
    let steps = job.horizon + 1;
    let plan = job.carriers.len() * steps;
    let layers = 2 * steps * job.width * job.height;
    [8 * capacity, capacity * plan, layers, plan]
}

/// Check 7 of tables with these lengths, if so much is needed.
pub fn first_short(lengths: Lengths, least: Lengths) -> Option<ShortTable> {
    let short = |table: &usize| lengths[*table] < least[*table];
    let table = (0..lengths.len()).find(short)?;
    Some(ShortTable {
        table,
        needed: least[table],
    })
}
