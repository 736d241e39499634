//! The planner: checks 1 to 6, then 16, then 7, then the tree, then the numbers
//! given back. Of the lent tables it is told only the lengths.

use crate::job::{Job, Refusal};
use crate::route::Route;
use crate::tables::{self, ENOUGH, Lengths, ShortTable};
use crate::tree::{self, Outcome};

/// The numbers given back and the plan. "Untold numbers are 0", and there are
/// routes only for 0.
#[derive(Clone, Debug, Default, PartialEq, Eq)]
pub struct PlanAnswer {
    pub number: u8,
    pub sum: usize,
    pub records: usize,
    pub carrier: usize,
    pub other: usize,
    pub table: usize,
    pub needed: usize,
    pub routes: Vec<Route>,
}

/// Plans the job with `capacity` (N) records and tables that suffice.
pub fn plan(job: &Job, capacity: usize) -> PlanAnswer {
    plan_lent(job, capacity, ENOUGH)
}

/// Plans the job with `capacity` (N) records and lent tables of these lengths.
/// "Checks 1 to 7 come before the search", 16 "directly after 6" (P1).
pub fn plan_lent(job: &Job, capacity: usize, lengths: Lengths) -> PlanAnswer {
    if let Some(refusal) = job.refusal(Some(capacity)) {
        return refusal.into();
    }
    match tables::first_short(lengths, tables::least_lengths(job, capacity)) {
        Some(short) => short.into(),
        None => tree::search(job, capacity).into(),
    }
}

impl From<Refusal> for PlanAnswer {
    fn from(refusal: Refusal) -> Self {
        PlanAnswer {
            number: refusal.number(),
            carrier: refusal.carrier(),
            other: refusal.other(),
            ..PlanAnswer::default()
        }
    }
}

impl From<ShortTable> for PlanAnswer {
    fn from(short: ShortTable) -> Self {
        PlanAnswer {
            number: 7,
            table: short.table,
            needed: short.needed,
            ..PlanAnswer::default()
        }
    }
}

impl From<Outcome> for PlanAnswer {
    fn from(outcome: Outcome) -> Self {
        match outcome {
            Outcome::Plan {
                sum,
                records,
                routes,
            } => PlanAnswer {
                sum,
                records,
                routes,
                ..PlanAnswer::default()
            },
            Outcome::UsedUp { records } => PlanAnswer {
                number: 8,
                records,
                ..PlanAnswer::default()
            },
            Outcome::Full { records } => PlanAnswer {
                number: 9,
                records,
                ..PlanAnswer::default()
            },
        }
    }
}

impl PlanAnswer {
    /// The number given back and what is "also told": sum, records, carrier,
    /// other, table, needed.
    pub fn told(&self) -> [usize; 7] {
        [
            usize::from(self.number),
            self.sum,
            self.records,
            self.carrier,
            self.other,
            self.table,
            self.needed,
        ]
    }

    /// The plan bytes: "carrier by carrier, its cells for steps 0 to H".
    pub fn plan_bytes(&self) -> Vec<u8> {
        self.routes.concat()
    }
}
