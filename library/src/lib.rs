//! Adfulmise for Rust: the proved planner for delayed carriers, its two plan checks and the book reader, as safe functions.
//!
//! Nothing here computes a plan: each function lends its slices to the static library and hands back what that tells. What the
//! numbers mean is in `include/adfulmise.h`, and so is the stack that a call needs (`ADFULMISE_PLAN_STACK`): 10 KB and 32 bytes for
//! each record, so 42 KB at most.
//!
//! ```
//! use adfulmise::{Carrier, Job, Tables, check_meetings, check_routes, plan};
//!
//! let job = Job {
//!     hall: b".........",
//!     width: 3,
//!     height: 3,
//!     carriers: &[
//!         Carrier { start: 3, goal: 5, slip: 0 },
//!         Carrier { start: 1, goal: 7, slip: 0 },
//!     ],
//!     h: 4,
//! };
//! let mut tables = Tables::for_records(128);
//! let told = plan(&job, 128, &mut tables);
//! assert_eq!((told.number, told.sum, told.records), (0, 5, 3));
//!
//! let found = &tables.output[..job.plan_len()];
//! assert_eq!(found, [3, 3, 4, 5, 5, 1, 4, 7, 7, 7]);
//! assert_eq!(check_routes(&job, found).number, 0);
//! assert_eq!(check_meetings(&job, found).number, 0);
//! ```

use std::ops::Range;

mod linked {
    //! The exported functions. A slice goes in as its pointer and its length.

    use super::Carrier;

    unsafe extern "C" {
        pub fn adfulmise_plan(
            hall: *const u8,
            hall_len: usize,
            width: usize,
            height: usize,
            carriers: *const Carrier,
            carriers_count: usize,
            h: usize,
            n: usize,
            columns: *mut u16,
            columns_len: usize,
            plans: *mut u8,
            plans_len: usize,
            layers: *mut u8,
            layers_len: usize,
            output: *mut u8,
            output_len: usize,
            told: *mut usize,
            told_len: usize,
        ) -> usize;

        pub fn adfulmise_check_routes(
            hall: *const u8,
            hall_len: usize,
            width: usize,
            height: usize,
            carriers: *const Carrier,
            carriers_count: usize,
            h: usize,
            plan: *const u8,
            plan_len: usize,
            told: *mut usize,
            told_len: usize,
        ) -> usize;

        pub fn adfulmise_check_meetings(
            hall: *const u8,
            hall_len: usize,
            width: usize,
            height: usize,
            carriers: *const Carrier,
            carriers_count: usize,
            h: usize,
            plan: *const u8,
            plan_len: usize,
            told: *mut usize,
            told_len: usize,
        ) -> usize;

        pub fn adfulmise_read(
            book: *const u8,
            book_len: usize,
            kind: u8,
            place: *mut usize,
            place_len: usize,
        ) -> usize;
    }
}

/// A carrier's start cell, goal cell and slip, which is how many steps it may be late in all: `struct adfulmise_carrier` of the header.
#[repr(C)]
#[derive(Clone, Copy, Debug, PartialEq, Eq)]
pub struct Carrier {
    pub start: u8,
    pub goal: u8,
    pub slip: u8,
}

/// A hall, the carriers and the horizon h. A number out of its range is refused with an answer.
#[derive(Clone, Copy, Debug)]
pub struct Job<'a> {
    pub hall: &'a [u8],
    pub width: usize,
    pub height: usize,
    pub carriers: &'a [Carrier],
    pub h: usize,
}

impl Job<'_> {
    /// How many bytes a plan of this job has; at least the least length of `Tables::output`.
    pub fn plan_len(&self) -> usize {
        self.carriers.len().saturating_mul(self.h.saturating_add(1))
    }
}

/// What the planner tells. Untold numbers are 0.
#[derive(Clone, Copy, Debug, Default, PartialEq, Eq)]
pub struct Told {
    pub number: usize,
    pub sum: usize,
    pub records: usize,
    pub carrier: usize,
    pub other: usize,
    pub table: usize,
    pub needed: usize,
}

impl Told {
    /// The first table that is too short, where the number is 7; `needed` is then its least length, in its own entries.
    pub fn short_table(&self) -> Option<Table> {
        (self.number == 7).then_some(match self.table {
            0 => Table::Columns,
            1 => Table::Plans,
            2 => Table::Layers,
            _ => Table::Output,
        })
    }
}

/// What a plan check tells. Untold numbers are 0.
#[derive(Clone, Copy, Debug, Default, PartialEq, Eq)]
pub struct Fault {
    pub number: usize,
    pub carrier: usize,
    pub other: usize,
    pub step: usize,
    pub distance: usize,
    pub is_swap: bool,
    pub needed: usize,
}

/// The tables that the planner works on; `Tables::for_records` makes some that suffice for every job.
#[derive(Clone, Debug, PartialEq, Eq)]
pub struct Tables {
    pub columns: Vec<u16>,
    pub plans: Vec<u8>,
    pub layers: Vec<u8>,
    pub output: Vec<u8>,
}

impl Tables {
    /// Tables of zeros, long enough for every job with at most n records (8 carriers, 64 steps, 256 cells).
    pub fn for_records(n: usize) -> Self {
        Self {
            columns: vec![0; 8 * n],
            plans: vec![0; n * 512],
            layers: vec![0; 2 * 64 * 256],
            output: vec![0; 512],
        }
    }
}

/// One of the [`Tables`].
#[derive(Clone, Copy, Debug, PartialEq, Eq)]
pub enum Table {
    Columns,
    Plans,
    Layers,
    Output,
}

/// The planner with at most n records. For number 0 the plan stands at the start of `tables.output`: carrier by carrier, its cells
/// for the steps 0 to h. Of the routes that the bars of the search leave a carrier, it takes one of least cost, among these one of
/// fewest moves, and among these the first in dictionary order.
pub fn plan(job: &Job, n: usize, tables: &mut Tables) -> Told {
    let mut told = [0; 7];
    // SAFETY: each pointer comes with the length of the slice or vector that it is taken from, and the five that are written are
    // borrowed apart from each other.
    unsafe {
        linked::adfulmise_plan(
            job.hall.as_ptr(),
            job.hall.len(),
            job.width,
            job.height,
            job.carriers.as_ptr(),
            job.carriers.len(),
            job.h,
            n,
            tables.columns.as_mut_ptr(),
            tables.columns.len(),
            tables.plans.as_mut_ptr(),
            tables.plans.len(),
            tables.layers.as_mut_ptr(),
            tables.layers.len(),
            tables.output.as_mut_ptr(),
            tables.output.len(),
            told.as_mut_ptr(),
            told.len(),
        );
    }
    let [number, sum, records, carrier, other, table, needed] = told;
    Told {
        number,
        sum,
        records,
        carrier,
        other,
        table,
        needed,
    }
}

/// The shape that both checks have.
type Check = unsafe extern "C" fn(
    *const u8,
    usize,
    usize,
    usize,
    *const Carrier,
    usize,
    usize,
    *const u8,
    usize,
    *mut usize,
    usize,
) -> usize;

fn checked(check: Check, job: &Job, plan: &[u8]) -> Fault {
    let mut told = [0; 7];
    // SAFETY: each pointer comes with the length of the slice or vector that it is taken from, and `told` is written alone.
    unsafe {
        check(
            job.hall.as_ptr(),
            job.hall.len(),
            job.width,
            job.height,
            job.carriers.as_ptr(),
            job.carriers.len(),
            job.h,
            plan.as_ptr(),
            plan.len(),
            told.as_mut_ptr(),
            told.len(),
        );
    }
    let [number, carrier, other, step, distance, swap, needed] = told;
    Fault {
        number,
        carrier,
        other,
        step,
        distance,
        is_swap: swap == 1,
        needed,
    }
}

/// Are the routes of a plan lawful? Number 0, 1 to 7, 16, or 21 with a carrier and a step.
pub fn check_routes(job: &Job, plan: &[u8]) -> Fault {
    checked(linked::adfulmise_check_routes, job, plan)
}

/// Do two carriers of a plan meet, delays within their slips included? Number 0, 1 to 7, 16, or 22 with the meeting or the swap, the
/// earlier carrier first.
pub fn check_meetings(job: &Job, plan: &[u8]) -> Fault {
    checked(linked::adfulmise_check_meetings, job, plan)
}

/// The bodies of a book.
#[derive(Clone, Copy, Debug, PartialEq, Eq)]
pub enum Kind {
    Hall,
    Carriers,
    Limits,
}

/// Where the body of a kind stands in a book, or the number of the refusal, 11 to 14.
pub fn body(book: &[u8], kind: Kind) -> Result<Range<usize>, usize> {
    let kind = match kind {
        Kind::Hall => 1,
        Kind::Carriers => 2,
        Kind::Limits => 3,
    };
    let mut place = [0; 2];
    // SAFETY: each pointer comes with the length of the slice or array that it is taken from, and `place` is written alone.
    let number = unsafe {
        linked::adfulmise_read(
            book.as_ptr(),
            book.len(),
            kind,
            place.as_mut_ptr(),
            place.len(),
        )
    };
    let [offset, length] = place;
    if number == 0 {
        Ok(offset..offset + length)
    } else {
        Err(number)
    }
}
