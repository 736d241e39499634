//! The arguments of a call and the lent tables, the same for every side.

/// The record columns, "column-major, 8 columns of `capacity` entries".
pub const COLUMNS: usize = 8;

/// The cost that stands for 'no route'.
pub const NO_ROUTE: usize = 255;
/// The cost that stands for 'bad arguments'.
pub const BAD_ARGUMENTS: usize = 254;

/// What a best-route call is given, but for the lent layers and stretch.
#[derive(Clone, Debug)]
pub struct RouteTask {
    pub hall: Vec<u8>,
    pub width: usize,
    pub height: usize,
    pub start: usize,
    pub goal: usize,
    pub h: usize,
    pub columns: Vec<u16>,
    pub capacity: usize,
    pub node: usize,
    pub carrier: usize,
}

impl RouteTask {
    /// The least length of the lent layers.
    pub fn layers_len(&self) -> usize {
        2 * (self.h + 1) * self.width * self.height
    }

    /// The least length of the lent stretch.
    pub fn stretch_len(&self) -> usize {
        self.h + 1
    }
}

/// A carrier's start cell, goal cell and slip, as C has them too.
#[repr(C)]
#[derive(Clone, Copy, Debug)]
pub struct Carrier {
    pub start: u8,
    pub goal: u8,
    pub slip: u8,
}

/// A job: what a planner call is given, but for the lent tables.
#[derive(Clone, Debug)]
pub struct PlanTask {
    pub hall: Vec<u8>,
    pub width: usize,
    pub height: usize,
    pub carriers: Vec<Carrier>,
    pub h: usize,
    pub n: usize,
}

impl PlanTask {
    /// How many carriers there are.
    pub fn count(&self) -> usize {
        self.carriers.len()
    }

    /// The bytes of all routes of one node.
    pub fn stretch_len(&self) -> usize {
        self.count() * (self.h + 1)
    }

    /// "Record columns, 16-bit, at least 8 × N".
    pub fn columns_len(&self) -> usize {
        COLUMNS * self.n
    }

    /// "plans, bytes, at least N × m × (H + 1)".
    pub fn plans_len(&self) -> usize {
        self.n * self.stretch_len()
    }

    /// "layers, bytes, at least (H + 1) × width × height", and document 02's "twice
    /// its length".
    pub fn layers_len(&self) -> usize {
        2 * (self.h + 1) * self.width * self.height
    }
}

/// The numbers given back: number, sum, records, carrier, other, table, needed.
/// "Untold numbers are 0."
pub type Told = [usize; 7];

/// The tables lent to the planner.
#[derive(Clone, Debug, PartialEq, Eq)]
pub struct Tables {
    pub columns: Vec<u16>,
    pub plans: Vec<u8>,
    pub layers: Vec<u8>,
    pub output: Vec<u8>,
}

impl Tables {
    /// Tables of the least lengths for an accepted job, each with `spare`
    /// entries more, full of `byte`.
    pub fn new(task: &PlanTask, spare: usize, byte: u8) -> Self {
        Tables {
            columns: vec![u16::from(byte); task.columns_len() + spare],
            plans: vec![byte; task.plans_len() + spare],
            layers: vec![byte; task.layers_len() + spare],
            output: vec![byte; task.stretch_len() + spare],
        }
    }
}
