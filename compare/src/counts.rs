//! How often each number was given back, so that a reader sees that every kind came.

use std::collections::BTreeMap;
use std::fmt::{self, Display, Formatter};

/// Numbers given back by one function, with how often.
#[derive(Default)]
pub struct Numbers(BTreeMap<usize, usize>);

impl Numbers {
    pub fn add(&mut self, number: usize) {
        *self.0.entry(number).or_default() += 1;
    }
}

impl Display for Numbers {
    fn fmt(&self, out: &mut Formatter) -> fmt::Result {
        write!(out, "{:?}", self.0)
    }
}

/// Those of each function.
#[derive(Default)]
pub struct Counts {
    pub plan: Numbers,
    pub routes: Numbers,
    pub meetings: Numbers,
    pub read: Numbers,
}

impl Display for Counts {
    fn fmt(&self, out: &mut Formatter) -> fmt::Result {
        write!(out, "plan {}", self.plan)?;
        write!(out, ", check_routes {}", self.routes)?;
        write!(out, ", check_meetings {}", self.meetings)?;
        write!(out, ", read {}", self.read)
    }
}
