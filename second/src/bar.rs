//! Bars (rule 1): "A bar says that a carrier may not be on a cell from step a
//! to step b, or may not go from one cell to another between t and t + 1."

use std::collections::BTreeSet;

/// What is barred, for the carrier the bar names.
#[derive(Clone, Copy, Debug, PartialEq, Eq)]
pub enum Bar {
    /// "may not be on a cell from step a to step b", both included.
    Standing { cell: u8, first: usize, last: usize },
    /// "may not go from one cell to another between t and t + 1".
    Crossing { from: u8, to: u8, step: usize },
}

/// A bar with the carrier it bars.
#[derive(Clone, Copy, Debug, PartialEq, Eq)]
pub struct CarrierBar {
    pub carrier: usize,
    pub bar: Bar,
}

/// All bars of one carrier, spread out for asking.
#[derive(Debug, Default)]
pub struct Barred {
    standing: BTreeSet<(usize, u8)>,
    crossing: BTreeSet<(usize, u8, u8)>,
}

impl Barred {
    /// The bars of this carrier among the bars that bind a node.
    pub fn of(carrier: usize, bars: &[CarrierBar]) -> Self {
        let mut barred = Barred::default();
        for own in bars.iter().filter(|own| own.carrier == carrier) {
            barred.add(own.bar);
        }
        barred
    }

    /// Whether the carrier may not be on the cell at the step.
    pub fn standing(&self, step: usize, cell: u8) -> bool {
        self.standing.contains(&(step, cell))
    }

    /// Whether the carrier may not go so between the step and the next one.
    pub fn crossing(&self, step: usize, from: u8, to: u8) -> bool {
        self.crossing.contains(&(step, from, to))
    }

    fn add(&mut self, bar: Bar) {
        match bar {
            Bar::Standing { cell, first, last } => {
                self.standing
                    .extend((first..=last).map(|step| (step, cell)));
            }
            Bar::Crossing { from, to, step } => {
                self.crossing.insert((step, from, to));
            }
        }
    }
}

#[cfg(test)]
mod tests {
    use super::*;

    #[test]
    fn a_bar_binds_its_own_carrier_only() {
        let bars = [
            CarrierBar {
                carrier: 1,
                bar: Bar::Standing {
                    cell: 7,
                    first: 2,
                    last: 4,
                },
            },
            CarrierBar {
                carrier: 1,
                bar: Bar::Crossing {
                    from: 3,
                    to: 4,
                    step: 5,
                },
            },
        ];
        let one = Barred::of(1, &bars);
        let steps = (0..8).filter(|&step| one.standing(step, 7));
        assert_eq!(steps.collect::<Vec<_>>(), [2, 3, 4]);
        assert!(one.crossing(5, 3, 4));
        assert!(!one.crossing(5, 4, 3));
        assert!(!one.crossing(4, 3, 4));
        let zero = Barred::of(0, &bars);
        assert!(!zero.standing(3, 7));
        assert!(!zero.crossing(5, 3, 4));
    }
}
