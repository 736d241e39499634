//! A carrier's route under its bars (document 01, rule 2, with document 02's P2):
//! marks, layers, and the route read off forwards.

use super::crossings::Crossings;
use super::fill::Fill;
use super::floor::Floor;
use super::records::Bar;

/// Finds routes on one floor up to one horizon.
pub struct Router<F> {
    floor: Floor,
    h: usize,
    fill: F,
    crossings: Crossings,
}

impl<F: Fill> Router<F> {
    pub fn new(floor: Floor, h: usize) -> Self {
        Router {
            floor,
            h,
            fill: F::new(),
            crossings: Crossings::default(),
        }
    }

    /// The least length of the lent layers.
    fn layers_len(&self) -> usize {
        2 * (self.h + 1) * self.floor.size
    }

    /// Fills the layers and gives the least cost, or [`super::fill::NONE`].
    pub fn seek(
        &mut self,
        start: usize,
        goal: usize,
        bars: impl Iterator<Item = Bar>,
        layers: &mut [u8],
    ) -> u8 {
        let layers = &mut layers[..self.layers_len()];
        F::clear(&self.floor, layers);
        self.crossings.clear();
        for bar in bars {
            self.mark(bar, layers);
        }
        let Router {
            floor,
            fill,
            crossings,
            ..
        } = self;
        fill.fill(floor, crossings, (start, goal), layers)
    }

    /// Writes the route of this cost that [`Router::seek`] has found.
    pub fn write(&self, start: usize, cost: u8, layers: &[u8], stretch: &mut [u8]) {
        let layers = &layers[..self.layers_len()];
        let cost = usize::from(cost);
        let mut cell = start;
        for (step, place) in stretch[..cost].iter_mut().enumerate() {
            *place = cell as u8;
            cell = F::next(&self.floor, &self.crossings, step, cell, layers);
        }
        stretch[cost..=self.h].fill(cell as u8);
    }

    fn mark(&mut self, bar: Bar, layers: &mut [u8]) {
        let floor = &self.floor;
        match bar {
            Bar::Stay { cell, first, last } if cell < floor.size => {
                for step in first..last.min(self.h) + 1 {
                    F::bar(floor, step, cell, layers);
                }
            }
            Bar::Crossing { from, to, step } if from < floor.size && step < self.h => {
                self.crossings.bar(floor, step, from, to);
            }
            _ => {}
        }
    }
}
