//! The barred crossings of a route; a carrier that slips has none.

use super::floor::Floor;

#[derive(Default)]
pub struct Crossings {
    /// A digit for each step that has any.
    steps: u64,
    /// For each such step and each cell a digit for each barred crossing.
    digits: Vec<u8>,
}

impl Crossings {
    pub fn clear(&mut self) {
        self.steps = 0;
    }

    /// The digits of a step's cells, if it has any.
    #[inline]
    pub fn at(&self, floor: &Floor, step: usize) -> Option<&[u8]> {
        (self.steps >> step & 1 == 1).then(|| &self.digits[step * floor.size..][..floor.size])
    }

    /// The digits of one cell.
    #[inline]
    pub fn of(&self, floor: &Floor, step: usize, cell: usize) -> u8 {
        self.at(floor, step).map_or(0, |digits| digits[cell])
    }

    /// Bars a crossing. A step's digits are cleared with its first.
    #[inline]
    pub fn bar(&mut self, floor: &Floor, step: usize, from: usize, to: usize) {
        let place = step * floor.size;
        if self.digits.len() < place + floor.size {
            self.digits.resize(place + floor.size, 0);
        }
        let layer = &mut self.digits[place..][..floor.size];
        if self.steps >> step & 1 == 0 {
            layer.fill(0);
            self.steps |= 1 << step;
        }
        layer[from] |= floor.digits(from, to);
    }
}
