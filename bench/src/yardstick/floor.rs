//! The floor: closed cells, and where the five moves lead.

/// The hall byte of an open cell.
pub const OPEN: u8 = 46;
/// The hall byte of a closed cell.
pub const CLOSED: u8 = 35;

/// "1 to 16 columns (width) by 1 to 16 rows (height)".
pub const MOST_CELLS: usize = 256;

/// The moves by rising cell number.
pub const UP: usize = 0;
pub const LEFT: usize = 1;
pub const STAY: usize = 2;
pub const RIGHT: usize = 3;
pub const DOWN: usize = 4;

/// A hall of right size and bytes, with a mask for each thing that is asked of
/// a cell: 255 for yes, 0 for no.
pub struct Floor {
    pub width: usize,
    pub size: usize,
    closed: [u8; MOST_CELLS],
    first_column: [u8; MOST_CELLS],
    last_column: [u8; MOST_CELLS],
}

impl Floor {
    pub fn new(hall: &[u8], width: usize) -> Self {
        let mut floor = Floor {
            width,
            size: hall.len(),
            closed: [0; MOST_CELLS],
            first_column: [0; MOST_CELLS],
            last_column: [0; MOST_CELLS],
        };
        for (cell, &byte) in floor.closed.iter_mut().zip(hall) {
            *cell = mask(byte != OPEN);
        }
        for row in 0..floor.size / width {
            floor.first_column[row * width] = mask(true);
            floor.last_column[row * width + width - 1] = mask(true);
        }
        floor
    }

    pub fn closed(&self) -> &[u8] {
        &self.closed[..self.size]
    }

    pub fn first_column(&self) -> &[u8] {
        &self.first_column[..self.size]
    }

    pub fn last_column(&self) -> &[u8] {
        &self.last_column[..self.size]
    }

    /// The number of each move that isn't shut and doesn't leave the grid, and the
    /// cell it leads to, by rising cell number.
    #[inline]
    pub fn landings(&self, from: usize, shut: u8) -> impl Iterator<Item = (usize, usize)> {
        let sides = self.first_column[from] & 1 << LEFT | self.last_column[from] & 1 << RIGHT;
        let shut = shut | sides;
        let to = [
            from.wrapping_sub(self.width),
            from.wrapping_sub(1),
            from,
            from + 1,
            from + self.width,
        ];
        let open = move |(number, to): &(usize, usize)| shut >> number & 1 == 0 && *to < self.size;
        to.into_iter().enumerate().filter(open)
    }

    /// A digit for each move that leads from one cell to another by number. One
    /// that leaves the grid sideways leads nowhere anyway.
    pub fn digits(&self, from: usize, to: usize) -> u8 {
        u8::from(to + self.width == from) << UP
            | u8::from(to + 1 == from) << LEFT
            | u8::from(to == from) << STAY
            | u8::from(to == from + 1) << RIGHT
            | u8::from(to == from + self.width) << DOWN
    }
}

fn mask(yes: bool) -> u8 {
    if yes { u8::MAX } else { 0 }
}
