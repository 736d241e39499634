//! The layers cell by cell: the rules as one writes them down, in one pass.

use super::crossings::Crossings;
use super::fill::{BARRED, Fill, NONE, repeat};
use super::floor::{Floor, STAY};

/// Moves, then end: as a number of 16 bits, low byte first, the lesser is the better.
type Entry = [u8; 2];

/// The number of no way on. It has room for a move at each step.
const NO_WAY: u16 = u16::from_le_bytes([0, NONE]);

/// Cell by cell, with a test for each edge of the grid.
pub struct ByCell;

impl Fill for ByCell {
    const NAME: &'static str = "rust";

    fn new() -> Self {
        ByCell
    }

    fn clear(floor: &Floor, layers: &mut [u8]) {
        let first = &mut entries_mut(layers)[..floor.size];
        for (entry, &closed) in first.iter_mut().zip(floor.closed()) {
            *entry = [0, closed];
        }
        repeat(2 * floor.size, layers);
    }

    fn bar(floor: &Floor, step: usize, cell: usize, layers: &mut [u8]) {
        entries_mut(layers)[step * floor.size + cell] = [0, BARRED];
    }

    fn fill(
        &mut self,
        floor: &Floor,
        crossings: &Crossings,
        (start, goal): (usize, usize),
        layers: &mut [u8],
    ) -> u8 {
        let entries = entries_mut(layers);
        let h = entries.len() / floor.size - 1;
        let last = &mut entries[h * floor.size..];
        let [_, mark] = last[goal];
        last.fill([0, NONE]);
        last[goal] = [0, mark | h as u8];
        for step in (0..h).rev() {
            let (before, after) = entries.split_at_mut((step + 1) * floor.size);
            let here = &mut before[step * floor.size..];
            fill_layer(floor, here, after);
            if let Some(digits) = crossings.at(floor, step) {
                refill_barred(floor, digits, here, after);
            }
            if usize::from(here[goal][1]) == step + 1 {
                here[goal] = [0, step as u8];
            }
        }
        entries[start][1]
    }

    fn next(
        floor: &Floor,
        crossings: &Crossings,
        step: usize,
        cell: usize,
        layers: &[u8],
    ) -> usize {
        let (entries, _) = layers.as_chunks();
        let digits = crossings.of(floor, step, cell);
        least(floor, cell, digits, &entries[(step + 1) * floor.size..]).1
    }
}

fn entries_mut(layers: &mut [u8]) -> &mut [Entry] {
    layers.as_chunks_mut().0
}

fn fill_layer(floor: &Floor, here: &mut [Entry], after: &[Entry]) {
    let width = floor.width;
    let height = floor.size / width;
    let at = |cell: usize| u16::from_le_bytes(after[cell]);
    for row in 0..height {
        for column in 0..width {
            let cell = row * width + column;
            if here[cell][1] == BARRED {
                continue;
            }
            let mut moved = NO_WAY;
            if row > 0 {
                moved = moved.min(at(cell - width));
            }
            if column > 0 {
                moved = moved.min(at(cell - 1));
            }
            if column + 1 < width {
                moved = moved.min(at(cell + 1));
            }
            if row + 1 < height {
                moved = moved.min(at(cell + width));
            }
            here[cell] = at(cell).min(moved + 1).to_le_bytes();
        }
    }
}

/// Fills the cells from which a crossing is barred again.
fn refill_barred(floor: &Floor, digits: &[u8], here: &mut [Entry], after: &[Entry]) {
    for (cell, &digits) in digits.iter().enumerate() {
        if digits != 0 && here[cell][1] != BARRED {
            here[cell] = least(floor, cell, digits, after).0.to_le_bytes();
        }
    }
}

/// The least number of a cell that may follow, with the move there, and the first such
/// cell.
fn least(floor: &Floor, cell: usize, digits: u8, after: &[Entry]) -> (u16, usize) {
    let number = |(to_number, to): (usize, usize)| {
        let moves = u16::from(to_number != STAY);
        (u16::from_le_bytes(after[to]) + moves, to)
    };
    let landings = floor.landings(cell, digits).map(number);
    landings.min().unwrap_or((NO_WAY, cell))
}
