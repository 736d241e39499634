//! What a way of filling the layers has to do; [`super::by_cell`] and
//! [`super::by_layer`] are two.
//!
//! The layers of the steps 0 to H are filled from the last one down. What an entry
//! says of a cell at a step is the best way on from there: where it ends, that is at
//! which step the carrier comes to its goal for good, and how many moves or stays it
//! has. The cost of a route is the end of the best way on from its start.

use super::crossings::Crossings;
use super::floor::Floor;

/// The mark of a cell on which the carrier may not be.
pub const BARRED: u8 = 255;
/// The end of no way on.
pub const NONE: u8 = 255;

/// A way of filling the lent layers, which here have exactly the least length.
pub trait Fill {
    const NAME: &'static str;

    fn new() -> Self;

    /// Marks the closed cells of every step, and bars nothing else.
    fn clear(floor: &Floor, layers: &mut [u8]);

    /// Bars a cell at a step.
    fn bar(floor: &Floor, step: usize, cell: usize, layers: &mut [u8]);

    /// Fills the marked layers, and gives the least cost of a route, or [`NONE`].
    fn fill(
        &mut self,
        floor: &Floor,
        crossings: &Crossings,
        ends: (usize, usize),
        layers: &mut [u8],
    ) -> u8;

    /// The cell that follows on the best way on from a cell at a step: the first, since
    /// cells are tried by rising number.
    fn next(floor: &Floor, crossings: &Crossings, step: usize, cell: usize, layers: &[u8])
    -> usize;
}

/// Fills the bytes with copies of their first so many.
pub fn repeat(first: usize, bytes: &mut [u8]) {
    let mut done = first;
    while done < bytes.len() {
        let more = done.min(bytes.len() - done);
        bytes.copy_within(..more, done);
        done += more;
    }
}
