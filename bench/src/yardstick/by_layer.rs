//! All cells of a layer at once, which the compiler turns into vector instructions, in
//! two passes over two planes of bytes.
//!
//! First the **ends**: an entry is a mark before, [`BARRED`] or 0, and afterwards the
//! step at which the best way on ends, [`NONE`] if there is none.
//!
//! Then the **stays**, up to the route's last step: 0 where a cell's end is not that
//! step, otherwise 1 and the most stays of a way on that ends there. Cost is fixed, so
//! the most stays are the fewest moves. Such a cell has one of its kind behind it, so
//! that the 1 of a stay with no way on is never the most.

use super::crossings::Crossings;
use super::fill::{BARRED, Fill, NONE, repeat};
use super::floor::{DOWN, Floor, LEFT, MOST_CELLS, RIGHT, STAY, UP};

/// Entries before and after a padded layer, for moves that leave the grid at its
/// top or bottom: the greatest width.
const PAD: usize = 16;

type Padded = [u8; PAD + MOST_CELLS + PAD];

/// All cells in one loop without branches: each move is the padded layer shifted
/// against itself, and a mask stands where it would leave the grid sideways.
pub struct ByLayer {
    /// The layer just filled and, by turns, room for the next: no load waits for a
    /// fresh store.
    halves: [Padded; 2],
    turn: bool,
}

impl ByLayer {
    /// Before a pass: its first layer, and what stands for no way on.
    fn begin(&mut self, first: &[u8], none: u8) {
        self.halves = [[none; _]; 2];
        self.turn = false;
        self.halves[0][PAD..][..first.len()].copy_from_slice(first);
    }

    #[inline]
    fn turn(&mut self) -> (&Padded, &mut Padded) {
        let [one, two] = &mut self.halves;
        self.turn = !self.turn;
        if self.turn { (one, two) } else { (two, one) }
    }

    fn fill_ends(&mut self, floor: &Floor, crossings: &Crossings, goal: usize, ends: &mut [u8]) {
        let size = floor.size;
        let h = ends.len() / size - 1;
        let last = &mut ends[h * size..];
        let at_goal = last[goal] | h as u8;
        last.fill(NONE);
        last[goal] = at_goal;
        self.begin(last, NONE);
        for step in (0..h).rev() {
            let here = &mut ends[step * size..][..size];
            let (after, next) = self.turn();
            let next = &mut next[PAD..][..size];
            match crossings.at(floor, step) {
                None => wide_ends::<false>(floor, &[], after, here, next),
                Some(shut) => wide_ends::<true>(floor, shut, after, here, next),
            }
            if usize::from(here[goal]) == step + 1 {
                here[goal] = step as u8;
                next[goal] = step as u8;
            }
        }
    }

    fn fill_stays(
        &mut self,
        floor: &Floor,
        crossings: &Crossings,
        (goal, last): (usize, u8),
        ends: &[u8],
        stays: &mut [u8],
    ) {
        let size = floor.size;
        let arrival = &mut stays[usize::from(last) * size..][..size];
        arrival.fill(0);
        arrival[goal] = 1;
        self.begin(arrival, 0);
        for step in (0..usize::from(last)).rev() {
            let here = &mut stays[step * size..][..size];
            let on_way = (&ends[step * size..][..size], last);
            let (after, next) = self.turn();
            let next = &mut next[PAD..][..size];
            match crossings.at(floor, step) {
                None => wide_stays::<false>(floor, &[], on_way, after, here, next),
                Some(shut) => wide_stays::<true>(floor, shut, on_way, after, here, next),
            }
        }
    }
}

impl Fill for ByLayer {
    const NAME: &'static str = "rust wide";

    fn new() -> Self {
        ByLayer {
            halves: [[0; _]; 2],
            turn: false,
        }
    }

    fn clear(floor: &Floor, layers: &mut [u8]) {
        let (ends, _) = planes(layers);
        ends[..floor.size].copy_from_slice(floor.closed());
        repeat(floor.size, ends);
    }

    fn bar(floor: &Floor, step: usize, cell: usize, layers: &mut [u8]) {
        layers[step * floor.size + cell] = BARRED;
    }

    fn fill(
        &mut self,
        floor: &Floor,
        crossings: &Crossings,
        (start, goal): (usize, usize),
        layers: &mut [u8],
    ) -> u8 {
        let (ends, stays) = planes(layers);
        self.fill_ends(floor, crossings, goal, ends);
        let last = ends[start];
        if last != NONE {
            self.fill_stays(floor, crossings, (goal, last), ends, stays);
        }
        last
    }

    fn next(
        floor: &Floor,
        crossings: &Crossings,
        step: usize,
        cell: usize,
        layers: &[u8],
    ) -> usize {
        let stays = &layers[layers.len() / 2..];
        let after = &stays[(step + 1) * floor.size..][..floor.size];
        let mut most = (0, cell);
        for (number, to) in floor.landings(cell, crossings.of(floor, step, cell)) {
            let with_stay = after[to] + u8::from(number == STAY);
            if after[to] > 0 && with_stay > most.0 {
                most = (with_stay, to);
            }
        }
        most.1
    }
}

/// The ends and the stays.
fn planes(layers: &mut [u8]) -> (&mut [u8], &mut [u8]) {
    layers.split_at_mut(layers.len() / 2)
}

/// 255 where a digit is set, otherwise 0.
#[inline]
fn mask<const SHUT: bool>(shut: &[u8], cell: usize, number: usize) -> u8 {
    if SHUT && shut[cell] & 1 << number != 0 {
        u8::MAX
    } else {
        0
    }
}

fn wide_ends<const SHUT: bool>(
    floor: &Floor,
    shut: &[u8],
    after: &Padded,
    here: &mut [u8],
    next: &mut [u8],
) {
    let (width, size) = (floor.width, floor.size);
    let shifted = |offset: usize| &after[offset..][..size];
    let (up, down) = (shifted(PAD - width), shifted(PAD + width));
    let (left, right) = (shifted(PAD - 1), shifted(PAD + 1));
    let (stay, here, next) = (shifted(PAD), &mut here[..size], &mut next[..size]);
    let (first_column, last_column) = (floor.first_column(), floor.last_column());
    let shut = if SHUT { &shut[..size] } else { &[] };
    for cell in 0..size {
        let mask = |number| mask::<SHUT>(shut, cell, number);
        let left = left[cell] | first_column[cell] | mask(LEFT);
        let right = right[cell] | last_column[cell] | mask(RIGHT);
        let (up, down) = (up[cell] | mask(UP), down[cell] | mask(DOWN));
        let stay = stay[cell] | mask(STAY);
        let end = here[cell] | up.min(left).min(right).min(down).min(stay);
        here[cell] = end;
        next[cell] = end;
    }
}

fn wide_stays<const SHUT: bool>(
    floor: &Floor,
    shut: &[u8],
    (ends, last): (&[u8], u8),
    after: &Padded,
    here: &mut [u8],
    next: &mut [u8],
) {
    let (width, size) = (floor.width, floor.size);
    let shifted = |offset: usize| &after[offset..][..size];
    let (up, down) = (shifted(PAD - width), shifted(PAD + width));
    let (left, right) = (shifted(PAD - 1), shifted(PAD + 1));
    let (stay, here, next) = (shifted(PAD), &mut here[..size], &mut next[..size]);
    let (first_column, last_column) = (floor.first_column(), floor.last_column());
    let (ends, shut) = (&ends[..size], if SHUT { &shut[..size] } else { &[] });
    for cell in 0..size {
        let mask = |number| mask::<SHUT>(shut, cell, number);
        let left = left[cell] & !(first_column[cell] | mask(LEFT));
        let right = right[cell] & !(last_column[cell] | mask(RIGHT));
        let (up, down) = (up[cell] & !mask(UP), down[cell] & !mask(DOWN));
        let stay = stay[cell].wrapping_add(1) & !mask(STAY);
        let most = up.max(left).max(right).max(down).max(stay);
        let entry = if ends[cell] == last { most } else { 0 };
        here[cell] = entry;
        next[cell] = entry;
    }
}
