//! The floor: which cell a carrier may be on next. "From a cell a carrier may
//! go one cell up, left, right or down, or stay" and "It never leaves the grid
//! nor enters a closed cell."

use crate::job::Job;

/// The hall of a job that passed checks 1 and 2, with the lawful next cells of
/// every cell worked out once.
pub struct Floor {
    width: usize,
    open: Vec<bool>,
    next: Vec<Vec<u8>>,
}

impl Floor {
    pub fn new(job: &Job) -> Self {
        let cells = 0..job.hall.len();
        let mut floor = Floor {
            width: job.width,
            open: cells.clone().map(|cell| job.is_open(byte(cell))).collect(),
            next: Vec::new(),
        };
        floor.next = cells.map(|from| floor.lawful_from(byte(from))).collect();
        floor
    }

    /// The lawful next cells, a stay among them, by rising number.
    pub fn next(&self, from: u8) -> &[u8] {
        &self.next[usize::from(from)]
    }

    /// Whether the cell is inside the grid and open.
    pub fn is_open(&self, cell: u8) -> bool {
        self.open.get(usize::from(cell)) == Some(&true)
    }

    /// Whether going or staying from the one to the other is lawful; any two
    /// bytes may be asked for.
    pub fn may_go(&self, from: u8, to: u8) -> bool {
        self.is_open(from) && self.is_open(to) && self.distance(from, to) <= 1
    }

    /// Rows apart plus columns apart: no carrier can go between the two in
    /// fewer steps.
    pub fn distance(&self, a: u8, b: u8) -> usize {
        let (row_a, column_a) = self.place(a);
        let (row_b, column_b) = self.place(b);
        row_a.abs_diff(row_b) + column_a.abs_diff(column_b)
    }

    /// "A cell's number is row × width + column".
    fn place(&self, cell: u8) -> (usize, usize) {
        let cell = usize::from(cell);
        (cell / self.width, cell % self.width)
    }

    fn lawful_from(&self, from: u8) -> Vec<u8> {
        (0..self.open.len())
            .map(byte)
            .filter(|&to| self.may_go(from, to))
            .collect()
    }
}

/// A hall has at most 256 cells, so each number fits one byte.
fn byte(cell: usize) -> u8 {
    u8::try_from(cell).expect("a hall has at most 256 cells")
}

#[cfg(test)]
mod tests {
    use super::*;

    fn floor(width: usize, height: usize, hall: &[u8]) -> Floor {
        Floor::new(&Job {
            width,
            height,
            hall: hall.to_vec(),
            carriers: vec![],
            horizon: 0,
        })
    }

    #[test]
    fn moves_by_rising_number() {
        let open = floor(3, 3, &[46; 9]);
        assert_eq!(open.next(4), [1, 3, 4, 5, 7]);
        assert_eq!(open.next(2), [1, 2, 5]);
        assert_eq!(open.next(3), [0, 3, 4, 6]);
        let narrow = floor(1, 3, &[46; 3]);
        assert_eq!(narrow.next(1), [0, 1, 2]);
    }

    #[test]
    fn closed_cells_and_the_edge() {
        let walled = floor(3, 2, b".#....");
        assert_eq!(walled.next(0), [0, 3]);
        assert!(!walled.may_go(0, 1));
        assert!(!walled.may_go(1, 1));
        assert!(!walled.may_go(5, 6));
        assert!(!walled.may_go(2, 3));
        assert!(!walled.may_go(255, 255));
    }

    #[test]
    fn a_full_hall_has_cell_255() {
        let full = floor(16, 16, &[46; 256]);
        assert_eq!(full.next(255), [239, 254, 255]);
    }
}
