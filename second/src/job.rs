//! The job: "a hall, a list of carriers (each a record of start cell and goal
//! cell, numbered from 0)" and, by P3, "its own slip", "the horizon H (0 to 63)
//! and the capacity N". N is kept apart, since the two plan checks have none.

/// The hall byte of an open cell ('.').
pub const OPEN: u8 = 46;
/// The hall byte of a closed cell ('#').
pub const CLOSED: u8 = 35;
/// "A hall is a grid of 1 to 16 columns (width) by 1 to 16 rows (height)."
pub const MOST_COLUMNS_OR_ROWS: usize = 16;
/// "Each carrier's record now has its own slip, 0 to 4."
pub const MOST_SLIP: u8 = 4;
/// "the horizon H (0 to 63)".
pub const MOST_HORIZON: usize = 63;
/// "the capacity N (1 to 1,024 records)".
pub const MOST_RECORDS: usize = 1024;
/// "There are 1 to 8 carriers."
pub const MOST_CARRIERS: usize = 8;

/// "each a record of start cell and goal cell", and "Each carrier's record now has
/// its own slip" (P3): how often it may be held in all. A cell's number is one
/// byte, as it is in a book and in plan bytes, and so is a slip.
#[derive(Clone, Copy, Debug, PartialEq, Eq)]
pub struct Carrier {
    pub start: u8,
    pub goal: u8,
    pub slip: u8,
}

/// A job without its capacity N.
#[derive(Clone, Debug, PartialEq, Eq)]
pub struct Job {
    pub width: usize,
    pub height: usize,
    pub hall: Vec<u8>,
    pub carriers: Vec<Carrier>,
    pub horizon: usize,
}

/// What checks 1 to 6 and 16 refuse, with what is "also told".
#[derive(Clone, Copy, Debug, PartialEq, Eq)]
pub enum Refusal {
    /// 1: "width or height is 0 or above 16".
    Size,
    /// 2: "the hall hasn't width × height bytes, or a byte is neither 46 nor 35".
    Hall,
    /// 3, which "speaks of H and N only" (P3): "H above 63, or N is 0 or above
    /// 1,024".
    Limits,
    /// 4: "no carrier, or more than 8".
    Count,
    /// 5: "a start or goal is outside the grid or closed", or "a slip above 4"
    /// (P3); "first such carrier".
    Carrier { carrier: usize },
    /// 6: "two carriers with one start" (P1); "least i, then least j, i < j".
    SharedStart { carrier: usize, other: usize },
    /// 16: "shared goal, directly after 6 wherever 6 is given" (P1); the pair
    /// as for 6.
    SharedGoal { carrier: usize, other: usize },
}

impl Refusal {
    /// The number given back.
    pub fn number(self) -> u8 {
        match self {
            Refusal::Size => 1,
            Refusal::Hall => 2,
            Refusal::Limits => 3,
            Refusal::Count => 4,
            Refusal::Carrier { .. } => 5,
            Refusal::SharedStart { .. } => 6,
            Refusal::SharedGoal { .. } => 16,
        }
    }

    /// The carrier told. "Untold numbers are 0."
    pub fn carrier(self) -> usize {
        match self {
            Refusal::Carrier { carrier }
            | Refusal::SharedStart { carrier, .. }
            | Refusal::SharedGoal { carrier, .. } => carrier,
            _ => 0,
        }
    }

    /// The other carrier told. "Untold numbers are 0."
    pub fn other(self) -> usize {
        match self {
            Refusal::SharedStart { other, .. } | Refusal::SharedGoal { other, .. } => other,
            _ => 0,
        }
    }
}

impl Job {
    /// Checks 1 to 6, then 16. "If several apply, the lowest number is given."
    /// The two plan checks give no capacity ("no N there").
    pub fn refusal(&self, capacity: Option<usize>) -> Option<Refusal> {
        self.wrong_size()
            .or_else(|| self.wrong_hall())
            .or_else(|| self.wrong_limits(capacity))
            .or_else(|| self.wrong_count())
            .or_else(|| self.wrong_carrier())
            .or_else(|| self.shared_start())
            .or_else(|| self.shared_goal())
    }

    /// Whether the cell is inside the grid and open.
    pub fn is_open(&self, cell: u8) -> bool {
        self.hall.get(usize::from(cell)) == Some(&OPEN)
    }

    /// The slip of each carrier.
    pub fn slips(&self) -> Vec<usize> {
        let carriers = self.carriers.iter();
        carriers.map(|carrier| usize::from(carrier.slip)).collect()
    }

    fn wrong_size(&self) -> Option<Refusal> {
        let lawful = 1..=MOST_COLUMNS_OR_ROWS;
        let right = lawful.contains(&self.width) && lawful.contains(&self.height);
        (!right).then_some(Refusal::Size)
    }

    fn wrong_hall(&self) -> Option<Refusal> {
        let right = self.hall.len() == self.width * self.height
            && self.hall.iter().all(|byte| [OPEN, CLOSED].contains(byte));
        (!right).then_some(Refusal::Hall)
    }

    fn wrong_limits(&self, capacity: Option<usize>) -> Option<Refusal> {
        let right = self.horizon <= MOST_HORIZON
            && capacity.is_none_or(|n| (1..=MOST_RECORDS).contains(&n));
        (!right).then_some(Refusal::Limits)
    }

    fn wrong_count(&self) -> Option<Refusal> {
        let right = (1..=MOST_CARRIERS).contains(&self.carriers.len());
        (!right).then_some(Refusal::Count)
    }

    fn wrong_carrier(&self) -> Option<Refusal> {
        let right = |carrier: &Carrier| {
            self.is_open(carrier.start) && self.is_open(carrier.goal) && carrier.slip <= MOST_SLIP
        };
        let mut carriers = self.carriers.iter();
        let carrier = carriers.position(|carrier| !right(carrier))?;
        Some(Refusal::Carrier { carrier })
    }

    fn shared_start(&self) -> Option<Refusal> {
        let (carrier, other) = self.first_pair_with_one(|carrier| carrier.start)?;
        Some(Refusal::SharedStart { carrier, other })
    }

    fn shared_goal(&self) -> Option<Refusal> {
        let (carrier, other) = self.first_pair_with_one(|carrier| carrier.goal)?;
        Some(Refusal::SharedGoal { carrier, other })
    }

    /// The carriers that have one such end: "least i, then least j, i < j".
    fn first_pair_with_one(&self, end: fn(&Carrier) -> u8) -> Option<(usize, usize)> {
        self.carriers.iter().enumerate().find_map(|(i, a)| {
            let mut behind = self.carriers[i + 1..].iter();
            let between = behind.position(|b| end(a) == end(b))?;
            Some((i, i + 1 + between))
        })
    }
}

#[cfg(test)]
mod tests {
    use super::*;

    fn carrier(start: u8, goal: u8, slip: u8) -> Carrier {
        Carrier { start, goal, slip }
    }

    fn job() -> Job {
        Job {
            width: 3,
            height: 2,
            hall: b"...#..".to_vec(),
            carriers: vec![carrier(0, 2, 1), carrier(1, 5, 4), carrier(4, 1, 0)],
            horizon: 6,
        }
    }

    #[test]
    fn a_lawful_job_passes() {
        assert_eq!(job().refusal(Some(1)), None);
        assert_eq!(job().refusal(Some(1024)), None);
        assert_eq!(job().refusal(None), None);
    }

    #[test]
    fn size() {
        for (width, height) in [(0, 2), (3, 0), (17, 2), (3, 17), (0, 0)] {
            let job = Job {
                width,
                height,
                ..job()
            };
            assert_eq!(job.refusal(Some(0)), Some(Refusal::Size));
        }
    }

    #[test]
    fn hall() {
        for hall in [b"...#.".to_vec(), b"...#...".to_vec(), b"..x#..".to_vec()] {
            let job = Job { hall, ..job() };
            assert_eq!(job.refusal(Some(0)), Some(Refusal::Hall));
        }
    }

    #[test]
    fn limits() {
        assert_eq!(job().refusal(Some(0)), Some(Refusal::Limits));
        assert_eq!(job().refusal(Some(1025)), Some(Refusal::Limits));
        let late = Job {
            horizon: 64,
            carriers: vec![],
            ..job()
        };
        assert_eq!(late.refusal(None), Some(Refusal::Limits));
    }

    #[test]
    fn count() {
        let none = Job {
            carriers: vec![],
            ..job()
        };
        assert_eq!(none.refusal(None), Some(Refusal::Count));
        let nine = Job {
            carriers: vec![carrier(0, 0, 5); 9],
            ..job()
        };
        assert_eq!(nine.refusal(None), Some(Refusal::Count));
    }

    #[test]
    fn first_carrier_with_a_wrong_cell() {
        let mut closed = job();
        closed.carriers[1].goal = 3;
        closed.carriers[2].start = 200;
        assert_eq!(closed.refusal(None), Some(Refusal::Carrier { carrier: 1 }));
        let mut outside = job();
        outside.carriers[2].start = 6;
        assert_eq!(outside.refusal(None), Some(Refusal::Carrier { carrier: 2 }));
    }

    #[test]
    fn a_wrong_slip_counts_like_a_wrong_cell() {
        for slip in [5, 6, 255] {
            let mut heavy = job();
            heavy.carriers[1].slip = slip;
            assert_eq!(heavy.refusal(None), Some(Refusal::Carrier { carrier: 1 }));
            heavy.carriers[2].start = 200;
            assert_eq!(heavy.refusal(None), Some(Refusal::Carrier { carrier: 1 }));
            heavy.carriers[0].goal = 3;
            assert_eq!(heavy.refusal(None), Some(Refusal::Carrier { carrier: 0 }));
        }
    }

    #[test]
    fn least_pair_with_one_start_and_with_one_goal() {
        let mut shared = job();
        shared.carriers[2].goal = 5;
        let (carrier, other) = (1, 2);
        let one_goal = Refusal::SharedGoal { carrier, other };
        assert_eq!(shared.refusal(None), Some(one_goal));
        assert_eq!(told(one_goal), (16, 1, 2));
        shared.carriers[2].start = 0;
        let (carrier, other) = (0, 2);
        let one_start = Refusal::SharedStart { carrier, other };
        assert_eq!(shared.refusal(None), Some(one_start));
        assert_eq!(told(one_start), (6, 0, 2));
    }

    #[test]
    fn three_with_one_end_tell_the_first_two() {
        let mut shared = job();
        shared.carriers.push(carrier(2, 5, 2));
        shared.carriers.push(carrier(5, 5, 3));
        assert_eq!(shared.refusal(None).map(told), Some((16, 1, 3)));
        shared.carriers[2].start = 5;
        shared.carriers[1].start = 5;
        assert_eq!(shared.refusal(None).map(told), Some((6, 1, 2)));
    }

    #[test]
    fn the_start_of_another_may_be_a_goal() {
        let mut chained = job();
        chained.carriers[0].goal = 4;
        chained.carriers[1].goal = 0;
        assert_eq!(chained.refusal(None), None);
    }

    fn told(refusal: Refusal) -> (u8, usize, usize) {
        (refusal.number(), refusal.carrier(), refusal.other())
    }
}
