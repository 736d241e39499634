//! Wrong turns a builder may take with P2, each as an order of routes. Lists of all
//! routes put in such an order tell whether a job would show the turn: only where
//! jobs show it often is it worth anything that no job differs.

use crate::bar::Bar;
use crate::brute::slips::P3;
use crate::brute::tree_by_words::{self, Ranked, Told};
use crate::brute::walks::{self, Rank};
use crate::job::{Carrier, Job};

/// An order that is not P2's.
pub struct WrongTurn {
    pub name: &'static str,
    pub rank: Rank,
}

/// "Among routes of least cost take those with the fewest moves, and among these
/// the first in dictionary order", turned wrongly.
pub const WRONG_TURNS: [WrongTurn; 5] = [
    // The rule before P2. A stay counted as a move is the same turn: then all
    // routes have equally many.
    WrongTurn {
        name: "the dictionary before moves",
        rank: |route, goal| vec![walks::cost(route, goal)],
    },
    WrongTurn {
        name: "fewest moves before least cost",
        rank: |route, goal| vec![walks::moves(route), walks::cost(route, goal)],
    },
    WrongTurn {
        name: "moves to the first touch of the goal",
        rank: |route, goal| {
            let to_touch = &route[..=first_touch(route, goal)];
            vec![walks::cost(route, goal), walks::moves(to_touch)]
        },
    },
    WrongTurn {
        name: "moves from the first touch of the goal",
        rank: |route, goal| {
            let from_touch = &route[first_touch(route, goal)..];
            vec![walks::cost(route, goal), walks::moves(from_touch)]
        },
    },
    // Right for every carrier whose next cell has the greater number.
    WrongTurn {
        name: "stays first, whatever the dictionary says",
        rank: |route, goal| {
            let mut rank = vec![walks::cost(route, goal), walks::moves(route)];
            rank.extend((1..route.len()).map(|step| walks::moves(&route[step - 1..=step])));
            rank
        },
    },
];

fn first_touch(route: &[u8], goal: u8) -> usize {
    let touch = route.iter().position(|cell| *cell == goal);
    touch.expect("a route ends on its goal")
}

impl WrongTurn {
    /// The carrier's route under these bars, with the turn taken.
    pub fn route(&self, job: &Job, carrier: Carrier, bars: &[Bar]) -> Option<Vec<u8>> {
        let ranked = walks::routes_by(job, carrier, self.rank);
        walks::first_kept(&ranked, bars).cloned()
    }

    /// The answer to the job with N records, with the turn taken.
    pub fn answer(&self, job: &Job, n: usize) -> Told {
        let carriers = job.carriers.iter();
        let ranked: Ranked = carriers
            .map(|&carrier| walks::routes_by(job, carrier, self.rank))
            .collect();
        tree_by_words::search_by(job, n, &ranked, &P3)
    }
}

#[cfg(test)]
mod tests {
    use super::*;
    use crate::brute::loops;
    use crate::generate;
    use crate::random::Random;

    /// How many of these jobs show each turn, in the order of the turns.
    fn shown_by(jobs: &[Job]) -> [usize; 5] {
        const N: usize = 64;
        let mut shown = [0; 5];
        for job in jobs {
            let right = tree_by_words::search(job, N);
            for (shown, turn) in shown.iter_mut().zip(&WRONG_TURNS) {
                *shown += usize::from(turn.answer(job, N) != right);
            }
        }
        shown
    }

    /// Of so many jobs those whose greatest slip fits.
    fn jobs_with(many: usize, fits: fn(usize) -> bool) -> Vec<Job> {
        let mut random = Random::new(31);
        let jobs = (0..many).map(|_| generate::small_waiting(&mut random));
        let greatest = |job: &Job| job.slips().into_iter().max();
        jobs.filter(|job| greatest(job).is_some_and(fits)).collect()
    }

    #[test]
    fn jobs_with_slips_show_every_turn() {
        let jobs = jobs_with(600, |greatest| greatest > 0);
        let shown = shown_by(&jobs);
        assert!(shown.iter().all(|shown| *shown > 10), "{shown:?}");
        assert!(5 * shown[0] > jobs.len(), "{shown:?} of {}", jobs.len());
    }

    /// Without slips too, where a carrier seldom has two steps to lose.
    #[test]
    fn jobs_without_slips_show_every_turn() {
        let jobs = jobs_with(1800, |greatest| greatest == 0);
        let shown = shown_by(&jobs);
        assert!(shown.iter().all(|shown| *shown > 1), "{shown:?}");
        assert!(10 * shown[0] > jobs.len(), "{shown:?} of {}", jobs.len());
    }

    /// Among them some in which crossings are barred, at the root at least.
    #[test]
    fn jobs_with_swaps_show_the_old_rule() {
        let mut jobs = jobs_with(1800, |greatest| greatest == 0);
        jobs.retain(swaps_at_the_root);
        let shown = shown_by(&jobs);
        assert!(shown[0] > 5, "{shown:?} of {}", jobs.len());
    }

    fn swaps_at_the_root(job: &Job) -> bool {
        let carriers = job.carriers.iter();
        let best = carriers.map(|&carrier| walks::ranked_routes(job, carrier).into_iter().next());
        let Some(routes) = best.collect::<Option<Vec<_>>>() else {
            return false;
        };
        let routes: Vec<&[u8]> = routes.iter().map(Vec::as_slice).collect();
        loops::first_meeting(&routes, &job.slips()).is_some_and(|(.., swap)| swap)
    }
}
