//! A carrier's route under its bars (rule 2 as P2 has it): "Among routes of least
//! cost take those with the fewest moves, and among these the first in dictionary
//! order."
//!
//! Two searches, one after the other. A best-first search over (step, cell) finds
//! the least cost c and the fewest moves m that a route of that cost has. A
//! depth-first walk, which tries cells by rising number and remembers from where,
//! and with how many moves left, c cannot be kept, then finds the first route that
//! is on the goal from c to H after at most m moves. No cost is below c: so its
//! cost is c, and its moves are m.

use std::cmp::Reverse;
use std::collections::{BinaryHeap, HashMap};

use crate::bar::Barred;
use crate::floor::Floor;
use crate::job::Carrier;

/// "A route gives one cell for each step 0 to H".
pub type Route = Vec<u8>;

/// "Its cost is the least step from which it is on its goal at every step up
/// to H." Asked only for routes that end on the goal.
pub fn cost(route: &[u8], goal: u8) -> usize {
    route
        .iter()
        .rposition(|&cell| cell != goal)
        .map_or(0, |last_off_goal| last_off_goal + 1)
}

/// How often the carrier leaves a cell, over all steps 0 to H. A stay is no move,
/// also where it comes before the cost and so costs 1.
pub fn moves(route: &[u8]) -> usize {
    let steps = route.windows(2);
    steps.filter(|step| step[0] != step[1]).count()
}

/// Rule 2, or nothing if no lawful route keeps to the bars.
pub fn best_route(
    floor: &Floor,
    carrier: Carrier,
    horizon: usize,
    barred: &Barred,
) -> Option<Route> {
    let search = RouteSearch {
        floor,
        carrier,
        horizon,
        barred,
    };
    let least = search.least()?;
    Some(search.first_in_dictionary(least))
}

/// The least cost, and the fewest moves among the routes of that cost.
#[derive(Clone, Copy)]
struct Least {
    cost: usize,
    moves: usize,
}

/// A place that the best-first search has come to: the least cost and the fewest
/// moves that any route through it can have, then step, cell, and the moves made
/// so far.
type Promise = Reverse<(usize, usize, usize, u8, usize)>;

struct RouteSearch<'a> {
    floor: &'a Floor,
    carrier: Carrier,
    horizon: usize,
    barred: &'a Barred,
}

impl RouteSearch<'_> {
    /// The least cost is the least step at which the carrier can be on its goal
    /// with no bar on the goal from there to H. Cost goes before moves: places
    /// are taken by step plus distance to the goal, then by moves plus that
    /// distance, neither of which exceeds what is to be reached from there.
    fn least(&self) -> Option<Least> {
        let goal_free_from = self.goal_free_from()?;
        let start = self.carrier.start;
        if self.barred.standing(0, start) {
            return None;
        }
        let mut fewest = HashMap::from([((0, start), 0)]);
        let mut waiting = BinaryHeap::from([self.promise(0, start, 0)]);
        while let Some(Reverse((_, _, step, cell, moves))) = waiting.pop() {
            if cell == self.carrier.goal && step >= goal_free_from {
                return Some(Least { cost: step, moves });
            }
            for next in self.onward(step, cell, self.horizon) {
                let moves = moves + usize::from(next != cell);
                let known = fewest.entry((step + 1, next)).or_insert(usize::MAX);
                if moves < *known {
                    *known = moves;
                    waiting.push(self.promise(step + 1, next, moves));
                }
            }
        }
        None
    }

    /// The least step from which no bar stands on the goal up to H; nothing if
    /// the goal is barred at H.
    fn goal_free_from(&self) -> Option<usize> {
        (0..=self.horizon)
            .rev()
            .take_while(|&step| !self.barred.standing(step, self.carrier.goal))
            .last()
    }

    fn promise(&self, step: usize, cell: u8, moves: usize) -> Promise {
        let distance = self.floor.distance(cell, self.carrier.goal);
        Reverse((step + distance, moves + distance, step, cell, moves))
    }

    /// The cells open to the carrier at the next step, by rising number, from
    /// which the goal is not too far to be reached at `deadline`.
    fn onward(&self, step: usize, cell: u8, deadline: usize) -> impl Iterator<Item = u8> {
        let lawful = self.floor.next(cell).iter().copied();
        lawful.filter(move |&next| {
            !self.barred.crossing(step, cell, next)
                && !self.barred.standing(step + 1, next)
                && step + 1 + self.floor.distance(next, self.carrier.goal) <= deadline
        })
    }

    /// The dictionary-first route of the least cost with the fewest moves. There
    /// is one, as both came from `least`.
    fn first_in_dictionary(&self, least: Least) -> Route {
        let mut walk = Walk {
            search: self,
            cost: least.cost,
            route: vec![self.carrier.start],
            dead: HashMap::new(),
        };
        let found = walk.walk_on(least.moves);
        assert!(found, "the least cost and the fewest moves have a route");
        let mut route = walk.route;
        route.resize(self.horizon + 1, self.carrier.goal);
        route
    }
}

/// A walk that has to be on the goal at step `cost`.
struct Walk<'a> {
    search: &'a RouteSearch<'a>,
    cost: usize,
    route: Route,
    /// The most moves left with which the walk failed from (step, cell): with
    /// fewer it fails too.
    dead: HashMap<(usize, u8), usize>,
}

impl Walk<'_> {
    /// Extends the route to its end with at most so many moves, trying the lesser
    /// cell first, be that a move or a stay.
    fn walk_on(&mut self, moves_left: usize) -> bool {
        let search = self.search;
        let step = self.route.len() - 1;
        let cell = self.route[step];
        if step == self.cost {
            return cell == search.carrier.goal;
        }
        if self.is_dead(step, cell, moves_left) {
            return false;
        }
        for next in search.onward(step, cell, self.cost) {
            let Some(left) = moves_left.checked_sub(usize::from(next != cell)) else {
                continue;
            };
            self.route.push(next);
            if self.walk_on(left) {
                return true;
            }
            self.route.pop();
        }
        self.dead.insert((step, cell), moves_left);
        false
    }

    fn is_dead(&self, step: usize, cell: u8, moves_left: usize) -> bool {
        let too_far = moves_left < self.search.floor.distance(cell, self.search.carrier.goal);
        let failed = self.dead.get(&(step, cell));
        too_far || failed.is_some_and(|&with| moves_left <= with)
    }
}

#[cfg(test)]
mod tests {
    use super::*;
    use crate::bar::{Bar, CarrierBar};
    use crate::job::Job;

    fn route(
        (width, height): (usize, usize),
        (start, goal): (u8, u8),
        horizon: usize,
        bars: &[Bar],
    ) -> Option<Route> {
        let slip = 0;
        let carrier = Carrier { start, goal, slip };
        let floor = Floor::new(&Job {
            width,
            height,
            hall: vec![46; width * height],
            carriers: vec![carrier],
            horizon,
        });
        let bars: Vec<_> = bars
            .iter()
            .map(|&bar| CarrierBar { carrier: 0, bar })
            .collect();
        best_route(&floor, carrier, horizon, &Barred::of(0, &bars))
    }

    fn standing(cell: u8, first: usize, last: usize) -> Bar {
        Bar::Standing { cell, first, last }
    }

    #[test]
    fn cost_counts_to_the_last_arrival() {
        assert_eq!(cost(&[5, 5, 5], 5), 0);
        assert_eq!(cost(&[4, 5, 4, 5, 5], 5), 3);
        assert_eq!(cost(&[4, 4, 5], 5), 2);
        assert_eq!(cost(&[5], 5), 0);
    }

    #[test]
    fn moves_are_counted_over_all_steps_and_stays_are_none() {
        assert_eq!(moves(&[5, 5, 5]), 0);
        assert_eq!(moves(&[4, 5, 4, 5, 5]), 3);
        assert_eq!(moves(&[4, 4, 5, 5, 4]), 2);
        assert_eq!(moves(&[5]), 0);
    }

    /// P2's "A carrier that must lose two steps": the middle of 3 by 3 is barred.
    #[test]
    fn who_must_lose_two_steps_stands() {
        let bars = [standing(4, 1, 2)];
        let waits = Some(vec![3, 3, 3, 4, 5, 5]);
        assert_eq!(route((3, 3), (3, 5), 5, &bars), waits);
    }

    /// "Among routes of least cost": to wait here would take one step more.
    #[test]
    fn a_way_round_that_costs_less_goes_before_standing() {
        let bars = [standing(4, 1, 3)];
        let round = Some(vec![3, 0, 1, 2, 5, 5]);
        assert_eq!(route((3, 3), (3, 5), 5, &bars), round);
    }

    /// A carrier that has touched its goal and must be off it later still counts
    /// the moves after that touch: it waits outside, though 0 comes before 1.
    #[test]
    fn moves_after_a_touch_of_the_goal_count() {
        let bars = [standing(0, 3, 3)];
        let outside = Some(vec![1, 1, 1, 1, 0, 0]);
        assert_eq!(route((2, 1), (1, 0), 5, &bars), outside);
    }

    /// "and among these the first in dictionary order": a step to a lesser cell is
    /// made early, one to a greater cell late.
    #[test]
    fn the_dictionary_says_when_to_stand() {
        let bars = [standing(0, 3, 3)];
        assert_eq!(route((4, 1), (3, 0), 4, &bars), Some(vec![3, 2, 1, 1, 0]));
        let bars = [standing(3, 3, 3)];
        assert_eq!(route((4, 1), (0, 3), 4, &bars), Some(vec![0, 0, 1, 2, 3]));
    }

    /// Barred crossings leave standing free, and it is taken.
    #[test]
    fn who_may_not_cross_stands() {
        let crossing = |step| Bar::Crossing {
            from: 3,
            to: 4,
            step,
        };
        let bars = [crossing(0), crossing(1)];
        let waits = Some(vec![3, 3, 3, 4, 5]);
        assert_eq!(route((3, 3), (3, 5), 4, &bars), waits);
    }

    #[test]
    fn the_dictionary_decides_among_equals() {
        assert_eq!(
            route((3, 3), (0, 8), 5, &[]),
            Some(vec![0, 1, 2, 5, 8, 8]),
            "up and left come before right and down"
        );
        assert_eq!(route((3, 3), (8, 0), 4, &[]), Some(vec![8, 5, 2, 1, 0]));
    }

    #[test]
    fn too_short_a_horizon_has_no_route() {
        assert_eq!(route((3, 1), (0, 2), 1, &[]), None);
        assert_eq!(route((3, 1), (0, 2), 2, &[]), Some(vec![0, 1, 2]));
    }

    #[test]
    fn a_late_bar_on_the_goal_makes_the_carrier_leave_or_wait() {
        let bars = [standing(0, 2, 2)];
        assert_eq!(route((2, 1), (0, 0), 4, &bars), Some(vec![0, 0, 1, 0, 0]));
        let bars = [standing(2, 3, 3)];
        assert_eq!(
            route((3, 1), (0, 2), 5, &bars),
            Some(vec![0, 0, 0, 1, 2, 2])
        );
    }

    #[test]
    fn a_bar_on_the_goal_at_the_horizon_leaves_nothing() {
        assert_eq!(route((3, 1), (0, 2), 5, &[standing(2, 5, 5)]), None);
        assert_eq!(route((3, 1), (0, 2), 5, &[standing(2, 5, 9)]), None);
        let after_the_end = route((3, 1), (0, 2), 2, &[standing(2, 3, 9)]);
        assert_eq!(after_the_end, Some(vec![0, 1, 2]));
    }

    #[test]
    fn a_bar_on_the_start_at_step_0_leaves_nothing() {
        assert_eq!(route((3, 1), (0, 2), 5, &[standing(0, 0, 0)]), None);
    }

    #[test]
    fn a_barred_crossing_leaves_the_other_ways() {
        let bar = Bar::Crossing {
            from: 0,
            to: 1,
            step: 0,
        };
        assert_eq!(route((3, 1), (0, 2), 2, &[bar]), None);
        assert_eq!(route((3, 1), (0, 2), 3, &[bar]), Some(vec![0, 0, 1, 2]));
        assert_eq!(route((2, 2), (0, 3), 2, &[bar]), Some(vec![0, 2, 3]));
    }
}
