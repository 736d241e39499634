//! Every lawful walk of a carrier, and what can be read off the list of them.

use crate::bar::Bar;
use crate::job::{Carrier, Job};

/// "a constant table holds the five moves as changes of row and column".
const MOVES: [(isize, isize); 5] = [(0, 0), (-1, 0), (1, 0), (0, -1), (0, 1)];

/// What stands before the dictionary in an order of routes: asked of a route and
/// its goal, the least list comes first.
pub type Rank = fn(&[u8], u8) -> Vec<usize>;

/// Every lawful walk of this many steps from the cell.
pub fn walks(job: &Job, start: u8, steps: usize) -> Vec<Vec<u8>> {
    let mut walks = vec![vec![start]];
    for _ in 0..steps {
        walks = walks.iter().flat_map(|walk| longer(job, walk)).collect();
    }
    walks
}

/// Every lawful route: "the start at 0, the goal at H, one lawful move or stay
/// between".
pub fn routes(job: &Job, carrier: Carrier) -> Vec<Vec<u8>> {
    let mut walks = walks(job, carrier.start, job.horizon);
    walks.retain(|walk| walk[job.horizon] == carrier.goal);
    walks
}

/// The cost by its words: "the least step from which it is on its goal at every
/// step up to H".
pub fn cost(route: &[u8], goal: u8) -> usize {
    let stays_from = |step: &usize| route[*step..].iter().all(|cell| *cell == goal);
    let found = (0..route.len()).find(stays_from);
    found.expect("the route ends on the goal")
}

/// The moves by their words: every step from 1 to H at which the carrier is not
/// where it was a step before.
pub fn moves(route: &[u8]) -> usize {
    let steps = 1..route.len();
    steps.filter(|&step| route[step] != route[step - 1]).count()
}

/// Every lawful route, in the order of rule 2 and P2: "least cost", then "the
/// fewest moves", then "the first in dictionary order".
pub fn ranked_routes(job: &Job, carrier: Carrier) -> Vec<Vec<u8>> {
    let rule = |route: &[u8], goal: u8| vec![cost(route, goal), moves(route)];
    routes_by(job, carrier, rule)
}

/// Every lawful route, by what the rank says of route and goal, then by the
/// dictionary.
pub fn routes_by(job: &Job, carrier: Carrier, rank: Rank) -> Vec<Vec<u8>> {
    let mut routes = routes(job, carrier);
    routes.sort_by_cached_key(|route| (rank(route, carrier.goal), route.clone()));
    routes
}

/// Rule 2 by its words: the first of the ranked routes that keeps all bars.
pub fn first_kept<'a>(ranked: &'a [Vec<u8>], bars: &[Bar]) -> Option<&'a Vec<u8>> {
    let mut ranked = ranked.iter();
    ranked.find(|route| bars.iter().all(|bar| keeps(route, bar)))
}

/// The first step at which the start, a move, a cell or the goal is wrong: the
/// least step up to which the cells are no lawful walk, or else H.
pub fn first_wrong_step(job: &Job, carrier: Carrier, route: &[u8]) -> Option<usize> {
    let lawful_to = |step: usize| {
        let walk = &route[..=step];
        walks(job, carrier.start, step).iter().any(|w| w == walk)
    };
    (0..=job.horizon).find(|&step| {
        let off_goal = step == job.horizon && route[step] != carrier.goal;
        off_goal || !lawful_to(step)
    })
}

fn longer(job: &Job, walk: &[u8]) -> Vec<Vec<u8>> {
    let last = walk[walk.len() - 1];
    let ends = MOVES.iter().filter_map(|by| moved(job, last, *by));
    ends.map(|end| [walk, &[end]].concat()).collect()
}

/// The cell after the move, if it is inside the grid and open.
fn moved(job: &Job, cell: u8, (down, right): (isize, isize)) -> Option<u8> {
    let row = (usize::from(cell) / job.width).checked_add_signed(down)?;
    let column = (usize::from(cell) % job.width).checked_add_signed(right)?;
    let inside = row < job.height && column < job.width;
    let end = u8::try_from(row * job.width + column).ok()?;
    (inside && job.hall[usize::from(end)] == b'.').then_some(end)
}

fn keeps(route: &[u8], bar: &Bar) -> bool {
    match *bar {
        Bar::Standing { cell, first, last } => {
            (first..=last).all(|step| route.get(step) != Some(&cell))
        }
        Bar::Crossing { from, to, step } => route.get(step..step + 2) != Some(&[from, to]),
    }
}

#[cfg(test)]
mod tests {
    use super::*;

    #[test]
    fn a_corner_has_three_ways_on() {
        let carrier = |goal| Carrier {
            start: 0,
            goal,
            slip: 0,
        };
        let job = Job {
            width: 3,
            height: 3,
            hall: b"....#....".to_vec(),
            carriers: vec![carrier(4)],
            horizon: 2,
        };
        assert_eq!(walks(&job, 0, 1), [[0, 0], [0, 3], [0, 1]]);
        assert_eq!(routes(&job, carrier(4)), Vec::<Vec<u8>>::new());
        assert_eq!(first_wrong_step(&job, carrier(4), &[0, 1, 4]), Some(2));
        assert_eq!(routes(&job, carrier(2)), [[0, 1, 2]]);
    }
}
