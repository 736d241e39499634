//! Routes in halls too large for lists of all routes, against rule 2 and P2 worked
//! out backwards from H: for every step and cell the least cost and, for that, the
//! fewest moves of any way on from there.

use second::bar::{Bar, Barred, CarrierBar};
use second::floor::Floor;
use second::generate;
use second::job::{Carrier, Job};
use second::random::Random;
use second::route::{Route, best_route, cost, moves};

/// (cost, moves) of the best way on, for each step and each cell; nothing where
/// there is none.
type Ahead = Vec<Vec<Option<(usize, usize)>>>;

struct Backwards<'a> {
    floor: &'a Floor,
    goal: u8,
    barred: &'a Barred,
    ahead: Ahead,
}

impl<'a> Backwards<'a> {
    fn new(job: &Job, floor: &'a Floor, goal: u8, barred: &'a Barred) -> Self {
        let mut backwards = Backwards {
            floor,
            goal,
            barred,
            ahead: vec![vec![None; job.hall.len()]; job.horizon + 1],
        };
        for step in (0..=job.horizon).rev() {
            for cell in (0..=u8::MAX).take(job.hall.len()) {
                if floor.is_open(cell) && !barred.standing(step, cell) {
                    backwards.ahead[step][usize::from(cell)] = backwards.best_at(step, cell);
                }
            }
        }
        backwards
    }

    fn best_at(&self, step: usize, cell: u8) -> Option<(usize, usize)> {
        if step + 1 == self.ahead.len() {
            return (cell == self.goal).then_some((step, 0));
        }
        let next = self.floor.next(cell).iter();
        next.filter_map(|&next| self.by(step, cell, next)).min()
    }

    /// The best way on by this next cell. On the goal from the next step to H, and
    /// on the goal now: then the cost is this step.
    fn by(&self, step: usize, cell: u8, next: u8) -> Option<(usize, usize)> {
        if self.barred.crossing(step, cell, next) {
            return None;
        }
        let (cost, moves) = self.ahead[step + 1][usize::from(next)]?;
        let on_goal = cell == self.goal && cost == step + 1;
        let cost = if on_goal { step } else { cost };
        Some((cost, moves + usize::from(next != cell)))
    }

    /// From the start on, always the least cell by which the best is kept.
    fn route(&self, start: u8) -> Option<Route> {
        self.ahead[0][usize::from(start)]?;
        let mut route = vec![start];
        for step in 0..self.ahead.len() - 1 {
            let cell = route[step];
            let best = self.ahead[step][usize::from(cell)];
            let mut next = self.floor.next(cell).iter();
            route.push(*next.find(|next| self.by(step, cell, **next) == best)?);
        }
        Some(route)
    }
}

/// A bar on a step of the route before H, or on a crossing there.
fn bar_on(random: &mut Random, route: &[u8], cost: usize) -> Bar {
    let step = random.below((cost + 2).min(route.len() - 1));
    if random.chance(30) && route[step] != route[step + 1] {
        return Bar::Crossing {
            from: route[step],
            to: route[step + 1],
            step,
        };
    }
    Bar::Standing {
        cell: route[step.max(1)],
        first: step.max(1),
        last: step.max(1) + random.below(5),
    }
}

/// How many of a carrier's routes were compared, each under one bar more that
/// stands in the way of the one before, and how many of them stood before their
/// cost.
fn compared(random: &mut Random, job: &Job, carrier: Carrier) -> [usize; 2] {
    let floor = Floor::new(job);
    let mut bars = Vec::new();
    let mut counts = [0; 2];
    for _ in 0..12 {
        let barred = Barred::of(0, &bars);
        let found = best_route(&floor, carrier, job.horizon, &barred);
        let backwards = Backwards::new(job, &floor, carrier.goal, &barred);
        let wanted = backwards.route(carrier.start);
        assert_eq!(found, wanted, "{carrier:?}, {bars:?}\n{job:?}");
        let Some(route) = found.filter(|_| job.horizon > 0) else {
            break;
        };
        let cost = cost(&route, carrier.goal);
        counts[0] += 1;
        counts[1] += usize::from(moves(&route) < cost);
        let bar = bar_on(random, &route, cost);
        bars.push(CarrierBar { carrier: 0, bar });
    }
    counts
}

#[test]
fn routes_are_those_worked_out_backwards() {
    let mut random = Random::new(41);
    let mut counts = [0; 2];
    for number in 0..300 {
        let job = match number % 2 {
            0 => generate::job(&mut random),
            _ => generate::waiting(&mut random),
        };
        let more = compared(&mut random, &job, job.carriers[0]);
        counts = [counts[0] + more[0], counts[1] + more[1]];
    }
    assert!(counts[0] > 1000 && 3 * counts[1] > counts[0], "{counts:?}");
}
