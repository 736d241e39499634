//! The search tree (rules 3, 4, 6 and 7, rule 6 as P3 has it).

use std::collections::BTreeSet;

use crate::bar::{Bar, Barred, CarrierBar};
use crate::floor::Floor;
use crate::job::Job;
use crate::meeting::{self, Kind, Meeting};
use crate::route::{self, Route};

/// How the tree ends.
#[derive(Clone, Debug, PartialEq, Eq)]
pub enum Outcome {
    /// Answer 0: "If its routes have no meeting and no swap, they are the plan."
    Plan {
        sum: usize,
        records: usize,
        routes: Vec<Route>,
    },
    /// Answer 8: "the tree is used up".
    UsedUp { records: usize },
    /// Answer 9: "a record is due and N are in use".
    Full { records: usize },
}

/// Grows the tree for a job that passed checks 1 to 6 and 16, with at most
/// `capacity` records (any number: check 3 is not made here).
pub fn search(job: &Job, capacity: usize) -> Outcome {
    let mut tree = Tree::new(job, capacity);
    if tree.plant().is_err() {
        return tree.full();
    }
    while let Some((sum, number)) = tree.open.pop_first() {
        let Some(meeting) = meeting::chosen(&tree.nodes[number].routes, &tree.slips) else {
            return tree.plan(sum, number);
        };
        if tree.grow(number, &meeting).is_err() {
            return tree.full();
        }
    }
    tree.used_up()
}

/// One record: a node with every bar that binds it, its ancestors' bars copied
/// in ("A bar binds a node if it stands in that node's record or in the record
/// of one of its ancestors").
struct Node {
    bars: Vec<CarrierBar>,
    routes: Vec<Route>,
}

/// "a record is due and N are in use".
struct NoRecordLeft;

struct Tree<'a> {
    job: &'a Job,
    floor: Floor,
    slips: Vec<usize>,
    capacity: usize,
    nodes: Vec<Node>,
    /// The open nodes as (sum, number): the first is the one "of least sum,
    /// then of least number".
    open: BTreeSet<(usize, usize)>,
}

impl<'a> Tree<'a> {
    fn new(job: &'a Job, capacity: usize) -> Self {
        Tree {
            job,
            floor: Floor::new(job),
            slips: job.slips(),
            capacity,
            nodes: Vec::new(),
            open: BTreeSet::new(),
        }
    }

    /// Rule 3: "The root, number 0, has each carrier's route without bars. If a
    /// carrier has none, no root is made".
    fn plant(&mut self) -> Result<(), NoRecordLeft> {
        let routes: Option<Vec<Route>> = (0..self.job.carriers.len())
            .map(|carrier| self.best_route(carrier, &[]))
            .collect();
        match routes {
            Some(routes) => self.record(Node {
                bars: Vec::new(),
                routes,
            }),
            None => Ok(()),
        }
    }

    /// Rule 7: "In that order, a child whose barred carrier has a route takes
    /// the next number and one record; a child without one takes none."
    fn grow(&mut self, parent: usize, meeting: &Meeting) -> Result<(), NoRecordLeft> {
        for bar in self.bars_for(&self.nodes[parent], meeting) {
            if let Some(child) = self.child(&self.nodes[parent], bar) {
                self.record(child)?;
            }
        }
        Ok(())
    }

    /// Rule 6: what child one and child two are barred from, "the earlier carrier
    /// in child one" (P3).
    fn bars_for(&self, node: &Node, meeting: &Meeting) -> [CarrierBar; 2] {
        let Meeting { earlier, other, .. } = *meeting;
        [(earlier, other), (other, earlier)].map(|(carrier, from)| CarrierBar {
            carrier,
            bar: match meeting.kind {
                Kind::Meeting => self.standing_bar(node, meeting, self.slips[from]),
                Kind::Swap => crossing_bar(&node.routes[carrier], meeting.step),
            },
        })
    }

    /// "i is barred from e to e + slip of j, j from e to e + slip of i": each by
    /// the slip of the one it meets. "steps past H are dropped".
    fn standing_bar(&self, node: &Node, meeting: &Meeting, slip_of_the_one_met: usize) -> Bar {
        Bar::Standing {
            cell: node.routes[meeting.earlier][meeting.step],
            first: meeting.step,
            last: (meeting.step + slip_of_the_one_met).min(self.job.horizon),
        }
    }

    /// The parent with one more bar and a new route for the barred carrier, if
    /// that carrier has one.
    fn child(&self, parent: &Node, bar: CarrierBar) -> Option<Node> {
        let mut bars = parent.bars.clone();
        bars.push(bar);
        let route = self.best_route(bar.carrier, &bars)?;
        let mut routes = parent.routes.clone();
        routes[bar.carrier] = route;
        Some(Node { bars, routes })
    }

    /// Gives the node the next number and opens it. "If a record is due and N
    /// are in use, the answer is 9 at once."
    fn record(&mut self, node: Node) -> Result<(), NoRecordLeft> {
        if self.nodes.len() == self.capacity {
            return Err(NoRecordLeft);
        }
        self.open.insert((self.sum(&node), self.nodes.len()));
        self.nodes.push(node);
        Ok(())
    }

    fn best_route(&self, carrier: usize, bars: &[CarrierBar]) -> Option<Route> {
        let barred = Barred::of(carrier, bars);
        let ends = self.job.carriers[carrier];
        route::best_route(&self.floor, ends, self.job.horizon, &barred)
    }

    /// "Its sum is the total of the costs."
    fn sum(&self, node: &Node) -> usize {
        let costs = node.routes.iter().zip(&self.job.carriers);
        costs
            .map(|(route, carrier)| route::cost(route, carrier.goal))
            .sum()
    }

    fn plan(mut self, sum: usize, number: usize) -> Outcome {
        Outcome::Plan {
            sum,
            records: self.nodes.len(),
            routes: self.nodes.swap_remove(number).routes,
        }
    }

    fn used_up(&self) -> Outcome {
        Outcome::UsedUp {
            records: self.nodes.len(),
        }
    }

    fn full(&self) -> Outcome {
        Outcome::Full {
            records: self.nodes.len(),
        }
    }
}

/// "For a swap each is barred from its own crossing at t."
fn crossing_bar(route: &[u8], step: usize) -> Bar {
    Bar::Crossing {
        from: route[step],
        to: route[step + 1],
        step,
    }
}
