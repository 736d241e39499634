//! The search tree (rules 3, 4, 6 and 7) in the lent tables.

use std::cmp::Reverse;
use std::collections::BinaryHeap;
use std::iter;

use super::clash::{self, Clash, Kind};
use super::fill::{Fill, NONE};
use super::floor::Floor;
use super::records::{self, Bar};
use super::route::Router;
use crate::task::{PlanTask, Tables, Told};

/// How the tree ends.
#[derive(Clone, Copy, Debug, PartialEq, Eq)]
pub enum Outcome {
    Plan {
        sum: usize,
        records: usize,
        node: usize,
    },
    UsedUp {
        records: usize,
    },
    Full {
        records: usize,
    },
}

impl Outcome {
    /// How many nodes were made.
    pub fn records(self) -> usize {
        match self {
            Outcome::Plan { records, .. }
            | Outcome::UsedUp { records }
            | Outcome::Full { records } => records,
        }
    }
}

/// Plans a job that passed the checks and leaves the tables as document 01 says.
pub fn plan<F: Fill>(task: &PlanTask, tables: &mut Tables) -> Told {
    let outcome = search::<F>(task, tables);
    if let Outcome::Plan { node, .. } = outcome {
        let size = task.stretch_len();
        tables.output[..size].copy_from_slice(&tables.plans[node * size..][..size]);
    }
    tables.columns[..task.columns_len()].fill(0);
    tables.plans[..task.plans_len()].fill(0);
    tables.layers[..task.layers_len()].fill(0);
    let (number, sum) = match outcome {
        Outcome::Plan { sum, .. } => (0, sum),
        Outcome::UsedUp { .. } => (8, 0),
        Outcome::Full { .. } => (9, 0),
    };
    [number, sum, outcome.records(), 0, 0, 0, 0]
}

/// Grows the tree of a job that passed the checks.
pub fn search<F: Fill>(task: &PlanTask, tables: &mut Tables) -> Outcome {
    let floor = Floor::new(&task.hall, task.width);
    Search {
        task,
        tables,
        router: Router::<F>::new(floor, task.h),
        open: BinaryHeap::new(),
        made: 0,
    }
    .run()
}

/// "a record is due and N are in use".
struct NoRecordLeft;

struct Search<'a, F> {
    task: &'a PlanTask,
    tables: &'a mut Tables,
    router: Router<F>,
    /// Sum and number of each open node.
    open: BinaryHeap<Reverse<(usize, usize)>>,
    made: usize,
}

impl<F: Fill> Search<'_, F> {
    fn run(mut self) -> Outcome {
        self.plant();
        while let Some(Reverse((sum, node))) = self.open.pop() {
            let stretch = &self.tables.plans[self.stretch(node)..][..self.task.stretch_len()];
            let Some(clash) = clash::chosen(stretch, &self.task.carriers) else {
                return Outcome::Plan {
                    sum,
                    records: self.made,
                    node,
                };
            };
            if self.grow(node, sum, clash).is_err() {
                return Outcome::Full { records: self.made };
            }
        }
        Outcome::UsedUp { records: self.made }
    }

    /// Rule 3: the root, unless a carrier has no route.
    fn plant(&mut self) {
        let mut sum = 0;
        for carrier in 0..self.task.count() {
            let cost = self.seek(carrier, iter::empty());
            if cost == NONE {
                return;
            }
            self.write(carrier, cost, 0);
            sum += usize::from(cost);
        }
        records::write_root(&mut self.tables.columns, self.task.n);
        self.number(sum);
    }

    /// Rules 6 and 7: a child for each of the two carriers, if it has a route.
    fn grow(&mut self, parent: usize, sum: usize, clash: Clash) -> Result<(), NoRecordLeft> {
        let [earlier, other] = clash.carriers;
        for (carrier, met) in [(earlier, other), (other, earlier)] {
            let bar = self.bar(parent, carrier, met, clash);
            let cost = self.seek_under(parent, carrier, bar);
            if cost == NONE {
                continue;
            }
            if self.made == self.task.n {
                return Err(NoRecordLeft);
            }
            let others = sum - self.cost(parent, carrier);
            self.record(parent, carrier, bar, cost);
            self.number(others + usize::from(cost));
        }
        Ok(())
    }

    /// What rule 6 bars a carrier from, with document 02's P3: "i is barred from e to
    /// e + slip of j, j from e to e + slip of i".
    fn bar(&self, node: usize, carrier: usize, met: usize, clash: Clash) -> Bar {
        let step = clash.step;
        match clash.kind {
            Kind::Meeting { cell } => Bar::Stay {
                cell: usize::from(cell),
                first: step,
                last: (step + usize::from(self.task.carriers[met].slip)).min(self.task.h),
            },
            Kind::Swap => {
                let route = self.route(node, carrier);
                Bar::Crossing {
                    from: usize::from(route[step]),
                    to: usize::from(route[step + 1]),
                    step,
                }
            }
        }
    }

    fn seek_under(&mut self, node: usize, carrier: usize, bar: Bar) -> u8 {
        let columns = std::mem::take(&mut self.tables.columns);
        let bars = records::bars_of(&columns, self.task.n, node, carrier);
        let cost = self.seek(carrier, bars.chain(iter::once(bar)));
        self.tables.columns = columns;
        cost
    }

    fn seek(&mut self, carrier: usize, bars: impl Iterator<Item = Bar>) -> u8 {
        let (start, goal) = self.ends(carrier);
        self.router.seek(start, goal, bars, &mut self.tables.layers)
    }

    /// Writes the route just sought into a node's stretch.
    fn write(&mut self, carrier: usize, cost: u8, node: usize) {
        let (start, _) = self.ends(carrier);
        let place = self.stretch(node) + carrier * (self.task.h + 1);
        let route = &mut self.tables.plans[place..];
        self.router.write(start, cost, &self.tables.layers, route);
    }

    /// The next record: the parent's routes, but for that of the barred carrier.
    fn record(&mut self, parent: usize, carrier: usize, bar: Bar, cost: u8) {
        let (from, to) = (self.stretch(parent), self.stretch(self.made));
        let copied = from..from + self.task.stretch_len();
        self.tables.plans.copy_within(copied, to);
        self.write(carrier, cost, self.made);
        let columns = &mut self.tables.columns;
        records::write_record(columns, self.task.n, self.made, parent, carrier, bar);
    }

    /// Gives the next node its number and opens it.
    fn number(&mut self, sum: usize) {
        self.open.push(Reverse((sum, self.made)));
        self.made += 1;
    }

    fn stretch(&self, node: usize) -> usize {
        node * self.task.stretch_len()
    }

    fn route(&self, node: usize, carrier: usize) -> &[u8] {
        let steps = self.task.h + 1;
        &self.tables.plans[self.stretch(node) + carrier * steps..][..steps]
    }

    /// "the least step from which it is on its goal at every step up to H".
    fn cost(&self, node: usize, carrier: usize) -> usize {
        let goal = self.task.carriers[carrier].goal;
        let away = self.route(node, carrier).iter().rposition(|&c| c != goal);
        away.map_or(0, |step| step + 1)
    }

    fn ends(&self, carrier: usize) -> (usize, usize) {
        let ends = self.task.carriers[carrier];
        (usize::from(ends.start), usize::from(ends.goal))
    }
}
