//! Both yardsticks against the independent second program, on random jobs,
//! refused jobs, short tables and random chains of bars.

use bench::compare::planned;
use bench::side::Side;
use bench::task::{self, BAD_ARGUMENTS, NO_ROUTE, PlanTask, RouteTask, Tables};
use bench::yardstick::records::{Bar, write_record, write_root};
use bench::yardstick::{BY_CELL, BY_LAYER};
use second::bar::{self, Barred, CarrierBar};
use second::floor::Floor;
use second::generate;
use second::job::{Carrier, Job};
use second::planner::{PlanAnswer, plan};
use second::random::Random;
use second::route;
use second::{damage, planner};

const SIDES: [&dyn Side; 2] = [&BY_CELL, &BY_LAYER];

fn task(job: &Job, n: usize) -> PlanTask {
    PlanTask {
        hall: job.hall.clone(),
        width: job.width,
        height: job.height,
        carriers: (job.carriers.iter())
            .map(|&Carrier { start, goal, slip }| task::Carrier { start, goal, slip })
            .collect(),
        h: job.horizon,
        n,
    }
}

/// What the tables have to hold after an answer: "After 1 to 7 no lent entry
/// has changed", nor after 16; after the others the least lengths of the first
/// three are zero.
fn left_by(answer: &PlanAnswer, task: &PlanTask, before: &Tables) -> Tables {
    let mut tables = before.clone();
    if [0, 8, 9].contains(&answer.number) {
        tables.columns[..task.columns_len()].fill(0);
        tables.plans[..task.plans_len()].fill(0);
        tables.layers[..task.layers_len()].fill(0);
    }
    let plan = answer.plan_bytes();
    tables.output[..plan.len()].copy_from_slice(&plan);
    tables
}

fn compare(job: &Job, n: usize) -> u8 {
    let task = task(job, n);
    let answer = planner::plan(job, n);
    let told = answer.told();
    let before = Tables::new(&task, 5, 0x5A);
    for side in SIDES {
        let mut tables = before.clone();
        assert_eq!(side.plan(&task, &mut tables), told, "{job:?}");
        assert!(tables == left_by(&answer, &task, &before), "{job:?}");
    }
    answer.number
}

#[test]
fn jobs_of_every_kind() {
    let mut random = Random::new(151);
    for _ in 0..3000 {
        compare(&generate::job(&mut random), 128);
    }
}

#[test]
fn crowded_jobs_around_their_need() {
    let mut random = Random::new(152);
    let mut answers = [0; 10];
    for _ in 0..300 {
        let job = generate::crowded(&mut random);
        let need = plan(&job, 200).records;
        for n in [need.max(2) - 1, need.max(1), need + 1] {
            answers[usize::from(compare(&job, n))] += 1;
        }
    }
    assert!(answers[0] > 100 && answers[9] > 100, "{answers:?}");
}

#[test]
fn refused_jobs() {
    let mut random = Random::new(153);
    let mut answers = [0; 17];
    for _ in 0..2000 {
        let n = random.pick(&[0, 1, 128, 128, 128, 1024, 1025]);
        answers[usize::from(compare(&damage::refused_job(&mut random), n))] += 1;
    }
    let refusals = [1, 2, 3, 4, 5, 6, 16];
    assert!(
        refusals.iter().all(|&number| answers[number] > 50),
        "{answers:?}"
    );
}

/// Every choice of tables that lack one entry, from one alone to all four.
#[test]
fn short_tables() {
    let job = generate::job(&mut Random::new(154));
    let task = task(&job, 16);
    let shorten: [fn(&mut Tables); 4] = [
        |tables| tables.columns.truncate(tables.columns.len() - 1),
        |tables| tables.plans.truncate(tables.plans.len() - 1),
        |tables| tables.layers.truncate(tables.layers.len() - 1),
        |tables| tables.output.truncate(tables.output.len() - 1),
    ];
    let needed = [
        task.columns_len(),
        task.plans_len(),
        task.layers_len(),
        task.stretch_len(),
    ];
    for short in 1..16_usize {
        let mut tables = Tables::new(&task, 0, 0x5A);
        for table in (0..4).filter(|table| short >> table & 1 == 1) {
            shorten[table](&mut tables);
        }
        let before = tables.clone();
        let first = short.trailing_zeros() as usize;
        let told = [7, 0, 0, 0, 0, first, needed[first]];
        assert_eq!(BY_CELL.plan(&task, &mut tables), told);
        assert!(tables == before);
    }
    assert_ne!(planned(&BY_CELL, &task).0[0], 7);
}

const CAPACITY: usize = 200;

/// A call for carrier 0 under these bars.
fn under(job: &Job, bars: &[CarrierBar]) -> RouteTask {
    let mut columns = vec![0; 8 * CAPACITY];
    write_root(&mut columns, CAPACITY);
    for (parent, own) in bars.iter().enumerate() {
        let bar = translated(own.bar);
        write_record(&mut columns, CAPACITY, parent + 1, parent, own.carrier, bar);
    }
    let Carrier { start, goal, .. } = job.carriers[0];
    RouteTask {
        hall: job.hall.clone(),
        width: job.width,
        height: job.height,
        start: usize::from(start),
        goal: usize::from(goal),
        h: job.horizon,
        columns,
        capacity: CAPACITY,
        node: bars.len(),
        carrier: 0,
    }
}

/// Random bars, a third of them another carrier's.
fn random_bars(random: &mut Random, job: &Job) -> Vec<CarrierBar> {
    (0..random.between(0, 60))
        .map(|_| any_bar(random, job))
        .collect()
}

/// A bar of either kind; a crossing leads from one cell to another, never to
/// the same (decision 8 of the second program).
fn any_bar(random: &mut Random, job: &Job) -> CarrierBar {
    let size = job.hall.len();
    let step = random.below(job.horizon + 1);
    let from = random.below(size);
    let to = (from + random.pick(&[1, job.width, size - 1])) % size;
    let bar = if from == to || random.chance(50) {
        bar::Bar::Standing {
            cell: to as u8,
            first: step + 1,
            last: step + 1 + random.below(5),
        }
    } else {
        bar::Bar::Crossing {
            from: from as u8,
            to: to as u8,
            step,
        }
    };
    let carrier = random.pick(&[0, 0, 1]);
    CarrierBar { carrier, bar }
}

fn translated(bar: bar::Bar) -> Bar {
    match bar {
        bar::Bar::Standing { cell, first, last } => Bar::Stay {
            cell: usize::from(cell),
            first,
            last,
        },
        bar::Bar::Crossing { from, to, step } => Bar::Crossing {
            from: usize::from(from),
            to: usize::from(to),
            step,
        },
    }
}

/// The second program's best route of carrier 0, which both yardsticks find too.
fn compared_route(job: &Job, bars: &[CarrierBar]) -> Option<Vec<u8>> {
    let task = under(job, bars);
    let ends = job.carriers[0];
    let barred = Barred::of(0, bars);
    let best = route::best_route(&Floor::new(job), ends, job.horizon, &barred);
    let cost = best
        .as_ref()
        .map_or(NO_ROUTE, |best| route::cost(best, ends.goal));
    for side in SIDES {
        let mut layers = vec![7; task.layers_len()];
        let mut stretch = vec![7; task.stretch_len()];
        let untouched = stretch.clone();
        let told = side.best_route(&task, &mut layers, &mut stretch);
        assert_eq!(told, cost, "{job:?} {bars:?}");
        let expected = best.clone().unwrap_or(untouched);
        assert_eq!(stretch, expected, "{job:?} {bars:?}");
    }
    best
}

#[test]
fn routes_under_random_bars() {
    let mut random = Random::new(155);
    let mut found = 0;
    for _ in 0..4000 {
        let job = generate::job(&mut random);
        let bars = random_bars(&mut random, &job);
        found += usize::from(compared_route(&job, &bars).is_some());
    }
    assert!(found > 2000, "only {found} routes");
}

/// A bar on a random step of a route up to its cost; a crossing more often than not
/// where the carrier moves.
fn bar_on(random: &mut Random, route: &[u8], cost: usize) -> bar::Bar {
    let step = random.below(cost);
    let (from, to) = (route[step], route[step + 1]);
    if from != to && random.chance(70) {
        return bar::Bar::Crossing { from, to, step };
    }
    bar::Bar::Standing {
        cell: to,
        first: step + 1,
        last: step + 1 + random.below(3),
    }
}

/// Each bar stands in the way of the best route under those before it, so that the
/// second best have to be told apart, and theirs.
#[test]
fn routes_under_bars_in_their_way() {
    let mut random = Random::new(157);
    let mut found = 0;
    for _ in 0..400 {
        let job = generate::job(&mut random);
        let goal = job.carriers[0].goal;
        let mut bars = Vec::new();
        while let Some(best) = compared_route(&job, &bars) {
            found += 1;
            let cost = route::cost(&best, goal);
            if cost == 0 || bars.len() == 40 {
                break;
            }
            let bar = bar_on(&mut random, &best, cost);
            bars.push(CarrierBar { carrier: 0, bar });
        }
    }
    assert!(found > 2000, "only {found} routes");
}

#[test]
fn bad_arguments() {
    let mut random = Random::new(156);
    let job = generate::job(&mut random);
    let task = under(&job, &random_bars(&mut random, &job));
    let spoil: [fn(&mut RouteTask); 6] = [
        |task| task.width = 17,
        |task| task.hall[0] = 0,
        |task| task.goal = task.hall.len(),
        |task| task.capacity += 1,
        |task| task.node = task.capacity,
        |task| task.columns[task.node] = task.node as u16,
    ];
    let (mut layers, mut stretch) = (vec![0; 1 << 16], vec![0; 64]);
    for spoil in spoil {
        let mut spoilt = task.clone();
        spoil(&mut spoilt);
        let told = BY_CELL.best_route(&spoilt, &mut layers, &mut stretch);
        assert_eq!(told, BAD_ARGUMENTS);
    }
    assert_ne!(
        BY_CELL.best_route(&task, &mut layers, &mut stretch),
        BAD_ARGUMENTS
    );
    let told = BY_CELL.best_route(&task, &mut layers, &mut stretch[..1]);
    assert_eq!(told, BAD_ARGUMENTS);
}
