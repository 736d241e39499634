//! Prints for each family the time of a call on each side, and the ratios.
//! Exits with 1 if two sides differ on an input.

use std::hint::black_box;
use std::process::ExitCode;

use bench::compare::{differing_plans, differing_routes, planned};
use bench::families::{
    PlanFamily, RouteFamily, SEED, deepest_chain, plan_families, route_families,
};
use bench::measure::median_passes;
use bench::report::{self, Counts, Row, print_head, print_row};
use bench::side::Side;
use bench::task::Tables;
use bench::yardstick::{BY_CELL, BY_LAYER};
use second::random::Random;

const ROUTE_ROUNDS: usize = 21;
const PLAN_ROUNDS: usize = 5;

/// Where the best route's archive alone is linked, plans are left out.
const WITH_PLANS: bool = cfg!(feature = "proved") || !cfg!(feature = "proved-route");

/// The proved planner first, if it is linked, and an earlier one last; ratios are of
/// the first to the others.
fn sides() -> Vec<&'static dyn Side> {
    vec![
        #[cfg(feature = "proved-route")]
        &bench::proved::PROVED,
        &BY_CELL,
        &BY_LAYER,
        #[cfg(feature = "before")]
        &bench::proved::BEFORE,
    ]
}

fn main() -> ExitCode {
    let sides = sides();
    println!("seed {SEED}; medians of {ROUTE_ROUNDS} rounds for routes, {PLAN_ROUNDS} for plans;");
    println!(
        "processor time; sides interleaved on the same inputs; buffers not cleared in between"
    );
    let mut differences = report_routes(&sides);
    if WITH_PLANS {
        differences += report_plans(&sides);
    }
    println!("\ninputs on which a side differs from the first: {differences}");
    ExitCode::from(u8::from(differences > 0))
}

fn report_routes(sides: &[&dyn Side]) -> usize {
    print_head("best route", "", sides);
    let mut differences = 0;
    for family in route_families(&mut Random::new(SEED)) {
        differences += count_differences(family.name, &family.tasks, |task| {
            differing_routes(sides, task)
        });
        print_row(&measured_routes(sides, &family), sides);
    }
    differences
}

/// The jobs are drawn from the seed anew, so that they are the same whatever routes
/// were drawn.
fn report_plans(sides: &[&dyn Side]) -> usize {
    print_head("planner", &report::facts_head(sides), sides);
    let mut differences = 0;
    for family in plan_families(&mut Random::new(SEED)) {
        let asked = asked(sides, &family);
        differences += count_differences(&family.name, &family.tasks, |task| {
            differing_plans(asked, task)
        });
        print_row(&measured_plans(sides, asked, &family), sides);
    }
    differences
}

/// The sides that a family's jobs are put to.
fn asked<'a, 'b>(sides: &'a [&'b dyn Side], family: &PlanFamily) -> &'a [&'b dyn Side] {
    let first_earlier = sides.iter().position(|side| side.earlier());
    match first_earlier {
        Some(end) if !family.for_earlier => &sides[..end],
        _ => sides,
    }
}

/// How many inputs differ; each is named on standard error.
fn count_differences<'a, T>(
    family: &str,
    tasks: &[T],
    differing: impl Fn(&T) -> Vec<&'a str>,
) -> usize {
    let mut count = 0;
    for (number, task) in tasks.iter().enumerate() {
        let names = differing(task);
        if !names.is_empty() {
            eprintln!("{family}, input {number}: differs on {names:?}");
            count += 1;
        }
    }
    count
}

fn measured_routes<'a>(sides: &[&dyn Side], family: &'a RouteFamily) -> Row<'a> {
    let first = &family.tasks[0];
    let mut layers = vec![0; first.layers_len()];
    let mut stretch = vec![0; first.stretch_len()];
    let seconds = median_passes(sides, ROUTE_ROUNDS, |side| {
        for task in &family.tasks {
            black_box(side.best_route(black_box(task), &mut layers, &mut stretch));
        }
    });
    Row {
        name: family.name,
        facts: String::new(),
        seconds,
        calls: family.tasks.len(),
        records: Vec::new(),
    }
}

fn measured_plans<'a>(sides: &[&dyn Side], asked: &[&dyn Side], family: &'a PlanFamily) -> Row<'a> {
    let mut tables = Tables::new(&family.tasks[0], 0, 0);
    let seconds = median_passes(asked, PLAN_ROUNDS, |side| {
        for task in &family.tasks {
            black_box(side.plan(black_box(task), &mut tables));
        }
    });
    let counts: Vec<_> = asked.iter().map(|side| counted(*side, family)).collect();
    let deepest = family.tasks.iter().map(deepest_chain).max().unwrap_or(0);
    Row {
        name: &family.name,
        facts: report::facts(sides, &counts, deepest),
        seconds,
        calls: family.tasks.len(),
        records: counts.iter().map(|counts| counts.records).collect(),
    }
}

/// What a side's answers to a family's jobs were.
fn counted(side: &dyn Side, family: &PlanFamily) -> Counts {
    let told: Vec<_> = (family.tasks.iter())
        .map(|task| planned(side, task).0)
        .collect();
    Counts {
        answers: [0, 8, 9].map(|number| told.iter().filter(|told| told[0] == number).count()),
        records: told.iter().map(|told| told[2]).sum(),
    }
}
