//! The calls made for one drawn job, and for one job at every N.

use second::generate;
use second::job::{Job, MOST_RECORDS};
use second::planner::{self, PlanAnswer};
use second::random::Random;

use crate::draw::{Drawing, Drawn};
use crate::lent::{Tables, any_bytes};
use crate::trial::{Comparer, Trial};

/// One job through the planner and, with plans of every kind, through both
/// checks; and one book through the reader.
pub fn one_job(comparer: &mut Comparer, drawing: &Drawing) -> Trial<()> {
    let Drawn { job, n } = (drawing.job)(&mut comparer.random);
    let named = |why| format!("{why}\n{job:?}, N {n}");
    let tables = Tables::now_and_then_short(&mut comparer.random, &job, n);
    let answer = comparer.plan(&job, n, tables).map_err(named)?;
    for plan in plans(&mut comparer.random, &job, &answer) {
        comparer
            .checks(&job, &plan)
            .map_err(|why| named(format!("{why}\nplan {plan:?}")))?;
    }
    one_book(comparer, drawing)
}

fn one_book(comparer: &mut Comparer, drawing: &Drawing) -> Trial<()> {
    let book = (drawing.book)(&mut comparer.random);
    for kind in (drawing.kinds)(&mut comparer.random) {
        comparer
            .read(&book, kind)
            .map_err(|why| format!("{why}\nbook {book:?}, kind {kind}"))?;
    }
    Ok(())
}

/// Plans to be checked: any bytes and, where there are some, the plan found and each carrier's route alone; right, damaged, cut
/// short, and with bytes behind that "are not read".
fn plans(random: &mut Random, job: &Job, answer: &PlanAnswer) -> Vec<Vec<u8>> {
    let mut plans = vec![any_cells(random, job)];
    for whole in [answer.plan_bytes(), routes_alone(job)] {
        if !whole.is_empty() {
            plans.push(damaged(random, job, whole.clone()));
            plans.push(cut_or_longer(random, whole.clone()));
            plans.push(whole);
        }
    }
    plans
}

/// Any bytes, or any cells of a hall, mostly of a plan's length. A refused job may have numbers of any size.
fn any_cells(random: &mut Random, job: &Job) -> Vec<u8> {
    let length = match job.refusal(None) {
        None => job.carriers.len() * (job.horizon + 1),
        Some(_) => random.below(80),
    };
    let mut bytes = any_bytes(random, length);
    if random.chance(70) {
        let cells = job.hall.len().clamp(1, 256);
        bytes.fill_with(|| random.below(cells) as u8);
    }
    bytes
}

/// The best route of each carrier as if it were alone: lawful routes, which often meet. Nothing if the job is refused or a carrier
/// has none.
fn routes_alone(job: &Job) -> Vec<u8> {
    if job.refusal(None).is_some() {
        return Vec::new();
    }
    let alone = job.carriers.iter().map(|&carrier| {
        let carriers = vec![carrier];
        let job = Job {
            carriers,
            ..job.clone()
        };
        planner::plan(&job, 1).routes.pop()
    });
    let routes: Option<Vec<_>> = alone.collect();
    routes.unwrap_or_default().concat()
}

/// The plan with one byte changed, to a neighbouring cell or to any.
fn damaged(random: &mut Random, job: &Job, mut plan: Vec<u8>) -> Vec<u8> {
    let at = random.below(plan.len());
    let width = job.width as u8;
    let by = random.pick(&[1, width, 0u8.wrapping_sub(1), 0u8.wrapping_sub(width)]);
    plan[at] = if random.chance(20) {
        random.byte()
    } else {
        plan[at].wrapping_add(by)
    };
    plan
}

fn cut_or_longer(random: &mut Random, mut plan: Vec<u8>) -> Vec<u8> {
    let shorter = random.below(plan.len());
    let length = random.pick(&[plan.len() - 1, shorter, plan.len() + 3]);
    plan.resize_with(length, || random.byte());
    plan
}

/// The greatest need of records of the jobs that are tried at every N.
const MOST_NEEDED: usize = 40;

/// One job at every N from 0, which is refused, to three above its need of
/// records, and at 1,024 and 1,025. Below the need the answer is 9, and from it
/// on more records never alter an answer.
pub fn every_capacity(comparer: &mut Comparer) -> Trial<()> {
    let (job, settled) = needing_few(&mut comparer.random);
    let need = settled.records;
    for n in (0..=need + 3).chain([MOST_RECORDS, MOST_RECORDS + 1]) {
        let named = |why| format!("{why}\n{job:?}, N {n}");
        let tables = Tables::enough(&mut comparer.random, &job, n);
        let answer = comparer.plan(&job, n, tables).map_err(named)?;
        let as_expected = match n {
            _ if job.refusal(Some(n)).is_some() => answer.number == 3,
            _ if n < need => (answer.number, answer.records) == (9, n),
            _ => answer == settled,
        };
        if !as_expected {
            return Err(named(format!("{answer:?}, with more records {settled:?}")));
        }
    }
    Ok(())
}

/// A job that is answered 0 or 8 with a few records.
fn needing_few(random: &mut Random) -> (Job, PlanAnswer) {
    loop {
        let job = generate::crowded(random);
        let answer = planner::plan(&job, MOST_NEEDED);
        if answer.number != 9 && answer.records > 1 {
            return (job, answer);
        }
    }
}
