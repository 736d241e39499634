//! Brute force (a): the least sum of a plan, by combining every lawful route of
//! every carrier with every lawful route of the others.

use crate::brute::walks;
use crate::job::Job;

/// A route with its cost.
type Priced = (usize, Vec<u8>);

/// The least sum of a plan, or nothing if the job has no plan.
pub fn least_sum(job: &Job) -> Option<usize> {
    let choices: Vec<Vec<Priced>> = (0..job.carriers.len()).map(|i| priced(job, i)).collect();
    let mut least = None;
    combine(&choices, &job.slips(), &mut Vec::new(), 0, &mut least);
    least
}

/// A route with its carrier's slip.
pub type Slipping<'a> = (&'a [u8], usize);

/// "A plan is lawful routes for all carriers with no meeting and no swap": for
/// two of them, whichever is the earlier. At a moment m a carrier may be on any of
/// its cells from m − slip to m: two meet where these have a cell in common.
pub fn agree((a, slip_a): Slipping, (b, slip_b): Slipping) -> bool {
    let meet = (0..a.len()).any(|m| {
        let of_a = &a[m.saturating_sub(slip_a)..=m];
        let of_b = &b[m.saturating_sub(slip_b)..=m];
        of_a.iter().any(|cell| of_b.contains(cell))
    });
    let none_slips = slip_a + slip_b == 0;
    let swap = none_slips && (1..a.len()).any(|s| a[s] == b[s - 1] && a[s - 1] == b[s]);
    !meet && !swap
}

/// All routes of carrier i, cheapest first.
fn priced(job: &Job, i: usize) -> Vec<Priced> {
    let carrier = job.carriers[i];
    let ranked = walks::ranked_routes(job, carrier).into_iter();
    ranked
        .map(|route| (walks::cost(&route, carrier.goal), route))
        .collect()
}

/// Tries every route of the next carrier beside those chosen; a sum that is not
/// below the least one found is not followed.
fn combine<'a>(
    choices: &'a [Vec<Priced>],
    slips: &[usize],
    chosen: &mut Vec<Slipping<'a>>,
    sum: usize,
    least: &mut Option<usize>,
) {
    let Some((next, rest)) = choices.split_first() else {
        *least = Some(sum);
        return;
    };
    for (cost, route) in next {
        if least.is_some_and(|least| sum + cost >= least) {
            return;
        }
        let slipping = (route.as_slice(), slips[chosen.len()]);
        if chosen.iter().all(|other| agree(*other, slipping)) {
            chosen.push(slipping);
            combine(rest, slips, chosen, sum + cost, least);
            chosen.pop();
        }
    }
}
