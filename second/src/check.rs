//! The route check (21) and the meeting check (22). They "take a job and plan
//! bytes", any bytes.

use crate::floor::Floor;
use crate::job::{Carrier, Job, Refusal};
use crate::meeting::{self, Kind, Meeting};

/// What a check gives back. "Untold numbers are 0": a refusal tells what
/// checks 5, 6 and 16 tell, 7 the length that the plan needed (`needed`), 21
/// tells carrier and step, 22 tells the earlier carrier (`carrier`), the other, the
/// smaller step e (`step`), the distance and whether it is a swap.
#[derive(Clone, Copy, Debug, Default, PartialEq, Eq)]
pub struct CheckAnswer {
    pub number: u8,
    pub carrier: usize,
    pub other: usize,
    pub step: usize,
    pub distance: usize,
    pub swap: bool,
    pub needed: usize,
}

impl CheckAnswer {
    /// The number given back and what is told with it: carrier, other, step,
    /// distance, 1 for a swap, and the needed length.
    pub fn told(self) -> [usize; 7] {
        let Self {
            number,
            carrier,
            other,
            step,
            distance,
            swap,
            needed,
        } = self;
        let (number, swap) = (number.into(), swap.into());
        [number, carrier, other, step, distance, swap, needed]
    }
}

/// "0, or 21 with the first carrier, and its first step, at which the start, a
/// move, a cell or the goal is wrong".
pub fn route_check(job: &Job, plan: &[u8]) -> CheckAnswer {
    let routes = match routes_of(job, plan) {
        Ok(routes) => routes,
        Err(refused) => return refused,
    };
    let floor = Floor::new(job);
    let wrong = routes.iter().zip(&job.carriers).map(|(route, &ends)| {
        let mut steps = 0..=job.horizon;
        steps.find(|&step| wrong_at(&floor, ends, route, step))
    });
    let first = wrong.enumerate().find_map(|(i, step)| Some((i, step?)));
    first.map_or_else(CheckAnswer::default, |(carrier, step)| CheckAnswer {
        number: 21,
        carrier,
        step,
        ..CheckAnswer::default()
    })
}

/// "0, or 22 with the meeting or swap chosen by rule 5 and which of the two it
/// is".
pub fn meeting_check(job: &Job, plan: &[u8]) -> CheckAnswer {
    match routes_of(job, plan) {
        Ok(routes) => {
            let chosen = meeting::chosen(&routes, &job.slips());
            chosen.map_or_else(CheckAnswer::default, CheckAnswer::from)
        }
        Err(refused) => refused,
    }
}

/// "Both begin with checks 1 to 6 (no N there), then 7 if the plan is shorter
/// than m × (H + 1); bytes after that length are not read." 16 comes "directly
/// after 6 wherever 6 is given", and 7 tells "the length it needed" (P1).
fn routes_of<'a>(job: &Job, plan: &'a [u8]) -> Result<Vec<&'a [u8]>, CheckAnswer> {
    if let Some(refusal) = job.refusal(None) {
        return Err(refusal.into());
    }
    let steps = job.horizon + 1;
    let needed = job.carriers.len() * steps;
    match plan.get(..needed) {
        Some(read) => Ok(read.chunks(steps).collect()),
        None => Err(CheckAnswer {
            number: 7,
            needed,
            ..CheckAnswer::default()
        }),
    }
}

/// Whether the start, a move, a cell or the goal is wrong at the step: "a wrong
/// move counts at the step it arrives; step H if only the goal is wrong".
fn wrong_at(floor: &Floor, ends: Carrier, route: &[u8], step: usize) -> bool {
    let cell = route[step];
    let wrong_cell = !floor.is_open(cell);
    let wrong_start = step == 0 && cell != ends.start;
    let wrong_move = step > 0 && !floor.may_go(route[step - 1], cell);
    let wrong_goal = step == route.len() - 1 && cell != ends.goal;
    wrong_cell || wrong_start || wrong_move || wrong_goal
}

impl From<Refusal> for CheckAnswer {
    fn from(refusal: Refusal) -> Self {
        CheckAnswer {
            number: refusal.number(),
            carrier: refusal.carrier(),
            other: refusal.other(),
            ..CheckAnswer::default()
        }
    }
}

impl From<Meeting> for CheckAnswer {
    fn from(meeting: Meeting) -> Self {
        CheckAnswer {
            number: 22,
            carrier: meeting.earlier,
            other: meeting.other,
            step: meeting.step,
            distance: meeting.distance,
            swap: meeting.kind == Kind::Swap,
            ..CheckAnswer::default()
        }
    }
}

#[cfg(test)]
mod tests {
    use super::*;

    fn job() -> Job {
        Job {
            width: 3,
            height: 2,
            hall: b"....#.".to_vec(),
            carriers: vec![carrier(0, 2), carrier(3, 0)],
            horizon: 3,
        }
    }

    fn carrier(start: u8, goal: u8) -> Carrier {
        let slip = 0;
        Carrier { start, goal, slip }
    }

    fn wrong(carrier: usize, step: usize) -> CheckAnswer {
        CheckAnswer {
            number: 21,
            carrier,
            step,
            ..CheckAnswer::default()
        }
    }

    #[test]
    fn a_lawful_plan_passes_and_later_bytes_are_not_read() {
        let plan = [0, 1, 2, 2, 3, 3, 0, 0, 99];
        assert_eq!(route_check(&job(), &plan), CheckAnswer::default());
        assert_eq!(meeting_check(&job(), &plan), CheckAnswer::default());
    }

    #[test]
    fn a_short_plan_is_7_after_the_job_is_checked() {
        let short = CheckAnswer {
            number: 7,
            needed: 8,
            ..CheckAnswer::default()
        };
        assert_eq!(short.told(), [7, 0, 0, 0, 0, 0, 8]);
        assert_eq!(route_check(&job(), &[0; 7]), short);
        assert_eq!(meeting_check(&job(), &[0; 7]), short);
        let mut shared = job();
        shared.carriers[1].goal = 2;
        let told = CheckAnswer {
            number: 16,
            other: 1,
            ..CheckAnswer::default()
        };
        assert_eq!(route_check(&shared, &[]), told);
        assert_eq!(meeting_check(&shared, &[]), told);
    }

    #[test]
    fn what_is_wrong_with_a_route() {
        let cases: [([u8; 8], CheckAnswer); 7] = [
            ([1, 1, 2, 2, 3, 3, 0, 0], wrong(0, 0)),
            ([0, 0, 2, 2, 3, 3, 0, 0], wrong(0, 2)),
            ([0, 1, 4, 2, 3, 3, 0, 0], wrong(0, 2)),
            ([0, 1, 1, 1, 9, 9, 9, 9], wrong(0, 3)),
            ([0, 1, 2, 2, 3, 3, 200, 0], wrong(1, 2)),
            ([0, 1, 2, 2, 3, 3, 3, 3], wrong(1, 3)),
            ([0, 1, 2, 3, 3, 3, 3, 3], wrong(0, 3)),
        ];
        for (plan, told) in cases {
            assert_eq!(route_check(&job(), &plan), told, "{plan:?}");
        }
    }

    #[test]
    fn one_step_may_be_wrong_by_start_and_by_goal() {
        let one = Job {
            width: 2,
            height: 1,
            hall: b"..".to_vec(),
            carriers: vec![carrier(0, 1)],
            horizon: 0,
        };
        assert_eq!(route_check(&one, &[0]), wrong(0, 0));
        assert_eq!(route_check(&one, &[1]), wrong(0, 0));
    }

    #[test]
    fn the_meeting_check_takes_any_bytes() {
        let plan = [200, 7, 7, 7, 7, 200, 1, 1];
        let swap = CheckAnswer {
            number: 22,
            other: 1,
            swap: true,
            ..CheckAnswer::default()
        };
        assert_eq!(meeting_check(&job(), &plan), swap);
        let meeting = |carrier: usize, other: usize| CheckAnswer {
            number: 22,
            carrier,
            other,
            distance: 1,
            ..CheckAnswer::default()
        };
        let mut late = job();
        late.carriers[1].slip = 2;
        assert_eq!(meeting_check(&late, &plan), meeting(1, 0));
        late.carriers[0].slip = 2;
        assert_eq!(meeting_check(&late, &plan), meeting(0, 1));
    }
}
