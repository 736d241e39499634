//! Plans of random jobs too big for brute force still pass both plan checks.

use second::check::{CheckAnswer, meeting_check, route_check};
use second::generate;
use second::planner::plan;
use second::random::Random;
use second::route::{cost, moves};

#[test]
fn plans_pass_both_checks_and_have_their_sum() {
    let mut random = Random::new(11);
    let mut plans = 0;
    for _ in 0..400 {
        let job = generate::job(&mut random);
        let answer = plan(&job, 128);
        if answer.number != 0 {
            continue;
        }
        plans += 1;
        let bytes = answer.plan_bytes();
        assert_eq!(route_check(&job, &bytes), CheckAnswer::default(), "{job:?}");
        assert_eq!(
            meeting_check(&job, &bytes),
            CheckAnswer::default(),
            "{job:?}"
        );
        let routes = answer.routes.iter().zip(&job.carriers);
        let sum: usize = routes.map(|(route, ends)| cost(route, ends.goal)).sum();
        assert_eq!(answer.sum, sum, "{job:?}");
    }
    assert!(plans > 100, "only {plans} plans");
}

#[test]
fn the_need_of_records_decides_between_the_answer_and_9() {
    let mut random = Random::new(12);
    for _ in 0..100 {
        let job = generate::crowded(&mut random);
        let answer = plan(&job, 256);
        let need = answer.records;
        if answer.number == 9 || need < 2 {
            continue;
        }
        assert_eq!(plan(&job, need), answer, "{job:?}");
        let full = plan(&job, need - 1);
        assert_eq!((full.number, full.records), (9, need - 1), "{job:?}");
    }
}

/// P2 decides something only where carriers lose steps. In jobs made for that, a
/// carrier stands before its cost in a third of the plans, and in a fifth for two
/// steps or more.
#[test]
fn in_plans_of_jobs_that_make_carriers_wait_they_stand() {
    let mut random = Random::new(13);
    let (mut plans, mut stood, mut stood_long) = (0, 0, 0);
    for _ in 0..400 {
        let job = generate::waiting(&mut random);
        let answer = plan(&job, 128);
        let routes = answer.routes.iter().zip(&job.carriers);
        let longest = routes.map(|(route, ends)| cost(route, ends.goal) - moves(route));
        let longest = longest.max().unwrap_or(0);
        plans += usize::from(answer.number == 0);
        stood += usize::from(longest > 0);
        stood_long += usize::from(longest > 1);
    }
    assert!(plans > 200, "only {plans} plans");
    assert!(3 * stood > plans, "{stood} of {plans}");
    assert!(5 * stood_long > plans, "{stood_long} of {plans}");
}
