//! `brute SEED COUNT` tries COUNT random small jobs, and as many in which carriers
//! have to wait: the planner against brute force (a) and against the rules taken
//! word by word, routes under random bars against the list of all routes, and the
//! two plan checks against brute force (b) and the list of all walks; and, also
//! with as many jobs in which ends are often shared and as many in which carriers'
//! records are wrong, refusals 5, 6, 16 and 7 against lists of all carriers and all
//! pairs and each table's sentence. It prints counts, among them how many routes,
//! answers, told meetings and refusals would show each wrong turn with P2 and each
//! wrong version of P3, and stops at the first difference with the job printed.

use std::collections::BTreeMap;
use std::process::ExitCode;

use second::bar::{Bar, Barred, CarrierBar};
use second::brute::slips::P3;
use second::brute::wrong_slips::{ONE_K, SWAPS_WITH_ONE, WRONG_REFUSALS, WRONG_SLIPS};
use second::brute::wrong_turns::WRONG_TURNS;
use second::brute::{holds, least_sum, loops, refusals, tree_by_words, walks};
use second::check;
use second::damage;
use second::floor::Floor;
use second::generate;
use second::job::{Carrier, Job, MOST_RECORDS};
use second::planner::{self, PlanAnswer};
use second::random::Random;
use second::route;
use second::tables;
use second::tree;

/// Records for the jobs that need more than a job's greatest N.
const MANY_RECORDS: usize = 20_000;

/// The most records for the jobs that are tried for their refusals: few, since
/// a tree is grown only to see that one is.
const FEW_RECORDS: usize = 4;

/// The records with which it is seen whether a wrong turn alters an answer.
const TURN_RECORDS: usize = 64;

type Counts = BTreeMap<String, usize>;
type Trial = Result<(), String>;

fn main() -> ExitCode {
    let arguments: Vec<String> = std::env::args().skip(1).collect();
    let Some((seed, count)) = request(&arguments) else {
        eprintln!("usage: brute SEED COUNT");
        return ExitCode::from(2);
    };
    let mut random = Random::new(seed);
    let mut counts = Counts::new();
    for number in 0..count {
        if let Err(difference) = try_each(&mut random, &mut counts) {
            println!("job {number} of seed {seed}: {difference}");
            return ExitCode::FAILURE;
        }
    }
    println!("seed {seed}, {count} jobs, no difference");
    for (what, count) in &counts {
        println!("{what}: {count}");
    }
    ExitCode::SUCCESS
}

fn request(arguments: &[String]) -> Option<(u64, usize)> {
    let [seed, count] = arguments else {
        return None;
    };
    Some((seed.parse().ok()?, count.parse().ok()?))
}

/// A small job, one in which carriers have to wait, and for the refusals also one
/// in which ends are often shared and one in which carriers' records are wrong.
fn try_each(random: &mut Random, counts: &mut Counts) -> Trial {
    let (small, waiting) = (generate::small(random), generate::small_waiting(random));
    for job in [&small, &waiting] {
        try_job(random, job, counts).map_err(|why| format!("{why}\n{job:?}"))?;
    }
    let sharing = damage::sharing_job(random);
    let wrong = damage::wrong_carriers_job(random);
    for job in [small, waiting, sharing, wrong] {
        try_refusals(random, &job, counts).map_err(|why| format!("{why}\n{job:?}"))?;
    }
    Ok(())
}

fn try_job(random: &mut Random, job: &Job, counts: &mut Counts) -> Trial {
    let answer = planner::plan(job, MOST_RECORDS);
    try_tree(random, job, &answer, counts)?;
    count_turns_in_answers(job, counts);
    try_slips_in_answers(job, counts)?;
    try_least_sum(job, &answer, counts)?;
    try_bars(random, job, counts)?;
    for (kind, plan) in plans(random, job, &answer) {
        try_checks(job, &plan, counts).map_err(|why| format!("{kind}: {why}"))?;
    }
    Ok(())
}

fn same<T: PartialEq + std::fmt::Debug>(what: &str, one: T, two: T) -> Trial {
    if one == two {
        return Ok(());
    }
    Err(format!("{what}: {one:?}, by brute force {two:?}"))
}

fn count(counts: &mut Counts, what: &str) {
    *counts.entry(what.to_string()).or_default() += 1;
}

/// The planner's answer against the least sum of all plans. Where it is 9 the
/// tree is grown further than a job may ask for.
fn try_least_sum(job: &Job, answer: &PlanAnswer, counts: &mut Counts) -> Trial {
    if answer.number == 9 {
        count(counts, "planner: needs more than 1,024 records");
        return compare_sum(job, &tree::search(job, MANY_RECORDS).into(), counts);
    }
    compare_sum(job, answer, counts)
}

fn compare_sum(job: &Job, answer: &PlanAnswer, counts: &mut Counts) -> Trial {
    let least = least_sum::least_sum(job);
    match answer.number {
        0 => {
            count(counts, "planner: answer 0");
            same("least sum", Some(answer.sum), least)?;
            try_plan(job, answer)
        }
        8 => {
            count(counts, "planner: answer 8");
            same("no plan", None, least)
        }
        _ => {
            count(counts, "planner: needs more than 20,000, not compared");
            Ok(())
        }
    }
}

/// The plan is made of lawful routes that agree, and its sum is theirs.
fn try_plan(job: &Job, answer: &PlanAnswer) -> Trial {
    let mut sum = 0;
    for (i, (&carrier, route)) in job.carriers.iter().zip(&answer.routes).enumerate() {
        let lawful = walks::routes(job, carrier).contains(route);
        same("a route of the plan is lawful", lawful, true)?;
        sum += walks::cost(route, carrier.goal);
        let others = answer.routes[..i].iter().zip(job.slips());
        let slipping = (route.as_slice(), job.slips()[i]);
        let mut agree = others.map(|(other, slip)| least_sum::agree((other, slip), slipping));
        same(
            "the routes of the plan agree",
            agree.all(|agree| agree),
            true,
        )?;
    }
    same("sum of the plan", answer.sum, sum)
}

/// The planner against the rules taken word by word: number, sum, records and
/// routes, with several capacities; at the need of records and one below it
/// among them.
fn try_tree(random: &mut Random, job: &Job, answer: &PlanAnswer, counts: &mut Counts) -> Trial {
    let need = answer.records;
    let any = random.between(1, 20);
    for capacity in [need.saturating_sub(1), need, any] {
        if !(1..=MOST_RECORDS).contains(&capacity) {
            continue;
        }
        let told = planner::plan(job, capacity);
        count(
            counts,
            match told.number {
                9 => "tree by words: 9",
                8 => "tree by words: 8",
                _ => "tree by words: 0",
            },
        );
        let numbers = (told.number, told.sum, told.records, told.routes);
        let wanted = tree_by_words::search(job, capacity);
        same("the tree", numbers, wanted).map_err(|why| format!("N {capacity}: {why}"))?;
    }
    Ok(())
}

/// How many answers would show each wrong turn.
fn count_turns_in_answers(job: &Job, counts: &mut Counts) {
    let right = tree_by_words::search(job, TURN_RECORDS);
    for turn in &WRONG_TURNS {
        if turn.answer(job, TURN_RECORDS) != right {
            count(counts, &format!("an answer would show: {}", turn.name));
        }
    }
}

/// How many answers would show each wrong version of P3. Swaps where only one has
/// slip 0 alter none, and where all slips are equal "every accepted job keeps its
/// answer".
fn try_slips_in_answers(job: &Job, counts: &mut Counts) -> Trial {
    let ranked = tree_by_words::ranked(job);
    let by = |rules| tree_by_words::search_by(job, TURN_RECORDS, &ranked, rules);
    let right = by(&P3);
    for wrong in &WRONG_SLIPS {
        if by(wrong) != right {
            count(counts, &format!("an answer would show: {}", wrong.name));
        }
    }
    same(SWAPS_WITH_ONE.name, &by(&SWAPS_WITH_ONE), &right)?;
    let slips = job.slips();
    if slips.iter().all(|slip| *slip == slips[0]) {
        count(counts, "slips: equal");
        return same("equal slips", by(&ONE_K), right);
    }
    count(counts, "slips: unequal");
    Ok(())
}

/// Routes under bars against the list of all routes.
fn try_bars(random: &mut Random, job: &Job, counts: &mut Counts) -> Trial {
    for &carrier in &job.carriers {
        let ranked = walks::ranked_routes(job, carrier);
        let anywhere: Vec<Bar> = (0..random.below(7)).map(|_| bar(random, job)).collect();
        for bars in [anywhere, bars_in_the_way(random, &ranked)] {
            let wanted = walks::first_kept(&ranked, &bars);
            try_route(job, carrier, &bars, wanted).map_err(|why| format!("{bars:?}: {why}"))?;
            count_route(job, carrier, &bars, wanted, counts);
        }
    }
    Ok(())
}

fn try_route(job: &Job, carrier: Carrier, bars: &[Bar], wanted: Option<&Vec<u8>>) -> Trial {
    let own = bars.iter().map(|&bar| CarrierBar { carrier: 0, bar });
    let barred = Barred::of(0, &own.collect::<Vec<_>>());
    let found = route::best_route(&Floor::new(job), carrier, job.horizon, &barred);
    same("route under bars", found.as_ref(), wanted)
}

/// Whether there is a route, and each wrong turn that it would show.
fn count_route(
    job: &Job,
    carrier: Carrier,
    bars: &[Bar],
    wanted: Option<&Vec<u8>>,
    counts: &mut Counts,
) {
    let Some(right) = wanted else {
        count(counts, "bars: no route");
        return;
    };
    count(counts, "bars: a route");
    for turn in &WRONG_TURNS {
        if turn.route(job, carrier, bars).as_ref() != Some(right) {
            count(counts, &format!("a route would show: {}", turn.name));
        }
    }
}

/// Bars as a tree makes them: each stands in the way of the route that is the
/// best under those before it.
fn bars_in_the_way(random: &mut Random, ranked: &[Vec<u8>]) -> Vec<Bar> {
    let mut bars = Vec::new();
    for _ in 0..random.between(1, 4) {
        let Some(route) = walks::first_kept(ranked, &bars) else {
            break;
        };
        bars.push(bar_on(random, route));
    }
    bars
}

/// A bar on a step of the route or on its crossing there; seldom on step 0 or on
/// H, since then no route is left.
fn bar_on(random: &mut Random, route: &[u8]) -> Bar {
    let last = route.len() - 1;
    let first = last.min(usize::from(random.chance(95)));
    let step = random.between(first, first.max(last.saturating_sub(1)));
    let next = route[last.min(step + 1)];
    if random.chance(40) && next != route[step] {
        return Bar::Crossing {
            from: route[step],
            to: next,
            step,
        };
    }
    Bar::Standing {
        cell: route[step],
        first: step,
        last: step + random.below(4),
    }
}

/// A random bar, sometimes on a goal and late, sometimes past H. A crossing
/// goes "from one cell to another": where the way on is a stay, the cell itself
/// is barred.
fn bar(random: &mut Random, job: &Job) -> Bar {
    let step = random.below(job.horizon + 1);
    let ends = job.carriers[random.below(job.carriers.len())];
    let mut ways = walks::walks(job, random.pick(&[ends.start, ends.goal]), 3);
    let way = ways.swap_remove(random.below(ways.len()));
    if random.chance(40) && way[2] != way[3] {
        return Bar::Crossing {
            from: way[2],
            to: way[3],
            step,
        };
    }
    Bar::Standing {
        cell: random.pick(&[way[3], ends.goal]),
        first: step,
        last: step + random.below(3),
    }
}

/// Plans of every kind for this job, as plan bytes.
fn plans(random: &mut Random, job: &Job, answer: &PlanAnswer) -> Vec<(&'static str, Vec<Vec<u8>>)> {
    let mut plans = vec![
        ("random routes", random_routes(random, job)),
        ("random walks", random_walks(random, job)),
        ("any bytes", any_bytes(random, job)),
    ];
    if let Some(alone) = routes_alone(job) {
        plans.push(("each alone", alone));
    }
    if answer.number == 0 {
        plans.push(("the plan", answer.routes.clone()));
    }
    let damaged = plans.iter().map(|(_, plan)| damaged(random, plan));
    let damaged: Vec<_> = damaged.map(|plan| ("damaged", plan)).collect();
    plans.extend(damaged);
    plans
}

/// A lawful route at random for each carrier that has one.
fn random_routes(random: &mut Random, job: &Job) -> Vec<Vec<u8>> {
    let carriers = job.carriers.iter();
    carriers
        .map(|&carrier| {
            let mut routes = walks::routes(job, carrier);
            if routes.is_empty() {
                routes = walks::walks(job, carrier.start, job.horizon);
            }
            routes.swap_remove(random.below(routes.len()))
        })
        .collect()
}

fn random_walks(random: &mut Random, job: &Job) -> Vec<Vec<u8>> {
    let carriers = job.carriers.iter();
    carriers
        .map(|carrier| {
            let mut walks = walks::walks(job, carrier.start, job.horizon);
            walks.swap_remove(random.below(walks.len()))
        })
        .collect()
}

/// Few different bytes, so that they meet and exchange often.
fn any_bytes(random: &mut Random, job: &Job) -> Vec<Vec<u8>> {
    let bytes = [0, 1, 2, 3, 7, 9, 200, 255];
    let different = random.between(2, bytes.len());
    let carriers = job.carriers.iter();
    carriers
        .map(|_| {
            let steps = 0..=job.horizon;
            steps.map(|_| random.pick(&bytes[..different])).collect()
        })
        .collect()
}

fn routes_alone(job: &Job) -> Option<Vec<Vec<u8>>> {
    let carriers = job.carriers.iter();
    carriers
        .map(|&carrier| walks::ranked_routes(job, carrier).into_iter().next())
        .collect()
}

/// One byte changed, or two bytes exchanged.
fn damaged(random: &mut Random, plan: &[Vec<u8>]) -> Vec<Vec<u8>> {
    let mut plan = plan.to_vec();
    let steps = plan[0].len();
    let (i, j) = (random.below(plan.len()), random.below(plan.len()));
    let (s, t) = (random.below(steps), random.below(steps));
    if random.chance(50) {
        plan[i][s] = random.pick(&[0, 1, 2, 3, 4, 5, 8, 9, 255]);
    } else {
        (plan[i][s], plan[j][t]) = (plan[j][t], plan[i][s]);
    }
    plan
}

/// Both checks on these routes, with bytes behind them that are not read.
fn try_checks(job: &Job, routes: &[Vec<u8>], counts: &mut Counts) -> Trial {
    let mut plan = routes.concat();
    try_route_check(job, routes, &plan, counts)?;
    try_meeting_check(job, routes, &plan, counts)?;
    let told = (
        check::route_check(job, &plan),
        check::meeting_check(job, &plan),
    );
    plan.extend([0, 255]);
    let longer = (
        check::route_check(job, &plan),
        check::meeting_check(job, &plan),
    );
    same("bytes behind the plan", longer, told)?;
    let needed = routes.concat().len();
    plan.truncate(needed - 1);
    let short = (
        check::route_check(job, &plan).told(),
        check::meeting_check(job, &plan).told(),
    );
    let wanted = [7, 0, 0, 0, 0, 0, needed];
    same("a plan too short", short, (wanted, wanted))
}

/// The route check against the list of all walks.
fn try_route_check(job: &Job, routes: &[Vec<u8>], plan: &[u8], counts: &mut Counts) -> Trial {
    let told = check::route_check(job, plan);
    let carriers = job.carriers.iter().zip(routes).enumerate();
    let wanted = carriers
        .filter_map(|(i, (&carrier, route))| {
            Some((i, walks::first_wrong_step(job, carrier, route)?))
        })
        .next();
    count(
        counts,
        match wanted {
            Some(_) => "route check: 21",
            None => "route check: 0",
        },
    );
    let numbers = (told.number, told.carrier, told.step);
    let wanted = wanted.map_or((0, 0, 0), |(i, step)| (21, i, step));
    same("route check", numbers, wanted).map_err(|why| format!("{routes:?}: {why}"))
}

/// The meeting check against all patterns of holds and against rule 5's words.
fn try_meeting_check(job: &Job, routes: &[Vec<u8>], plan: &[u8], counts: &mut Counts) -> Trial {
    let told = check::meeting_check(job, plan);
    let routes: Vec<&[u8]> = routes.iter().map(Vec::as_slice).collect();
    let slips = job.slips();
    let collides = holds::some_pattern_collides(&routes, &slips);
    let lawful = check::route_check(job, plan).number == 0;
    count(
        counts,
        match (lawful, collides) {
            (true, true) => "holds: lawful routes, some pattern collides",
            (true, false) => "holds: lawful routes, no pattern collides",
            (false, true) => "holds: other bytes, some pattern collides",
            (false, false) => "holds: other bytes, no pattern collides",
        },
    );
    same("holds", told.number == 22, collides).map_err(|why| format!("{routes:?}: {why}"))?;
    let wanted = loops::first_meeting(&routes, &slips);
    let by = |rules| loops::first_meeting_by(rules, &routes, &slips);
    for wrong in &WRONG_SLIPS {
        if by(wrong) != wanted {
            count(counts, &format!("a check would show: {}", wrong.name));
        }
    }
    same(SWAPS_WITH_ONE.name, by(&SWAPS_WITH_ONE), wanted)?;
    let numbers = (told.number == 22).then_some((
        told.carrier,
        told.other,
        told.step,
        told.distance,
        told.swap,
    ));
    if told.swap {
        count(counts, "meeting check: told a swap");
    }
    same("meeting told", numbers, wanted).map_err(|why| format!("{routes:?}: {why}"))
}

/// The refusals of the planner, lent tables of which some are short, and of both
/// checks, lent a plan that may be.
fn try_refusals(random: &mut Random, job: &Job, counts: &mut Counts) -> Trial {
    let n = random.between(1, FEW_RECORDS);
    let least = tables::least_lengths(job, n);
    let mut lengths = least;
    if random.chance(50) {
        damage::shorten(random, &mut lengths, least);
    }
    count_wrong_refusals(job, counts);
    try_planner_refusal(job, n, lengths, counts)
        .map_err(|why| format!("N {n}, tables {lengths:?}: {why}"))?;
    let plan = vec![0; least[3] - random.below(2)];
    try_check_refusals(job, &plan)
}

/// How many refusals would show each wrong version.
fn count_wrong_refusals(job: &Job, counts: &mut Counts) {
    let right = refusals::refused(job);
    for wrong in &WRONG_REFUSALS {
        if (wrong.refused)(job) != right {
            count(counts, &format!("a refusal would show: {}", wrong.name));
        }
    }
}

fn try_planner_refusal(job: &Job, n: usize, lengths: [usize; 4], counts: &mut Counts) -> Trial {
    let told = planner::plan_lent(job, n, lengths).told();
    let short = refusals::short_table(job, n, lengths);
    count(counts, sort_of(job, short.is_some()));
    let wanted = match (refusals::refused(job), short) {
        (Some((number, i, j)), _) => [number, 0, 0, i, j, 0, 0],
        (None, Some((table, needed))) => [7, 0, 0, 0, 0, table, needed],
        (None, None) => PlanAnswer::from(tree::search(job, n)).told(),
    };
    same("the planner's refusal", told, wanted)
}

/// What is wrong with the carriers' records, else which ends the job shares, and else
/// whether a table is short.
fn sort_of(job: &Job, short: bool) -> &'static str {
    let slips = refusals::with_wrong_slip(job).into_iter().min();
    let ends = refusals::with_wrong_end(job).into_iter().min();
    match (slips, ends) {
        (Some(slip), Some(end)) if slip < end => return "refusals: 5, a slip before an end",
        (Some(slip), Some(end)) if slip > end => return "refusals: 5, an end before a slip",
        (Some(_), Some(_)) => return "refusals: 5, slip and end of one carrier",
        (Some(_), None) => return "refusals: 5, slips alone",
        (None, Some(_)) => return "refusals: 5, ends alone",
        (None, None) => {}
    }
    let starts = refusals::with_one_start(job).into_iter().min();
    let goals = refusals::with_one_goal(job).into_iter().min();
    match (starts, goals) {
        (Some(_), None) => "refusals: 6, starts alone",
        (Some(starts), Some(goals)) if goals < starts => "refusals: 6, a lesser pair has one goal",
        (Some(_), Some(_)) => "refusals: 6, goals too",
        (None, Some(_)) if short => "refusals: 16, a table is short too",
        (None, Some(_)) => "refusals: 16",
        (None, None) if short => "refusals: 7",
        (None, None) => "refusals: none",
    }
}

fn try_check_refusals(job: &Job, plan: &[u8]) -> Trial {
    let needed = job.carriers.len() * (job.horizon + 1);
    let wanted = match refusals::refused(job) {
        Some((number, i, j)) => Some([number, i, j, 0, 0, 0, 0]),
        None => (plan.len() < needed).then_some([7, 0, 0, 0, 0, 0, needed]),
    };
    let routes = check::route_check(job, plan);
    let meetings = check::meeting_check(job, plan);
    for (told, found) in [(routes, 21), (meetings, 22)] {
        let refused = ![0, found].contains(&told.number);
        same("a check's refusal", refused.then_some(told.told()), wanted)?;
    }
    Ok(())
}
