//! Jobs made to be refused by checks 1 to 6 and 16, lent tables made to be too
//! short (7), and books made to be refused by the reader (11 to 14) or to be cut
//! at 300 bytes.

use crate::book::{Bodies, ENTRIES, ENTRY, FIRST_BODY};
use crate::generate;
use crate::job::{CLOSED, Carrier, Job, MOST_CARRIERS};
use crate::print::{MOST_BYTES, RECORDS};
use crate::random::Random;
use crate::tables::Lengths;

/// A book of any kind: in order or not, its job accepted or not.
pub fn book(random: &mut Random) -> Vec<u8> {
    match random.below(100) {
        0..=34 => Bodies::of(&generate::job(random)).bind(),
        35..=51 => Bodies::of(&generate::waiting(random)).bind(),
        52..=61 => Bodies::of(&generate::crowded(random)).bind(),
        62..=65 => Bodies::of(&generate::needing_about(random, RECORDS)).bind(),
        66..=76 => Bodies::of(&refused_job(random)).bind(),
        77..=79 => Bodies::of(&wrong_carriers_job(random)).bind(),
        80..=84 => Bodies::of(&sharing_job(random)).bind(),
        _ => damaged_book(random),
    }
}

/// Input to try a program's robustness: mostly books with faults, and bytes that
/// never were a book.
pub fn rough_input(random: &mut Random) -> Vec<u8> {
    match random.below(100) {
        0..=59 => damaged_book(random),
        60..=84 => (0..random.below(2 * MOST_BYTES))
            .map(|_| random.byte())
            .collect(),
        _ => book(random),
    }
}

/// A job with one to three faults of checks 1 to 6 and 16.
pub fn refused_job(random: &mut Random) -> Job {
    let job = generate::job(random);
    spoilt_job(random, job)
}

/// The job with one to three faults of checks 1 to 6 and 16.
pub fn spoilt_job(random: &mut Random, mut job: Job) -> Job {
    for _ in 0..random.pick(&[1, 1, 1, 2, 3]) {
        let spoil = random.pick(&[
            spoil_size,
            spoil_hall,
            spoil_limits,
            spoil_count,
            spoil_cell,
            spoil_slip,
            share_starts,
            share_goals,
            share_starts_and_goals,
        ]);
        spoil(random, &mut job);
    }
    job
}

/// A job without a fault of checks 1 to 5 whose carriers share starts, goals or
/// both, or have any ends, which may share nothing.
pub fn sharing_job(random: &mut Random) -> Job {
    let mut job = generate::crowded(random);
    let share = random.pick(&[share_starts, share_goals, share_starts_and_goals, any_ends]);
    share(random, &mut job);
    job
}

/// A job without a fault of checks 1 to 4 in which up to three carriers have a wrong
/// slip, start or goal, mostly a slip, and ends may be shared too.
pub fn wrong_carriers_job(random: &mut Random) -> Job {
    let mut job = generate::crowded(random);
    if random.chance(40) {
        let share = random.pick(&[share_starts, share_goals, share_starts_and_goals]);
        share(random, &mut job);
    }
    for _ in 0..random.between(1, 3) {
        let spoil = random.pick(&[spoil_slip, spoil_slip, spoil_cell]);
        spoil(random, &mut job);
    }
    job
}

/// For 7: of the tables with these lengths one becomes too short, or two or
/// three at once, often by one entry.
pub fn shorten(random: &mut Random, lengths: &mut Lengths, least: Lengths) {
    let mut tables = [0, 1, 2, 3];
    random.shuffle(&mut tables);
    for &table in &tables[..random.pick(&[1, 1, 2, 3])] {
        let least = least[table];
        lengths[table] = random.pick(&[least - 1, least - 1, least / 2, 0]);
    }
}

/// A book with a fault, its job in order or not.
pub fn damaged_book(random: &mut Random) -> Vec<u8> {
    let job = if random.chance(80) {
        generate::job(random)
    } else {
        refused_job(random)
    };
    damaged_book_of(random, &job)
}

/// The job's book with a fault in its bodies, in its bytes, or in both. The
/// job's numbers must fit their bytes.
pub fn damaged_book_of(random: &mut Random, job: &Job) -> Vec<u8> {
    let mut bodies = Bodies::of(job);
    let (in_bodies, in_bytes) = random.pick(&[(true, false), (false, true), (true, true)]);
    if in_bodies {
        spoil_bodies(random, &mut bodies);
    }
    let book = bodies.bind();
    if in_bytes {
        return spoil_book(random, book);
    }
    book
}

fn spoil_bodies(random: &mut Random, bodies: &mut Bodies) {
    if random.chance(60) {
        spoil_lengths(random, bodies);
    } else {
        lengthen(random, bodies);
    }
}

fn spoil_book(random: &mut Random, book: Vec<u8>) -> Vec<u8> {
    let damage = random.pick(&[
        cut_short,
        spoil_first_byte,
        spoil_kind,
        swap_entries,
        spoil_offset_or_length,
        add_bytes,
        change_bytes,
        any_bytes,
    ]);
    damage(random, book)
}

/// For 1: "width or height is 0 or above 16".
fn spoil_size(random: &mut Random, job: &mut Job) {
    let wrong = random.pick(&[0, 17, 18, 200, 255]);
    if random.chance(50) {
        job.width = wrong;
    } else {
        job.height = wrong;
    }
}

/// For 2: "the hall hasn't width × height bytes, or a byte is neither 46 nor
/// 35".
fn spoil_hall(random: &mut Random, job: &mut Job) {
    let cells = job.hall.len();
    match random.below(4) {
        0 => job.hall.truncate(cells.saturating_sub(1)),
        1 => job.hall.push(CLOSED),
        _ if cells > 0 => job.hall[random.below(cells)] = random.pick(&[0, 34, 36, 45, 47, 255]),
        _ => job.hall.clear(),
    }
}

/// For 3: "H above 63".
fn spoil_limits(random: &mut Random, job: &mut Job) {
    job.horizon = random.pick(&[64, 65, 255]);
}

/// For 4: "no carrier, or more than 8".
fn spoil_count(random: &mut Random, job: &mut Job) {
    if random.chance(50) {
        job.carriers.clear();
    } else {
        let many = random.between(MOST_CARRIERS + 1, MOST_CARRIERS + 4);
        let slip = random.pick(&[0, 4, 5]);
        let (start, goal) = (0, 0);
        job.carriers.resize(many, Carrier { start, goal, slip });
    }
}

/// For 5: "a start or goal is outside the grid or closed".
fn spoil_cell(random: &mut Random, job: &mut Job) {
    let wrong: Vec<u8> = (0..=u8::MAX).filter(|cell| !job.is_open(*cell)).collect();
    if wrong.is_empty() || job.carriers.is_empty() {
        return;
    }
    let i = random.below(job.carriers.len());
    if random.chance(50) {
        job.carriers[i].start = random.pick(&wrong);
    } else {
        job.carriers[i].goal = random.pick(&wrong);
    }
}

/// For 5: "a slip above 4".
fn spoil_slip(random: &mut Random, job: &mut Job) {
    if job.carriers.is_empty() {
        return;
    }
    let i = random.below(job.carriers.len());
    job.carriers[i].slip = random.pick(&[5, 5, 6, 8, 64, 128, 255]);
}

/// For 6: "two carriers with one start", alone.
fn share_starts(random: &mut Random, job: &mut Job) {
    for (i, j) in pairs(random, job.carriers.len()) {
        job.carriers[i].start = job.carriers[j].start;
    }
}

/// For 16: two carriers with "one goal", alone.
fn share_goals(random: &mut Random, job: &mut Job) {
    for (i, j) in pairs(random, job.carriers.len()) {
        job.carriers[i].goal = job.carriers[j].goal;
    }
}

/// For 6 although a goal is shared too: by two others where there are four
/// carriers, by another pair where there are three.
fn share_starts_and_goals(random: &mut Random, job: &mut Job) {
    let mut order: Vec<usize> = (0..job.carriers.len()).collect();
    random.shuffle(&mut order);
    match order[..] {
        [] => {}
        [only] => job.carriers.push(job.carriers[only]),
        [a, b] => share(job, (a, b), (a, b)),
        [a, b, c] => share(job, (a, b), (b, c)),
        [a, b, c, d, ..] => share(job, (a, b), (c, d)),
    }
}

/// Gives the first of each pair the second's start or goal.
fn share(job: &mut Job, starts: (usize, usize), goals: (usize, usize)) {
    job.carriers[starts.0].start = job.carriers[starts.1].start;
    job.carriers[goals.0].goal = job.carriers[goals.1].goal;
}

/// Any open cells as starts and as goals.
fn any_ends(random: &mut Random, job: &mut Job) {
    let open: Vec<u8> = (0..=u8::MAX).filter(|cell| job.is_open(*cell)).collect();
    for carrier in &mut job.carriers {
        carrier.start = random.pick(&open);
        carrier.goal = random.pick(&open);
    }
}

/// One to three pairs of different carriers; none if there are not two.
fn pairs(random: &mut Random, carriers: usize) -> Vec<(usize, usize)> {
    if carriers < 2 {
        return vec![];
    }
    let many = random.pick(&[1, 1, 2, 3]);
    let mut pair = || {
        let i = random.below(carriers);
        (i, (i + random.between(1, carriers - 1)) % carriers)
    };
    (0..many).map(|_| pair()).collect()
}

/// For 14: "hall body under 2 bytes", a carriers body without "3 bytes for each
/// carrier", a limits body that isn't 1 byte.
fn spoil_lengths(random: &mut Random, bodies: &mut Bodies) {
    match random.below(3) {
        0 => bodies.hall.truncate(random.below(2)),
        1 => bodies
            .carriers
            .extend(random.pick(&[&[0][..], &[0, 0], &[0, 0, 0, 0]])),
        _ => bodies.limits.resize(random.pick(&[0, 2, 2, 3, 4]), 0),
    }
}

/// Bodies that follow one another to an end near 300 bytes.
fn lengthen(random: &mut Random, bodies: &mut Bodies) {
    let wanted = random.pick(&[
        MOST_BYTES - 1,
        MOST_BYTES,
        MOST_BYTES,
        MOST_BYTES + 1,
        MOST_BYTES + 9,
    ]);
    let but_limits = wanted - FIRST_BODY - bodies.limits.len();
    if random.chance(60) {
        let carriers = but_limits - bodies.hall.len();
        bodies.carriers.resize(carriers, 0);
    } else {
        let hall = but_limits - bodies.carriers.len();
        bodies.hall.resize(hall, CLOSED);
    }
}

/// For 11 or 13: the book ends early.
fn cut_short(random: &mut Random, mut book: Vec<u8>) -> Vec<u8> {
    let most = random.pick(&[FIRST_BODY + 1, book.len()]);
    book.truncate(random.below(most));
    book
}

/// For 11: "byte 0 not 3".
fn spoil_first_byte(random: &mut Random, mut book: Vec<u8>) -> Vec<u8> {
    book[0] = random.pick(&[0, 1, 2, 4, 255]);
    book
}

/// For 12: "kinds wrong".
fn spoil_kind(random: &mut Random, mut book: Vec<u8>) -> Vec<u8> {
    let entry = random.below(ENTRIES);
    book[1 + ENTRY * entry] = random.pick(&[0, 1, 2, 3, 4, 255]);
    book
}

/// For 12: entries in another order.
fn swap_entries(random: &mut Random, mut book: Vec<u8>) -> Vec<u8> {
    let first = 1 + ENTRY * random.below(ENTRIES - 1);
    for at in first..first + ENTRY {
        book.swap(at, at + ENTRY);
    }
    book
}

/// For 13: "bodies don't follow one another exactly to the end".
fn spoil_offset_or_length(random: &mut Random, mut book: Vec<u8>) -> Vec<u8> {
    let at = 1 + ENTRY * random.below(ENTRIES) + random.between(1, ENTRY - 1);
    book[at] = book[at].wrapping_add(random.pick(&[1, 2, 16, 255]));
    book
}

/// For 13, or cut off again at 300 bytes.
fn add_bytes(random: &mut Random, mut book: Vec<u8>) -> Vec<u8> {
    let more = random.pick(&[1, 1, 2, 40, 300]);
    book.extend((0..more).map(|_| random.byte()));
    book
}

/// A few bytes changed anywhere.
fn change_bytes(random: &mut Random, mut book: Vec<u8>) -> Vec<u8> {
    for _ in 0..random.between(1, 4) {
        let at = random.below(book.len());
        book[at] = random.byte();
    }
    book
}

/// Nothing of the book is left but its first byte.
fn any_bytes(random: &mut Random, mut book: Vec<u8>) -> Vec<u8> {
    book.truncate(1);
    book.extend((0..random.below(MOST_BYTES + 10)).map(|_| random.byte()));
    book
}

#[cfg(test)]
mod tests {
    use super::*;
    use crate::book::Book;
    use crate::brute::refusals;
    use std::collections::{BTreeMap, BTreeSet};

    #[test]
    fn refused_jobs_have_every_refusal() {
        let mut random = Random::new(3);
        let numbers: BTreeSet<u8> = (0..400)
            .filter_map(|_| refused_job(&mut random).refusal(None))
            .map(|refusal| refusal.number())
            .collect();
        assert_eq!(numbers, BTreeSet::from([1, 2, 3, 4, 5, 6, 16]));
    }

    /// 5 comes of a slip, of a start or goal, and of both, the first fault being of
    /// either kind; also where ends are shared.
    #[test]
    fn jobs_with_wrong_carriers_have_slips_and_ends_wrong() {
        let mut random = Random::new(7);
        let mut sorts = [0; 5];
        for _ in 0..400 {
            let job = wrong_carriers_job(&mut random);
            let slip = refusals::with_wrong_slip(&job).into_iter().min();
            let end = refusals::with_wrong_end(&job).into_iter().min();
            let sort = match (slip, end) {
                (Some(slip), Some(end)) if slip < end => 0,
                (Some(slip), Some(end)) if slip > end => 1,
                (Some(_), None) => 2,
                _ => continue,
            };
            sorts[sort] += 1;
            sorts[3] += usize::from(refusals::shared(&job).is_some());
            sorts[4] += usize::from(slip.is_some_and(|slip| slip > 0));
        }
        assert!(sorts.iter().all(|count| *count > 20), "{sorts:?}");
    }

    #[test]
    fn sharing_jobs_share_starts_goals_both_or_nothing() {
        let mut random = Random::new(5);
        let mut sorts: BTreeMap<(bool, bool), usize> = BTreeMap::new();
        let mut lesser_goals = 0;
        for _ in 0..400 {
            let job = sharing_job(&mut random);
            let starts = refusals::with_one_start(&job).into_iter().min();
            let goals = refusals::with_one_goal(&job).into_iter().min();
            *sorts
                .entry((starts.is_some(), goals.is_some()))
                .or_default() += 1;
            lesser_goals += usize::from(goals.is_some() && goals < starts);
        }
        assert_eq!(sorts.len(), 4);
        assert!(sorts.values().all(|count| *count > 20), "{sorts:?}");
        assert!(lesser_goals > 50, "only {lesser_goals}");
    }

    #[test]
    fn one_to_three_tables_become_short() {
        let mut random = Random::new(6);
        let least = [8, 10, 12, 5];
        let mut sorts = [0; 5];
        let mut by_one = 0;
        for _ in 0..400 {
            let mut lengths = [8, 11, 29, 5];
            shorten(&mut random, &mut lengths, least);
            let tables = lengths.into_iter().zip(least);
            let missing: Vec<usize> = tables
                .filter_map(|(has, least)| least.checked_sub(has + 1))
                .collect();
            sorts[missing.len()] += 1;
            by_one += usize::from(missing == [0]);
        }
        assert!(sorts[1..4].iter().all(|count| *count > 50), "{sorts:?}");
        assert_eq!((sorts[0], sorts[4]), (0, 0));
        assert!(by_one > 50, "only {by_one}");
    }

    #[test]
    fn damaged_books_have_every_refusal_and_no_other() {
        let mut random = Random::new(4);
        let numbers: BTreeSet<u8> = (0..400)
            .map(|_| damaged_book(&mut random))
            .map(|book| Book::read(&book).map_or_else(|refusal| refusal.number(), |_| 0))
            .collect();
        assert_eq!(numbers, BTreeSet::from([0, 11, 12, 13, 14]));
    }
}
