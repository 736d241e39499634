//! Jobs with a capacity N, from the second program's generators: of every kind, or rough ones to try robustness.

use second::job::{Carrier, Job, MOST_RECORDS};
use second::random::Random;
use second::{damage, generate};

use crate::lent::any_bytes;

/// A job and an N for it.
pub struct Drawn {
    pub job: Job,
    pub n: usize,
}

/// How inputs are drawn.
pub struct Drawing {
    pub job: fn(&mut Random) -> Drawn,
    pub book: fn(&mut Random) -> Vec<u8>,
    pub kinds: fn(&mut Random) -> Vec<u8>,
}

/// Jobs and books of every kind.
pub const EVERY_KIND: Drawing = Drawing {
    job: of_every_kind,
    book: damage::book,
    kinds: every_or_few,
};

/// Random and damaged inputs, small enough to be many.
pub const ROUGH: Drawing = Drawing {
    job: rough,
    book: rough_book,
    kinds: few_kinds,
};

/// Every byte, for one book in 20.
fn every_or_few(random: &mut Random) -> Vec<u8> {
    if random.chance(5) {
        return (0..=u8::MAX).collect();
    }
    few_kinds(random)
}

fn few_kinds(random: &mut Random) -> Vec<u8> {
    vec![0, 1, 2, 3, 4, random.byte()]
}

/// Capacities that check 3 refuses.
const WRONG_CAPACITIES: [usize; 4] = [0, MOST_RECORDS + 1, 1 << 16, usize::MAX];

fn of_every_kind(random: &mut Random) -> Drawn {
    let (job, n) = match random.below(100) {
        0..=22 => (generate::job(random), any_capacity(random)),
        23..=34 => (generate::waiting(random), any_capacity(random)),
        35..=59 => near_its_need(random),
        60..=64 => {
            let n = random.pick(&[2, 8, 32, 128, 256]);
            (generate::needing_about(random, n), n)
        }
        65..=76 => (damage::refused_job(random), any_capacity(random)),
        77..=79 => (damage::wrong_carriers_job(random), any_capacity(random)),
        80..=84 => (damage::sharing_job(random), any_capacity(random)),
        85..=92 => (generate::job(random), random.pick(&WRONG_CAPACITIES)),
        _ => {
            let job = generate::job(random);
            (beyond_bytes(random, job), any_capacity(random))
        }
    };
    Drawn { job, n }
}

fn near_its_need(random: &mut Random) -> (Job, usize) {
    let job = match random.below(3) {
        0 => generate::crowded(random),
        1 => generate::waiting(random),
        _ => generate::job(random),
    };
    let n = generate::capacity_near_need(random, &job);
    (job, n)
}

/// A lawful N, rarely a wrong one.
fn any_capacity(random: &mut Random) -> usize {
    match random.below(20) {
        0 => random.pick(&WRONG_CAPACITIES),
        1 => MOST_RECORDS,
        2..=4 => random.between(1, MOST_RECORDS),
        5..=9 => random.between(1, 20),
        _ => 128,
    }
}

/// The job with one number that no book can tell, or with a number of carriers that no byte can count.
fn beyond_bytes(random: &mut Random, mut job: Job) -> Job {
    let above_a_byte = 256 + random.below(16);
    let huge = random.pick(&[above_a_byte, 1 << 16, 1 << 32, 1 << 63, usize::MAX]);
    match random.below(4) {
        0 => job.width = huge,
        1 => job.height = huge,
        2 => job.horizon = huge,
        _ => {
            let many = 256 + job.carriers.len();
            job.carriers.resize_with(many, || any_carrier(random));
        }
    }
    job
}

fn rough(random: &mut Random) -> Drawn {
    let mut job = match random.below(100) {
        0..=1 => generate::job(random),
        2..=19 => any_numbers(random),
        20..=22 => damage::sharing_job(random),
        23..=24 => damage::wrong_carriers_job(random),
        25..=59 => generate::small_waiting(random),
        _ => generate::small(random),
    };
    if random.chance(50) {
        job = damage::spoilt_job(random, job);
    }
    if random.chance(10) {
        job = beyond_bytes(random, job);
    }
    let n = match random.below(20) {
        0..=1 => random.pick(&WRONG_CAPACITIES),
        2 => random.between(1, 64),
        _ => random.between(1, 8),
    };
    Drawn { job, n }
}

/// A job of any bytes and any numbers around the bounds.
fn any_numbers(random: &mut Random) -> Job {
    let (width, height) = (random.below(18), random.below(18));
    let hall = if random.chance(50) {
        (0..width * height).map(|_| random.pick(b"....#")).collect()
    } else {
        let length = random.below(300);
        any_bytes(random, length)
    };
    let carriers = (0..random.below(11)).map(|_| any_carrier(random));
    Job {
        width,
        height,
        hall,
        carriers: carriers.collect(),
        horizon: random.below(66),
    }
}

/// Any bytes as start and goal, and as slip a number around its bound or, now and then, any byte.
fn any_carrier(random: &mut Random) -> Carrier {
    let any_slip = random.byte();
    Carrier {
        start: random.byte(),
        goal: random.byte(),
        slip: random.pick(&[0, 1, 2, 3, 4, 5, any_slip]),
    }
}

fn rough_book(random: &mut Random) -> Vec<u8> {
    let job = generate::small(random);
    if random.chance(20) {
        let length = random.below(300);
        return any_bytes(random, length);
    }
    damage::damaged_book_of(random, &job)
}
