//! Wrong versions of P3, each one sentence turned wrongly. The loops and the tree by
//! words run with one tell whether a job would show it, and the same is asked of
//! refusals: only where jobs show it often is it worth anything that no job differs.

use crate::brute::refusals;
use crate::brute::slips::{P3, SlipRules, lies};
use crate::job::Job;

/// Document 01's rule with the greatest slip as its k. "with equal slips every
/// accepted job keeps its answer": there it is no wrong version.
pub const ONE_K: SlipRules = SlipRules {
    name: "one k for all, the greatest slip",
    meet: |slips, (_, t), (_, u)| lies(greatest(slips), greatest(slips), t, u),
    swap: |slips, _, _| greatest(slips) == 0,
    bar_length: |slips, _, _| greatest(slips),
    ..P3
};

/// Swaps where only one of the two has slip 0. No job shows it: where a carrier that
/// slips exchanges cells at t, its meeting at distance 1 with e = t comes first.
pub const SWAPS_WITH_ONE: SlipRules = SlipRules {
    name: "swaps where only one has slip 0",
    swap: |slips, i, j| slips[i].min(slips[j]) == 0,
    ..P3
};

/// The versions that jobs show.
pub const WRONG_SLIPS: [SlipRules; 10] = [
    ONE_K,
    SlipRules {
        name: "slips exchanged in the meeting",
        meet: |slips, (i, t), (j, u)| lies(slips[i], slips[j], t, u),
        ..P3
    },
    SlipRules {
        name: "distance to the slip of carrier 0",
        meet: |slips, (_, t), (_, u)| lies(slips[0], slips[0], t, u),
        ..P3
    },
    SlipRules {
        name: "distance to the slip of the lesser number",
        meet: |slips, (i, t), (j, u)| lies(slips[i.min(j)], slips[i.min(j)], t, u),
        ..P3
    },
    SlipRules {
        name: "distance to the greatest slip",
        meet: |slips, (_, t), (_, u)| lies(greatest(slips), greatest(slips), t, u),
        ..P3
    },
    SlipRules {
        name: "each barred over its own slip",
        bar_length: |slips, barred, _| slips[barred],
        ..P3
    },
    SlipRules {
        name: "the lesser number in child one",
        children: |earlier, other| {
            let (less, more) = (earlier.min(other), earlier.max(other));
            [(less, more), (more, less)]
        },
        ..P3
    },
    SlipRules {
        name: "ties by the lesser of the two numbers",
        rank: |earlier, other| (earlier.min(other), earlier.max(other)),
        ..P3
    },
    SlipRules {
        name: "swaps only where no carrier slips",
        swap: |slips, _, _| greatest(slips) == 0,
        ..P3
    },
    SlipRules {
        name: "no swaps",
        swap: |_, _, _| false,
        ..P3
    },
];

fn greatest(slips: &[usize]) -> usize {
    slips.iter().copied().max().unwrap_or(0)
}

/// A wrong version of "a slip above 4 is 5; 3 speaks of H and N only".
pub struct WrongRefusal {
    pub name: &'static str,
    pub refused: fn(&Job) -> Option<refusals::Told>,
}

/// Asked of jobs that pass checks 1 to 4.
pub const WRONG_REFUSALS: [WrongRefusal; 4] = [
    WrongRefusal {
        name: "3 for a slip above 4",
        refused: |job| match refusals::with_wrong_slip(job)[..] {
            [] => refusals::refused(job),
            _ => Some((3, 0, 0)),
        },
    },
    WrongRefusal {
        name: "a slip above 4 behind all starts and goals",
        refused: |job| {
            let ends = refusals::wrong_end(job);
            ends.or_else(|| refusals::refused(job))
        },
    },
    WrongRefusal {
        name: "a slip above 4 before all starts and goals",
        refused: |job| match refusals::with_wrong_slip(job).first() {
            Some(&carrier) => Some((5, carrier, 0)),
            None => refusals::refused(job),
        },
    },
    WrongRefusal {
        name: "a slip above 4 behind shared ends",
        refused: |job| {
            let ends = refusals::wrong_end(job).or_else(|| refusals::shared(job));
            ends.or_else(|| refusals::refused(job))
        },
    },
];

#[cfg(test)]
mod tests {
    use super::*;
    use crate::brute::tree_by_words;
    use crate::damage;
    use crate::generate;
    use crate::random::Random;

    const N: usize = 64;

    /// As many jobs of each sort as `brute` tries.
    fn jobs(seed: u64, each: usize) -> Vec<Job> {
        let mut random = Random::new(seed);
        let both = |_| {
            [
                generate::small(&mut random),
                generate::small_waiting(&mut random),
            ]
        };
        (0..each).flat_map(both).collect()
    }

    /// How many of these jobs show each of these versions.
    fn shown_by(jobs: &[Job], versions: &[SlipRules]) -> Vec<usize> {
        let mut shown = vec![0; versions.len()];
        for job in jobs {
            let ranked = tree_by_words::ranked(job);
            let right = tree_by_words::search_by(job, N, &ranked, &P3);
            for (shown, version) in shown.iter_mut().zip(versions) {
                let wrong = tree_by_words::search_by(job, N, &ranked, version);
                *shown += usize::from(wrong != right);
            }
        }
        shown
    }

    fn have_equal_slips(job: &Job) -> bool {
        let first = job.carriers[0].slip;
        job.carriers.iter().all(|carrier| carrier.slip == first)
    }

    #[test]
    fn jobs_show_every_version() {
        let shown = shown_by(&jobs(51, 500), &WRONG_SLIPS);
        assert!(shown.iter().all(|shown| *shown >= 5), "{shown:?}");
    }

    #[test]
    fn with_equal_slips_every_job_keeps_its_answer() {
        let mut jobs = jobs(52, 300);
        jobs.retain(have_equal_slips);
        assert!(jobs.len() > 100, "only {}", jobs.len());
        assert_eq!(shown_by(&jobs, &[ONE_K]), [0]);
    }

    #[test]
    fn jobs_with_wrong_carriers_show_every_wrong_refusal() {
        let mut random = Random::new(54);
        let jobs: Vec<Job> = (0..500)
            .map(|_| damage::wrong_carriers_job(&mut random))
            .collect();
        for wrong in &WRONG_REFUSALS {
            let shows = |job: &&Job| (wrong.refused)(job) != refusals::refused(job);
            let shown = jobs.iter().filter(shows).count();
            assert!(shown > 40, "{}: {shown}", wrong.name);
        }
    }

    #[test]
    fn no_job_shows_swaps_where_only_one_has_slip_0() {
        assert_eq!(shown_by(&jobs(53, 300), &[SWAPS_WITH_ONE]), [0]);
    }
}
