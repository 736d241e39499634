//! Medians of interleaved rounds, in processor time of this thread: others may
//! work on the machine.

use crate::side::Side;

/// A timed stretch is at least about so long, so that reading the clock doesn't
/// matter.
const LEAST_STRETCH: f64 = 0.002;

/// The median seconds of a pass for each side. In each round every side is
/// timed once, and each round begins with another side.
pub fn median_passes(
    sides: &[&dyn Side],
    rounds: usize,
    mut pass: impl FnMut(&dyn Side),
) -> Vec<f64> {
    let passes = passes_in_a_stretch(sides, &mut pass);
    let mut times = vec![Vec::new(); sides.len()];
    for round in 0..rounds {
        for turn in 0..sides.len() {
            let side = (round + turn) % sides.len();
            let time = time_of(passes[side], || pass(sides[side]));
            times[side].push(time / f64::from(passes[side]));
        }
    }
    times.into_iter().map(median).collect()
}

/// How many passes fill a stretch, for each side, after one that warms up.
fn passes_in_a_stretch(sides: &[&dyn Side], pass: &mut impl FnMut(&dyn Side)) -> Vec<u32> {
    let passes = |side: &&dyn Side| {
        pass(*side);
        let once = time_of(1, || pass(*side));
        (LEAST_STRETCH / once).ceil().max(1.0) as u32
    };
    sides.iter().map(passes).collect()
}

fn time_of(passes: u32, mut pass: impl FnMut()) -> f64 {
    let begin = clock::seconds();
    for _ in 0..passes {
        pass();
    }
    clock::seconds() - begin
}

fn median(mut times: Vec<f64>) -> f64 {
    times.sort_by(f64::total_cmp);
    times[times.len() / 2]
}

mod clock {
    //! The processor time of this thread, as Linux on x86-64 gives it.

    #[repr(C)]
    struct Timespec {
        seconds: i64,
        nanoseconds: i64,
    }

    unsafe extern "C" {
        fn clock_gettime(clock: i32, time: *mut Timespec) -> i32;
    }

    const THREAD_CPUTIME: i32 = 3;

    pub fn seconds() -> f64 {
        let mut time = Timespec {
            seconds: 0,
            nanoseconds: 0,
        };
        // SAFETY: the pointer is to a timespec of this platform.
        let status = unsafe { clock_gettime(THREAD_CPUTIME, &mut time) };
        assert_eq!(status, 0, "the thread's clock can be read");
        time.seconds as f64 + time.nanoseconds as f64 * 1e-9
    }
}
