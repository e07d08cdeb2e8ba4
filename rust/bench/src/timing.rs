use std::ffi::c_int;

/// Each work is timed at least and at most so many times: odd numbers, which have a middle.
const FEWEST: f64 = 7.0;
const MOST: f64 = 101.0;
/// Between these, so often that all works together take about so many seconds.
const BUDGET: f64 = 1.0;
/// A timed stretch repeats its work until it takes about so many seconds.
const STRETCH: f64 = 0.000_5;

/// The median seconds of each of these works, timed in turn.
pub fn medians<const N: usize>(mut works: [&mut dyn FnMut(); N]) -> [f64; N] {
    let times = works.each_mut().map(|work| rounds(work));
    let once: f64 = works.iter_mut().zip(&times).map(|(work, &times)| stretch(work, times) * f64::from(times)).sum();
    let repetitions = (BUDGET / once).clamp(FEWEST, MOST) as usize | 1;
    let mut taken = [const { Vec::new() }; N];
    for _ in 0..repetitions {
        for ((work, &times), taken) in works.iter_mut().zip(&times).zip(&mut taken) {
            taken.push(stretch(work, times));
        }
    }
    taken.map(median)
}

/// How often the work is done in a stretch.
fn rounds(work: &mut dyn FnMut()) -> u32 {
    let mut rounds = 1;
    while stretch(work, rounds) * f64::from(rounds) < STRETCH {
        rounds *= 2;
    }
    rounds
}

/// Seconds for one time of the work, over `rounds` of it.
fn stretch(work: &mut dyn FnMut(), rounds: u32) -> f64 {
    let start = processor_seconds();
    for _ in 0..rounds {
        work();
    }
    (processor_seconds() - start) / f64::from(rounds)
}

fn median(mut seconds: Vec<f64>) -> f64 {
    seconds.sort_by(f64::total_cmp);
    seconds[seconds.len() / 2]
}

#[repr(C)]
struct Timespec {
    seconds: i64,
    nanoseconds: i64,
}

unsafe extern "C" {
    fn clock_gettime(clock: c_int, time: *mut Timespec) -> c_int;
}

/// The processor time of this thread: on a busy machine, the time during which others ran is not counted.
fn processor_seconds() -> f64 {
    const CLOCK_THREAD_CPUTIME_ID: c_int = 3;
    let mut time = Timespec { seconds: 0, nanoseconds: 0 };
    // SAFETY: the call writes one timespec, laid out as on x86-64 Linux.
    let status = unsafe { clock_gettime(CLOCK_THREAD_CPUTIME_ID, &raw mut time) };
    assert_eq!(status, 0, "the thread's clock cannot be read");
    time.seconds as f64 + time.nanoseconds as f64 * 1e-9
}
