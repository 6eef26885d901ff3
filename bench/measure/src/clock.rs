//! The clock and the samples: nanoseconds of processor time that a run takes, each the median of several samples.
use std::hint::black_box;
use std::mem::MaybeUninit;

#[repr(C)]
struct Time {
    seconds: i64,
    nanoseconds: i64,
}

mod sys {
    extern "C" {
        pub fn clock_gettime(clock: i32, time: *mut super::Time) -> i32;
    }
}

/// Processor time of this process, so that what else the machine does counts little.
pub fn now() -> f64 {
    let mut time = Time { seconds: 0, nanoseconds: 0 };
    unsafe { sys::clock_gettime(2, &mut time) };
    time.seconds as f64 * 1e9 + time.nanoseconds as f64
}

const SAMPLES: usize = 9;
/// About so long is a sample, and at most so long all samples of one thing, but that a single run is always measured.
const SAMPLE: f64 = 2e7;
const LONGEST: f64 = 3e9;

/// Nanoseconds of a run each time it is asked.
pub type Sampler<'a> = Box<dyn FnMut() -> f64 + 'a>;

/// What a run takes by value is made before the clock starts. The first run is a trial of how long it takes, and what it answers is looked at; only one that is
/// as long as a sample is itself a sample, and its answer is looked at when the clock has stopped.
pub fn sampler<'a, T: 'a, R: 'a>(make: impl Fn() -> T + 'a, run: impl Fn(T) -> R + 'a, look: impl Fn(&R) + 'a) -> Sampler<'a> {
    let mut times = 0;
    Box::new(move || {
        let sample = |times: usize| {
            let given: Vec<T> = (0..times).map(|_| make()).collect();
            let start = now();
            let results: Vec<R> = given.into_iter().map(|given| black_box(run(black_box(given)))).collect();
            let end = now();
            (results, (end - start) / times as f64)
        };
        if times == 0 {
            let (results, first) = sample(1);
            look(&results[0]);
            times = (SAMPLE / first).ceil().max(1.0) as usize;
            if times == 1 {
                return first;
            }
        }
        sample(times).1
    })
}

/// The median of each, sampled by turns, so that what else the machine does falls on all alike.
pub fn medians(samplers: &mut [Sampler]) -> Vec<f64> {
    let mut lists: Vec<Vec<f64>> = vec![vec![]; samplers.len()];
    for _ in 0..SAMPLES {
        for (sampler, list) in samplers.iter_mut().zip(&mut lists) {
            if list.iter().sum::<f64>() < LONGEST {
                list.push(sampler());
            }
        }
    }
    lists.into_iter().map(median).collect()
}

fn median(mut list: Vec<f64>) -> f64 {
    list.sort_by(f64::total_cmp);
    list[list.len() / 2]
}

const CLOSE_SAMPLES: usize = 800;
const CLOSE_RUNS: usize = 12;
/// By sixteens, as far as a stack is aligned.
const DEPTHS: [fn(&dyn Fn()); 8] = [deeper::<16>, deeper::<32>, deeper::<48>, deeper::<64>, deeper::<80>, deeper::<96>, deeper::<112>, deeper::<128>];

/// The runs of a sample, with the stack so many bytes deeper.
#[inline(never)]
fn deeper<const N: usize>(run: &dyn Fn()) {
    black_box(&MaybeUninit::<[u8; N]>::uninit());
    for _ in 0..CLOSE_RUNS {
        run();
    }
}

/// The medians of two that are nearly alike: of many short samples, each first by turns, and at several depths of the stack, since where a call's stack
/// stands makes a difference of some hundredths, and one of the two may have a few bytes more of it.
pub fn close_medians(runs: [&dyn Fn(); 2]) -> [f64; 2] {
    let mut lists = [vec![], vec![]];
    for n in 0..CLOSE_SAMPLES {
        for which in [n % 2, 1 - n % 2] {
            let start = now();
            DEPTHS[n / 2 % DEPTHS.len()](runs[which]);
            lists[which].push((now() - start) / CLOSE_RUNS as f64);
        }
    }
    lists.map(median)
}
