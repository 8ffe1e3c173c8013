//! Times of many calls, taken in rounds: all calls in an order by chance, a new one each round.
use std::hint::black_box;
use std::time::{Duration, Instant, SystemTime, UNIX_EPOCH};

const ROUNDS: usize = 15;
const SAMPLE: Duration = Duration::from_micros(200);

/// Something that is timed. Each call of it answers nanoseconds.
pub type Sample<'a> = Box<dyn Fn() -> f64 + 'a>;

/// The times of a sample over all rounds, of which the median and the lowest tenth are said.
pub struct Times(Vec<f64>);

impl Times {
    pub fn median(&self) -> f64 {
        self.0[self.0.len() / 2]
    }

    pub fn low(&self) -> f64 {
        self.0[self.0.len() / 10]
    }
}

/// All samples in each round, in an order by chance.
pub fn in_rounds(samples: &[Sample]) -> Vec<Times> {
    let mut times = vec![Vec::new(); samples.len()];
    let mut order: Vec<usize> = (0..samples.len()).collect();
    let mut chance = Chance::new();
    for _ in 0..ROUNDS {
        for end in (1..order.len()).rev() {
            order.swap(end, chance.below(end + 1));
        }
        for &index in &order {
            times[index].push(samples[index]());
        }
    }
    times
        .into_iter()
        .map(|mut times| {
            times.sort_by(f64::total_cmp);
            Times(times)
        })
        .collect()
}

/// Times a call, so many in a row that they are long enough to be timed, behind one that isn't.
pub fn sample_of<'a, T: 'a>(call: impl Fn() -> T + 'a) -> Sample<'a> {
    let mut calls = 1;
    while time_of(&call, calls) * (calls as f64) < SAMPLE.as_nanos() as f64 {
        calls *= 2;
    }
    Box::new(move || {
        black_box(call());
        time_of(&call, calls)
    })
}

/// Times one of so many rounds that a call makes, without what it does before the first.
pub fn sample_of_rounds<'a>(call: impl Fn(usize) -> u64 + 'a) -> Sample<'a> {
    let begin = time_of(&|| call(0), 3);
    let enough = (4.0 * begin).max(SAMPLE.as_nanos() as f64);
    let mut rounds = 1;
    while time_of(&|| call(rounds), 2) < enough {
        rounds *= 2;
    }
    Box::new(move || {
        black_box(call(1));
        let begin = time_of(&|| call(0), 1);
        (time_of(&|| call(rounds), 1) - begin) / rounds as f64
    })
}

/// Nanoseconds for one of so many calls.
fn time_of<T>(call: &impl Fn() -> T, calls: usize) -> f64 {
    let begin = Instant::now();
    for _ in 0..calls {
        black_box(call());
    }
    begin.elapsed().as_nanos() as f64 / calls as f64
}

/// Numbers by chance, from the clock.
struct Chance(u64);

impl Chance {
    fn new() -> Chance {
        let now = SystemTime::now().duration_since(UNIX_EPOCH);
        Chance(now.map_or(1, |now| now.as_nanos() as u64 | 1))
    }

    fn below(&mut self, end: usize) -> usize {
        self.0 ^= self.0 << 13;
        self.0 ^= self.0 >> 7;
        self.0 ^= self.0 << 17;
        (self.0 % end as u64) as usize
    }
}

// Of the C library: where its heap takes large blocks from, and when it gives memory back.
unsafe extern "C" {
    fn mallopt(parameter: i32, value: i32) -> i32;
}
const M_TRIM_THRESHOLD: i32 = -1;
const M_MMAP_MAX: i32 = -4;

/// Lets the process keep its memory, so that of all runs only the first waits for new pages.
pub fn keep_memory() {
    // SAFETY: both numbers are parameters of it.
    unsafe {
        mallopt(M_MMAP_MAX, 0);
        mallopt(M_TRIM_THRESHOLD, i32::MAX);
    }
}
