//! `accept` in plain Rust, for `bench/accept.sh`: it makes the sets, tries each percentage by the test, and writes the table of
//! `edfvd accept`. The sets are shared among a thread for each processor.
//!
//! usage: accept NUMBER SETS TASKCOUNT

use std::io::{self, Write as _};
use std::{env, thread};

/// In ticks. Their least common multiple is 20000.
const PERIODS: [u32; 12] = [
    200, 250, 400, 500, 800, 1000, 1250, 2000, 2500, 4000, 5000, 10000,
];
const SPAN: u64 = 20000;
const STEPS: usize = 11;
const MULTIPLIER: u64 = 6364136223846793005;

/// PCG's XSH RR 64/32.
struct Words {
    state: u64,
    increment: u64,
}

impl Words {
    fn new(number: u64, stream: u64) -> Words {
        let increment = stream << 1 | 1;
        let state = number.wrapping_add(increment);
        let mut words = Words { state, increment };
        words.step();
        words
    }

    fn step(&mut self) {
        self.state = self.state.wrapping_mul(MULTIPLIER).wrapping_add(self.increment);
    }

    fn next(&mut self) -> u32 {
        let state = self.state;
        self.step();
        let word = ((state >> 18 ^ state) >> 27) as u32;
        word.rotate_right((state >> 59) as u32)
    }
}

struct Task {
    is_high: bool,
    period: u32,
    low: u32,
    high: u32,
}

fn make_set(number: u64, count: u32, tasks: &mut Vec<Task>) {
    let mut words = Words::new(number, 54);
    tasks.clear();
    for i in 1..=count {
        let period = PERIODS[(words.next() % 12) as usize];
        if i % 2 == 1 {
            let share = 4 * count.div_ceil(2);
            tasks.push(Task {
                is_high: true,
                period,
                low: 1 + words.next() % (period / share),
                high: 3 * period / share,
            });
        } else {
            let budget = period / (2 * (count / 2));
            tasks.push(Task {
                is_high: false,
                period,
                low: budget,
                high: budget,
            });
        }
        words.next();
    }
}

/// What the tasks of this level ask of the span, by such a budget.
fn asked(tasks: &[Task], is_high: bool, budget: impl Fn(&Task) -> u64) -> u64 {
    let of_level = tasks.iter().filter(|task| task.is_high == is_high);
    of_level
        .map(|task| budget(task) * (SPAN / u64::from(task.period)))
        .sum()
}

/// With how many of the percentages, from 100 on, the test admits the set.
fn steps_of(tasks: &[Task]) -> usize {
    let low_low = asked(tasks, false, |task| u64::from(task.low));
    let high_low = asked(tasks, true, |task| u64::from(task.low));
    let admits = |step: &usize| {
        let percent = 100 + 10 * *step as u64;
        let high_high = asked(tasks, true, |task| {
            let part = (u64::from(task.high) * percent / 100).min(u64::from(u32::MAX));
            part.max(u64::from(task.low))
        });
        low_low + high_high <= SPAN
            || low_low < SPAN
                && low_low * high_low + high_high * (SPAN - low_low) <= SPAN * (SPAN - low_low)
    };
    (0..STEPS).take_while(admits).count()
}

fn table(number: u64, sets: u64, count: u32) -> [u32; STEPS] {
    let mut counts = [0; STEPS];
    let mut tasks = Vec::with_capacity(count as usize);
    for i in 0..sets {
        make_set(number + i, count, &mut tasks);
        for reached in &mut counts[..steps_of(&tasks)] {
            *reached += 1;
        }
    }
    counts
}

fn main() -> io::Result<()> {
    let numbers: Vec<u64> = env::args()
        .skip(1)
        .map(|word| word.parse().expect("a number"))
        .collect();
    let [number, sets, count] = numbers[..] else {
        panic!("usage: accept NUMBER SETS TASKCOUNT");
    };
    let threads = thread::available_parallelism().map_or(1, |n| n.get() as u64);
    let piece = sets.div_ceil(threads).max(1);
    let mut sums = [0; STEPS];
    thread::scope(|scope| {
        let pieces: Vec<_> = (0..threads)
            .map(|i| (i * piece).min(sets)..((i + 1) * piece).min(sets))
            .map(|range| {
                let (first, sets) = (number + range.start, range.end - range.start);
                scope.spawn(move || table(first, sets, count as u32))
            })
            .collect();
        for counts in pieces {
            for (sum, count) in sums.iter_mut().zip(counts.join().expect("a table")) {
                *sum += count;
            }
        }
    });
    let mut text = Vec::new();
    for (step, count) in sums.iter().enumerate() {
        writeln!(text, "{} {count}", 100 + 10 * step)?;
    }
    io::stdout().write_all(&text)
}
