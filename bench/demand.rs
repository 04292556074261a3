//! The demand test in plain Rust, for `bench/demand.sh`: it reads a demand file, adds the budgets into an array of lengths, and
//! writes the text of `edfvd demand`, but for one line of any file that is refused.

use std::cmp::Reverse;
use std::collections::{BinaryHeap, HashSet};
use std::env;
use std::fs;
use std::io::{self, Write as _};
use std::ops::Range;
use std::process::ExitCode;

const HEADER: &str = "task,period,deadline,budget";
const MOST_TASKS: usize = 128;
const MOST_MULTIPLE: u64 = 500_000;

struct Task {
    name: String,
    period: u64,
    deadline: u64,
    budget: u64,
}

struct Set {
    tasks: Vec<Task>,
    /// The least common multiple of the periods.
    multiple: u64,
}

fn main() -> io::Result<ExitCode> {
    let name = env::args_os().nth(1).expect("the name of a demand file");
    let (status, text) = match read(&fs::read_to_string(name)?) {
        Some(set) => answer(&set),
        None => (11, b"demand file refused\n".to_vec()),
    };
    io::stdout().write_all(&text)?;
    Ok(ExitCode::from(status))
}

fn read(text: &str) -> Option<Set> {
    let mut lines = text.lines().filter(|line| !line.is_empty());
    if lines.next()? != HEADER {
        return None;
    }
    let mut set = Set {
        tasks: Vec::new(),
        multiple: 1,
    };
    let mut names = HashSet::new();
    for line in lines {
        let task = task(line)?;
        set.multiple = least_common_multiple(set.multiple, task.period);
        if set.tasks.len() == MOST_TASKS
            || set.multiple > MOST_MULTIPLE
            || !names.insert(task.name.clone())
        {
            return None;
        }
        set.tasks.push(task);
    }
    (!set.tasks.is_empty()).then_some(set)
}

fn task(line: &str) -> Option<Task> {
    let fields: Vec<&str> = line.split(',').collect();
    let [name, period, deadline, budget] = fields[..] else {
        return None;
    };
    let is_name = (1..=32).contains(&name.len())
        && name
            .bytes()
            .all(|byte| byte.is_ascii_alphanumeric() || byte == b'_' || byte == b'-');
    let task = Task {
        name: name.to_string(),
        period: number(period)?,
        deadline: number(deadline)?,
        budget: number(budget)?,
    };
    (is_name && task.deadline <= task.period).then_some(task)
}

fn number(word: &str) -> Option<u64> {
    let is_number =
        (1..=10).contains(&word.len()) && word.bytes().all(|byte| byte.is_ascii_digit());
    let value = word.parse().ok()?;
    (is_number && value > 0 && value <= u64::from(u32::MAX)).then_some(value)
}

fn least_common_multiple(a: u64, b: u64) -> u64 {
    let (mut x, mut y) = (a, b);
    while y > 0 {
        (x, y) = (y, x % y);
    }
    a / x * b
}

fn answer(set: &Set) -> (u8, Vec<u8>) {
    match first_past(set) {
        None => (
            0,
            format!("schedulable, demand checked to {}\n", set.multiple).into_bytes(),
        ),
        Some((length, demand)) => {
            let mut text =
                format!("not schedulable: demand {demand} in length {length}\n").into_bytes();
            write_counterexample(set, length, &mut text);
            (10, text)
        }
    }
}

/// The least length that asks for more ticks than it has, and for how many.
fn first_past(set: &Set) -> Option<(u64, u64)> {
    let mut due = vec![0; set.multiple as usize + 1];
    for task in &set.tasks {
        for sum in due
            .iter_mut()
            .skip(task.deadline as usize)
            .step_by(task.period as usize)
        {
            *sum += task.budget;
        }
    }
    let mut demand = 0;
    for (length, more) in due.iter().enumerate() {
        demand += more;
        if demand > length as u64 {
            return Some((length as u64, demand));
        }
    }
    None
}

/// The run in which each task releases at every multiple of its period and ties go to the lowest number, and its late job. It goes
/// from one release or end of a job to the next.
fn write_counterexample(set: &Set, length: u64, text: &mut Vec<u8>) {
    // The next release of each task, by its time.
    let mut releases: BinaryHeap<_> = (0..set.tasks.len())
        .map(|task| Reverse((0, task)))
        .collect();
    // The pending jobs by their deadlines, each with its task, its number, and the ticks that it still needs.
    let mut pending = BinaryHeap::new();
    let mut now = 0;
    while now < length {
        while let Some(&Reverse((at, k))) = releases.peek().filter(|release| release.0 .0 == now) {
            let task = &set.tasks[k];
            let count = at / task.period + 1;
            writeln!(text, "release {} {count} at {now}", task.name).unwrap();
            releases.pop();
            releases.push(Reverse((at + task.period, k)));
            pending.push(Reverse((at + task.deadline, k, count, task.budget)));
        }
        let next = releases
            .peek()
            .map_or(length, |release| length.min(release.0 .0));
        match pending.pop() {
            None => {
                for tick in now..next {
                    writeln!(text, "idle {tick}").unwrap();
                }
                now = next;
            }
            Some(Reverse((deadline, k, count, left))) => {
                let end = next.min(now + left);
                write_ticks(&set.tasks[k].name, count, now..end, text);
                if now + left > end {
                    pending.push(Reverse((deadline, k, count, now + left - end)));
                }
                now = end;
            }
        }
    }
    let (_, k, count) = pending
        .iter()
        .filter(|job| job.0 .0 <= length)
        .map(|&Reverse((deadline, k, count, _))| (deadline - set.tasks[k].deadline, k, count))
        .min()
        .expect("a late job");
    writeln!(text, "late {} {count}", set.tasks[k].name).unwrap();
}

/// The lines of a job's ticks. The number of the first is counted up for each other one.
fn write_ticks(name: &str, count: u64, ticks: Range<u64>, text: &mut Vec<u8>) {
    let from = text.len();
    writeln!(text, "tick {} {name} {count}", ticks.start).unwrap();
    if ticks.end - ticks.start == 1 {
        return;
    }
    let mut line = text[from..].to_vec();
    let mut last = 4 + ticks.start.to_string().len();
    for _ in ticks.skip(1) {
        let mut at = last;
        while line[at] == b'9' {
            line[at] = b'0';
            at -= 1;
        }
        if line[at] == b' ' {
            line.insert(at + 1, b'1');
            last += 1;
        } else {
            line[at] += 1;
        }
        text.extend_from_slice(&line);
    }
}
