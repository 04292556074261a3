//! The judge, the report, the migration and the chart of a trace, a live and a planned run, the test, first fit and the stretch, in
//! plain Rust, by the standard library alone: to measure the program beside. It goes over the bytes of a file once, and finds tasks
//! and jobs by index. It takes task files as bench writes them, and records without quotes; it reads no others. The set has to be one
//! that the test admits, except for `partition` and `stretch`.
//!
//! usage: plain judge|report|migrate|chart TASKS TRACE
//!        plain judge TASKS TRACE P Q
//!        plain live TASKS TICKS
//!        plain run TASKS WORK TICKS
//!        plain check|stretch TASKS
//!        plain partition TASKS PROCESSORS

use std::collections::{HashMap, VecDeque};
use std::io::Write as _;
use std::{env, fs, io, mem, process};

const MOST_RECORDS: usize = 2_000_000;
const MOST_TICKS: u64 = 100_000_000;

#[derive(Default)]
struct Task {
    name: Vec<u8>,
    high: bool,
    period: u64,
    low: u64,
    own: u64,
}

#[derive(Clone, Copy, PartialEq)]
enum How {
    More,
    Done,
    Stop,
    Over,
}

#[derive(Clone, Copy)]
enum Run {
    Release {
        task: usize,
        job: u32,
        kept: bool,
    },
    Ticks {
        task: usize,
        job: u32,
        how: How,
        length: u32,
    },
    Idles {
        length: u32,
    },
}

#[derive(Clone, Copy)]
enum Rule {
    Plain,
    Virtual { p: u128, q: u128 },
}

// ---- Files ----

fn read_tasks(text: &[u8]) -> Option<Vec<Task>> {
    let mut tasks: Vec<Task> = Vec::new();
    for line in text.split(|&byte| byte == b'\n') {
        if line == b"[[task]]" {
            tasks.push(Task::default());
        } else if let Some(value) = line.strip_prefix(b"name = ") {
            tasks.last_mut()?.name = value.strip_prefix(b"\"")?.strip_suffix(b"\"")?.to_vec();
        } else if let Some(value) = line.strip_prefix(b"level = ") {
            tasks.last_mut()?.high = value == b"\"high\"";
        } else if let Some(value) = line.strip_prefix(b"period = ") {
            tasks.last_mut()?.period = number(value)?.into();
        } else if let Some(value) = line.strip_prefix(b"low = ") {
            tasks.last_mut()?.low = number(value)?.into();
        } else if let Some(value) = line.strip_prefix(b"high = ") {
            tasks.last_mut()?.own = number(value)?.into();
        }
    }
    for task in tasks.iter_mut().filter(|task| !task.high) {
        task.own = task.low;
    }
    Some(tasks)
}

fn number(field: &[u8]) -> Option<u32> {
    if field.is_empty() || field.len() > 10 {
        return None;
    }
    let mut value = 0u64;
    for &byte in field {
        let digit = byte.wrapping_sub(b'0');
        if digit > 9 {
            return None;
        }
        value = value * 10 + u64::from(digit);
    }
    u32::try_from(value).ok()
}

// The number before the next comma, if it has one to nine digits, and what follows the comma.
fn number_in(text: &[u8]) -> Option<(u32, &[u8])> {
    let mut value = 0;
    for (i, &byte) in text.iter().take(10).enumerate() {
        let digit = byte.wrapping_sub(b'0');
        if digit > 9 {
            return (byte == b',' && i > 0).then(|| (value as u32, &text[i + 1..]));
        }
        value = value * 10 + u64::from(digit);
    }
    None
}

// The task after the one that was found last is looked at first.
struct Names<'a> {
    // Each name with a comma after it.
    names: Vec<Vec<u8>>,
    places: HashMap<&'a [u8], usize>,
    next: usize,
}

impl<'a> Names<'a> {
    fn new(tasks: &'a [Task]) -> Names<'a> {
        let names = tasks.iter().map(|task| &task.name[..]);
        Names {
            names: names.clone().map(|name| [name, b","].concat()).collect(),
            places: names.enumerate().map(|(i, name)| (name, i)).collect(),
            next: 0,
        }
    }

    // The task before the next comma, and what follows the comma.
    fn find_in<'t>(&mut self, text: &'t [u8]) -> Option<(usize, &'t [u8])> {
        let (task, rest) = match text.strip_prefix(&self.names[self.next][..]) {
            Some(rest) => (self.next, rest),
            None => {
                let end = text.iter().position(|&byte| byte == b',')?;
                (*self.places.get(&text[..end])?, &text[end + 1..])
            }
        };
        self.next = if task + 1 < self.names.len() {
            task + 1
        } else {
            0
        };
        Some((task, rest))
    }
}

// Hands over the runs. What is refused has its line and the reason.
fn read_trace(
    tasks: &[Task],
    text: &[u8],
    mut each: impl FnMut(Run),
) -> Result<(), (usize, &'static str)> {
    let (line, mut rest) = first_line(text);
    let has_lengths = match line {
        b"event,tick,task,job,how" => false,
        b"event,tick,length,task,job,how" => true,
        _ => return Err((1, "header is of no trace version")),
    };
    let mut names = Names::new(tasks);
    let (mut due, mut place) = (0, 1);
    while !rest.is_empty() {
        place += 1;
        if place - 2 == MOST_RECORDS {
            return Err((place, "more than 2000000 rows"));
        }
        let run = match quick_run(&mut names, has_lengths, due, rest) {
            Some((run, next)) => {
                rest = next;
                run
            }
            None => {
                let (line, next) = first_line(rest);
                rest = next;
                read_run(&names, has_lengths, due, line).map_err(|why| (place, why))?
            }
        };
        due += match run {
            Run::Release { .. } => 0,
            Run::Ticks { length, .. } | Run::Idles { length } => u64::from(length),
        };
        if due > MOST_TICKS {
            return Err((place, "more than 100000000 ticks"));
        }
        each(run);
    }
    Ok(())
}

fn first_line(text: &[u8]) -> (&[u8], &[u8]) {
    match text.iter().position(|&byte| byte == b'\n') {
        Some(end) => (&text[..end], &text[end + 1..]),
        None => (text, b""),
    }
}

// Goes over the bytes of a record once. Gives none if the record is not as usual.
fn quick_run<'t>(
    names: &mut Names,
    has_lengths: bool,
    due: u64,
    text: &'t [u8],
) -> Option<(Run, &'t [u8])> {
    let is_release = text.starts_with(b"release,");
    let rest = if is_release {
        &text[8..]
    } else {
        text.strip_prefix(b"tick,")
            .or_else(|| text.strip_prefix(b"idle,"))?
    };
    let (tick, mut rest) = number_in(rest)?;
    if u64::from(tick) != due {
        return None;
    }
    let mut length = 1;
    if has_lengths && is_release {
        rest = rest.strip_prefix(b",")?;
    } else if has_lengths {
        (length, rest) = number_in(rest)?;
    }
    if text[0] == b'i' {
        let rest = rest.strip_prefix(b",,\n")?;
        return (length > 0).then_some((Run::Idles { length }, rest));
    }
    let (task, rest) = names.find_in(rest)?;
    let (job, rest) = number_in(rest)?;
    if is_release {
        let kept = rest.starts_with(b"kept\n");
        let rest = rest.strip_prefix(if kept { &b"kept\n"[..] } else { b"dropped\n" })?;
        return Some((Run::Release { task, job, kept }, rest));
    }
    let how = match rest.get(..5)? {
        b"more\n" => How::More,
        b"done\n" => How::Done,
        b"stop\n" => How::Stop,
        b"over\n" => How::Over,
        _ => return None,
    };
    let run = Run::Ticks {
        task,
        job,
        how,
        length,
    };
    (length == 1 || length > 1 && how == How::More).then_some((run, &rest[5..]))
}

// Any record, or why it is refused.
fn read_run(names: &Names, has_lengths: bool, due: u64, line: &[u8]) -> Result<Run, &'static str> {
    let fields: Vec<&[u8]> = line.split(|&byte| byte == b',').collect();
    match fields[..] {
        [event, tick, length, task, job, how] if has_lengths => {
            run_of(names, due, [event, tick, length, task, job, how])
        }
        _ if has_lengths => Err("not six fields"),
        [event, tick, task, job, how] => {
            let length: &[u8] = if event == b"release" { b"" } else { b"1" };
            run_of(names, due, [event, tick, length, task, job, how])
        }
        _ => Err("not five fields"),
    }
}

fn run_of(names: &Names, due: u64, record: [&[u8]; 6]) -> Result<Run, &'static str> {
    let [event, tick, length, task, job, how] = record;
    let in_order = |tick: u32| {
        if u64::from(tick) == due {
            Ok(())
        } else {
            Err("wrong tick")
        }
    };
    let read = |field| number(field).ok_or("bad number");
    match (event, how) {
        (b"release", b"kept" | b"dropped") if length.is_empty() => {
            let task = *names.places.get(task).ok_or("unknown task")?;
            let (tick, job) = (read(tick)?, read(job)?);
            in_order(tick)?;
            Ok(Run::Release {
                task,
                job,
                kept: how == b"kept",
            })
        }
        (b"tick", _) => {
            let how = match how {
                b"more" => How::More,
                b"done" => How::Done,
                b"stop" => How::Stop,
                b"over" => How::Over,
                _ => return Err("unknown event"),
            };
            let task = *names.places.get(task).ok_or("unknown task")?;
            let (tick, length, job) = (read(tick)?, read(length)?, read(job)?);
            in_order(tick)?;
            if length == 0 || length > 1 && how != How::More {
                return Err("bad length");
            }
            Ok(Run::Ticks {
                task,
                job,
                how,
                length,
            })
        }
        (b"idle", b"") if task.is_empty() && job.is_empty() => {
            let (tick, length) = (read(tick)?, read(length)?);
            in_order(tick)?;
            if length == 0 {
                return Err("bad length");
            }
            Ok(Run::Idles { length })
        }
        _ => Err("unknown event"),
    }
}

// ---- The rule ----

fn gcd(mut a: u64, mut b: u64) -> u64 {
    while b > 0 {
        (a, b) = (b, a % b);
    }
    a
}

fn wide_gcd(mut a: u128, mut b: u128) -> u128 {
    while b > 0 {
        if let (Ok(a), Ok(b)) = (u64::try_from(a), u64::try_from(b)) {
            return gcd(a, b).into();
        }
        (a, b) = (b, a % b);
    }
    a
}

// The sums of the budgets, each in parts of a common multiple of the periods.
#[derive(Clone, Copy, Default)]
struct Loads {
    low: u128,
    high_low: u128,
    high: u128,
}

impl Loads {
    // `part` is the common multiple divided by the period.
    fn add(&mut self, task: &Task, part: u128) {
        if task.high {
            self.high_low += part * u128::from(task.low);
            self.high += part * u128::from(task.own);
        } else {
            self.low += part * u128::from(task.low);
        }
    }

    fn rule(&self, all: u128) -> Option<Rule> {
        let Loads {
            low,
            high_low,
            high,
        } = *self;
        if low + high <= all {
            return Some(Rule::Plain);
        }
        if low >= all || low * high_low + high * (all - low) > all * (all - low) {
            return None;
        }
        let common = wide_gcd(high_low, all - low);
        Some(Rule::Virtual {
            p: high_low / common,
            q: (all - low) / common,
        })
    }
}

// A common multiple of the periods, and the periods in it.
fn parts_of(tasks: &[Task]) -> (u128, Vec<u128>) {
    let mut all: u128 = 1;
    for task in tasks {
        let rest = all % u128::from(task.period);
        all *= u128::from(task.period / gcd(task.period, rest as u64));
    }
    let part = |task: &Task| all / u128::from(task.period);
    (all, tasks.iter().map(part).collect())
}

fn loads_of(tasks: &[Task], parts: &[u128]) -> Loads {
    let mut loads = Loads::default();
    for (task, &part) in tasks.iter().zip(parts) {
        loads.add(task, part);
    }
    loads
}

fn rule_of(tasks: &[Task]) -> Option<Rule> {
    let (all, parts) = parts_of(tasks);
    loads_of(tasks, &parts).rule(all)
}

fn fraction(part: u128, all: u128) -> String {
    let common = wide_gcd(part, all);
    format!("{}/{}", part / common, all / common)
}

// ---- The test, first fit and the stretch ----

fn checked(tasks: &[Task]) -> Option<Vec<u8>> {
    let (all, parts) = parts_of(tasks);
    let loads = loads_of(tasks, &parts);
    let rule = match loads.rule(all)? {
        Rule::Plain => String::from("rule plain"),
        Rule::Virtual { p, q } => format!("rule virtual\nx {p}/{q}"),
    };
    let text = format!(
        "tasks {}\nU_LL {}\nU_HL {}\nU_HH {}\n{rule}\n",
        tasks.len(),
        fraction(loads.low, all),
        fraction(loads.high_low, all),
        fraction(loads.high, all)
    );
    Some(text.into())
}

fn partitioned(tasks: &[Task], count: usize) -> Option<Vec<u8>> {
    let (all, parts) = parts_of(tasks);
    let mut processors = vec![(Loads::default(), Vec::new()); count];
    for (task, &part) in tasks.iter().zip(&parts) {
        let names = processors.iter_mut().find_map(|(loads, names)| {
            let mut more = *loads;
            more.add(task, part);
            more.rule(all)?;
            *loads = more;
            Some(names)
        })?;
        names.push(b' ');
        names.extend_from_slice(&task.name);
    }
    let mut text = Vec::new();
    for (i, (_, names)) in processors.iter().enumerate() {
        text.extend_from_slice(b"processor ");
        push_number(&mut text, i as u32 + 1);
        text.extend_from_slice(names);
        text.push(b'\n');
    }
    Some(text)
}

fn stretched(tasks: &[Task]) -> Vec<u8> {
    let (all, parts) = parts_of(tasks);
    let loads = loads_of(tasks, &parts);
    let high_at = |percent: u64| -> u128 {
        let budget = |task: &Task| (task.own * percent / 100).clamp(task.low, u64::from(u32::MAX));
        let high = tasks.iter().zip(&parts).filter(|(task, _)| task.high);
        high.map(|(task, part)| part * u128::from(budget(task)))
            .sum()
    };
    let is_admitted = |percent| {
        let high = high_at(percent);
        Loads { high, ..loads }.rule(all).is_some()
    };
    let line = |percent| format!("U_HH {} at {percent}\n", fraction(high_at(percent), all));
    if !is_admitted(0) {
        return format!("stretch none\n{}", line(0)).into();
    }
    // Admitted at the first, and not at the second.
    let (mut most, mut past) = (0, 1001);
    while most + 1 < past {
        let middle = (most + past) / 2;
        if is_admitted(middle) {
            most = middle;
        } else {
            past = middle;
        }
    }
    let next = if past > 1000 {
        String::new()
    } else {
        line(past)
    };
    format!("stretch {most}\n{}{next}", line(most)).into()
}

// ---- Pending jobs ----

struct Job {
    number: u32,
    release: u64,
    used: u64,
    // The job's need, or the row of its release.
    note: u64,
}

const NONE: u128 = u128::MAX;

struct Queue<'a> {
    tasks: &'a [Task],
    rule: Rule,
    high_mode: bool,
    // The pending jobs of each task, by their releases, and so by their keys.
    jobs: Vec<VecDeque<Job>>,
    // A tree of matches: at its end the key of the first job of each task, with the task in the last eight bits, and before them the
    // lesser of each two.
    firsts: Vec<u128>,
}

impl<'a> Queue<'a> {
    fn new(tasks: &'a [Task], rule: Rule) -> Queue<'a> {
        Queue {
            tasks,
            rule,
            high_mode: false,
            jobs: tasks.iter().map(|_| VecDeque::new()).collect(),
            firsts: vec![NONE; 2 * tasks.len().next_power_of_two()],
        }
    }

    fn key(&self, task: usize, release: u64) -> u128 {
        let task = &self.tasks[task];
        let (release, period) = (u128::from(release), u128::from(task.period));
        match self.rule {
            Rule::Plain => release + period,
            Rule::Virtual { p, q } if task.high && !self.high_mode => q * release + p * period,
            Rule::Virtual { q, .. } => q * (release + period),
        }
    }

    // Plays the matches of a task whose first job has changed.
    fn play(&mut self, task: usize) {
        let mut winner = match self.jobs[task].front() {
            Some(job) => self.key(task, job.release) << 8 | task as u128,
            None => NONE,
        };
        let mut place = self.firsts.len() / 2 + task;
        while self.firsts[place] != winner {
            self.firsts[place] = winner;
            if place == 1 {
                return;
            }
            winner = winner.min(self.firsts[place ^ 1]);
            place /= 2;
        }
    }

    fn push(&mut self, task: usize, job: Job) {
        self.jobs[task].push_back(job);
        if self.jobs[task].len() == 1 {
            self.play(task);
        }
    }

    // The least key, and the task whose first job has it.
    fn least(&self) -> Option<(u128, usize)> {
        let first = self.firsts[1];
        (first != NONE).then_some((first >> 8, (first & 255) as usize))
    }

    fn may_overrun(&self, task: usize) -> bool {
        self.tasks[task].high && !self.high_mode && matches!(self.rule, Rule::Virtual { .. })
    }

    // Removes the first job of a task that has one.
    fn end(&mut self, task: usize) -> Job {
        let job = self.jobs[task].pop_front().expect("a pending job");
        self.play(task);
        job
    }

    // Goes to the high mode. The low jobs are no longer pending.
    fn switch(&mut self) -> Vec<(usize, Job)> {
        self.high_mode = true;
        let mut dropped = Vec::new();
        for task in 0..self.tasks.len() {
            if !self.tasks[task].high {
                dropped.extend(self.jobs[task].drain(..).map(|job| (task, job)));
            }
            self.play(task);
        }
        dropped
    }
}

// ---- The judge ----

#[derive(Clone, Copy, Default)]
struct Note {
    releases: u32,
    next: u64,
}

struct Judge<'a> {
    queue: Queue<'a>,
    notes: Vec<Note>,
    // How many jobs are late, and the row, the task and the number of the first.
    lates: u64,
    first: Option<(u64, usize, u32)>,
    // The first row that does not fit, and why.
    illegal: Option<(u64, &'static str)>,
    ticks: u64,
    row: u64,
}

impl<'a> Judge<'a> {
    fn new(tasks: &'a [Task], rule: Rule) -> Judge<'a> {
        Judge {
            queue: Queue::new(tasks, rule),
            notes: vec![Note::default(); tasks.len()],
            lates: 0,
            first: None,
            illegal: None,
            ticks: 0,
            row: 0,
        }
    }

    fn take(&mut self, run: Run) {
        if self.illegal.is_some() {
            return;
        }
        let found = match run {
            Run::Release { task, job, kept } => self.release(task, job, kept),
            Run::Ticks {
                task,
                job,
                how,
                length,
            } => self.tick(task, job, how, length.into()),
            Run::Idles { length } => self.rest(length.into()),
        };
        self.illegal = found.err();
    }

    fn release(&mut self, task: usize, number: u32, kept: bool) -> Result<(), (u64, &'static str)> {
        let of = &self.queue.tasks[task];
        let note = &mut self.notes[task];
        if self.ticks < note.next {
            return Err((self.row + 1, "too_soon"));
        }
        if u64::from(number) != u64::from(note.releases) + 1 {
            return Err((self.row + 1, "wrong_count"));
        }
        if kept != (of.high || !self.queue.high_mode) {
            return Err((self.row + 1, "wrong_kept"));
        }
        note.releases = number;
        note.next = self.ticks + of.period;
        if kept {
            let job = Job {
                number,
                release: self.ticks,
                used: 0,
                note: self.row,
            };
            self.queue.push(task, job);
        }
        self.row += 1;
        Ok(())
    }

    fn tick(
        &mut self,
        task: usize,
        number: u32,
        how: How,
        length: u64,
    ) -> Result<(), (u64, &'static str)> {
        let Some((least, first)) = self.queue.least() else {
            return Err((self.row + 1, "not_pending"));
        };
        let may_overrun = self.queue.may_overrun(task);
        let of = &self.queue.tasks[task];
        let fits = match self.queue.jobs[task].front() {
            Some(job) if job.number == number => {
                first == task || self.queue.key(task, job.release) == least
            }
            _ => false,
        };
        if !fits {
            let is_pending = self.queue.jobs[task].iter().any(|job| job.number == number);
            return Err((
                self.row + 1,
                if is_pending {
                    "not_least"
                } else {
                    "not_pending"
                },
            ));
        }
        let job = &mut self.queue.jobs[task][0];
        let used = job.used + length;
        let fits = match how {
            How::More => {
                let budget = if may_overrun {
                    of.low.min(of.own)
                } else {
                    of.own
                };
                if used >= budget {
                    return Err((self.row + (budget - job.used), "wrong_how"));
                }
                true
            }
            How::Done => used <= of.own,
            How::Stop => used == of.own,
            How::Over => may_overrun && used == of.low && used != of.own,
        };
        if !fits {
            return Err((self.row + 1, "wrong_how"));
        }
        job.used = used;
        match how {
            How::More => {}
            How::Done | How::Stop => {
                let job = self.queue.end(task);
                self.note_if_due(task, &job);
            }
            How::Over => {
                for (task, job) in self.queue.switch() {
                    self.note_if_due(task, &job);
                }
            }
        }
        self.ticks += length;
        self.row += length;
        Ok(())
    }

    fn rest(&mut self, length: u64) -> Result<(), (u64, &'static str)> {
        if self.queue.least().is_some() {
            return Err((self.row + 1, "idle_pending"));
        }
        self.queue.high_mode = false;
        self.ticks += length;
        self.row += length;
        Ok(())
    }

    fn note_if_due(&mut self, task: usize, job: &Job) {
        if job.release + self.queue.tasks[task].period <= self.ticks {
            self.lates += 1;
            if self.first.map_or(true, |first| job.note < first.0) {
                self.first = Some((job.note, task, job.number));
            }
        }
    }

    // What is said of a trace that does not fit, or that has a late job.
    fn finish(mut self) -> Option<Vec<u8>> {
        if let Some((row, why)) = self.illegal {
            return Some(format!("illegal row {row} {why}\n").into());
        }
        for (task, jobs) in mem::take(&mut self.queue.jobs).iter().enumerate() {
            for job in jobs {
                self.note_if_due(task, job);
            }
        }
        let (_, task, number) = self.first?;
        let mut text = format!("legal late {} first ", self.lates).into_bytes();
        text.extend_from_slice(&self.queue.tasks[task].name);
        text.extend_from_slice(format!(" {number}\n").as_bytes());
        Some(text)
    }
}

// ---- The report ----

#[derive(Clone, Default)]
struct Tally {
    released: u32,
    kept: u32,
    discarded: u32,
    done: u32,
    stopped: u32,
    ticks: u64,
    response: u64,
    // The releases of the pending jobs.
    pending: VecDeque<u64>,
}

struct Report<'a> {
    tasks: &'a [Task],
    tallies: Vec<Tally>,
    tick: u64,
    idle: u64,
    switches: u64,
}

impl Report<'_> {
    fn take(&mut self, run: Run) {
        match run {
            Run::Release { task, kept, .. } => {
                let tally = &mut self.tallies[task];
                tally.released += 1;
                if kept {
                    tally.kept += 1;
                    tally.pending.push_back(self.tick);
                }
            }
            Run::Ticks {
                task, how, length, ..
            } => {
                let tally = &mut self.tallies[task];
                self.tick += u64::from(length);
                tally.ticks += u64::from(length);
                match how {
                    How::More => return,
                    How::Done => tally.done += 1,
                    How::Stop => tally.stopped += 1,
                    How::Over => {
                        self.switches += 1;
                        for (task, tally) in self.tasks.iter().zip(&mut self.tallies) {
                            if !task.high {
                                tally.discarded += tally.pending.len() as u32;
                                tally.pending.clear();
                            }
                        }
                        return;
                    }
                }
                let release = tally.pending.pop_front().unwrap_or(self.tick);
                tally.response = tally.response.max(self.tick - release);
            }
            Run::Idles { length } => {
                self.tick += u64::from(length);
                self.idle += u64::from(length);
            }
        }
    }

    fn finish(self) -> Vec<u8> {
        let mut text = Vec::new();
        for (task, tally) in self.tasks.iter().zip(&self.tallies) {
            let Tally {
                released,
                kept,
                discarded,
                done,
                stopped,
                ticks,
                response,
                ..
            } = tally;
            let response = if done + stopped == 0 {
                "-".to_string()
            } else {
                response.to_string()
            };
            let dropped = released - kept;
            text.extend_from_slice(b"task ");
            text.extend_from_slice(&task.name);
            let rest = format!(" released {released} kept {kept} dropped {dropped} discarded {discarded} done {done} stopped {stopped} ticks {ticks} response {response}\n");
            text.extend_from_slice(rest.as_bytes());
        }
        let last = format!("idle {}\nswitches {}\n", self.idle, self.switches);
        text.extend_from_slice(last.as_bytes());
        text
    }
}

// ---- The trace in runs ----

fn push_number(text: &mut Vec<u8>, mut value: u32) {
    let mut digits = [0; 10];
    let mut at = digits.len() - 1;
    while value > 9 {
        digits[at] = b'0' + (value % 10) as u8;
        value /= 10;
        at -= 1;
    }
    digits[at] = b'0' + value as u8;
    text.extend_from_slice(&digits[at..]);
}

// Writes the records of runs, and joins equal ticks.
struct Writer {
    text: Vec<u8>,
    // The name of each task, between two commas.
    names: Vec<Vec<u8>>,
    tick: u32,
    // Ticks that may go on.
    open: Option<Run>,
}

impl Writer {
    fn new(tasks: &[Task]) -> Writer {
        let name = |task: &Task| [b",", &task.name[..], b","].concat();
        Writer {
            text: b"event,tick,length,task,job,how\n".to_vec(),
            names: tasks.iter().map(name).collect(),
            tick: 0,
            open: None,
        }
    }

    fn take(&mut self, run: Run) {
        match (run, &mut self.open) {
            (Run::Idles { length: more }, Some(Run::Idles { length })) => {
                *length += more;
                return;
            }
            (
                Run::Ticks {
                    task: other,
                    job: count,
                    how: How::More,
                    length: more,
                },
                Some(Run::Ticks {
                    task, job, length, ..
                }),
            ) if (other, count) == (*task, *job) => {
                *length += more;
                return;
            }
            _ => {}
        }
        self.write_open();
        match run {
            Run::Release { task, job, kept } => {
                self.text.extend_from_slice(b"release,");
                push_number(&mut self.text, self.tick);
                self.text.push(b',');
                self.text.extend_from_slice(&self.names[task]);
                push_number(&mut self.text, job);
                let word: &[u8] = if kept { b",kept\n" } else { b",dropped\n" };
                self.text.extend_from_slice(word);
            }
            Run::Ticks { how: How::More, .. } | Run::Idles { .. } => self.open = Some(run),
            Run::Ticks { task, job, how, .. } => self.write_ticks(task, job, how, 1),
        }
    }

    fn write_open(&mut self) {
        match self.open.take() {
            Some(Run::Ticks {
                task,
                job,
                how,
                length,
            }) => self.write_ticks(task, job, how, length),
            Some(Run::Idles { length }) => {
                self.text.extend_from_slice(b"idle,");
                push_number(&mut self.text, self.tick);
                self.text.push(b',');
                push_number(&mut self.text, length);
                self.text.extend_from_slice(b",,,\n");
                self.tick += length;
            }
            _ => {}
        }
    }

    fn write_ticks(&mut self, task: usize, job: u32, how: How, length: u32) {
        self.text.extend_from_slice(b"tick,");
        push_number(&mut self.text, self.tick);
        self.text.push(b',');
        push_number(&mut self.text, length);
        self.text.extend_from_slice(&self.names[task]);
        push_number(&mut self.text, job);
        self.text.extend_from_slice(match how {
            How::More => b",more\n",
            How::Done => b",done\n",
            How::Stop => b",stop\n",
            How::Over => b",over\n",
        });
        self.tick += length;
    }

    fn finish(mut self) -> Vec<u8> {
        self.write_open();
        self.text
    }
}

// ---- The chart ----

const MOST_CHARTED: u64 = 2_000_000;

fn charted(tasks: &[Task], runs: &[Run], ticks: usize) -> Vec<u8> {
    let names = tasks.iter().map(|task| &task.name[..]);
    let width = names.clone().map(<[u8]>::len).fold(6, usize::max);
    // A line has a name, a space, a letter for each tick and a line feed.
    let line = width + ticks + 2;
    let mut text = vec![b'.'; (tasks.len() + 1) * line];
    for (name, of) in names.chain([&b"(mode)"[..]]).zip(text.chunks_mut(line)) {
        of[..name.len()].copy_from_slice(name);
        of[name.len()..=width].fill(b' ');
        of[line - 1] = b'\n';
    }
    let modes = tasks.len() * line + width + 1;
    text[modes..modes + ticks].fill(b'L');
    let (mut tick, mut switched) = (0, None);
    for run in runs {
        match *run {
            Run::Release { .. } => {}
            Run::Ticks {
                task, how, length, ..
            } => {
                let mark = match how {
                    How::More => b'#',
                    How::Done => b'D',
                    How::Stop => b'S',
                    How::Over => b'O',
                };
                let from = task * line + width + 1 + tick;
                text[from..from + length as usize].fill(mark);
                tick += length as usize;
                if how == How::Over && switched.is_none() {
                    switched = Some(tick);
                }
            }
            Run::Idles { length } => {
                // The tick after which the mode is low again is the first idle one.
                if let Some(from) = switched.take() {
                    text[modes + from..=modes + tick].fill(b'H');
                }
                tick += length as usize;
            }
        }
    }
    if let Some(from) = switched {
        text[modes + from..modes + ticks].fill(b'H');
    }
    text
}

// ---- A live run ----

// Tick by tick, on one thread: each task releases as soon as it may, and each fourth job of a high task needs its high budget.
fn live(tasks: &[Task], rule: Rule, ticks: u64) -> Vec<u8> {
    let mut queue = Queue::new(tasks, rule);
    let mut notes = vec![Note::default(); tasks.len()];
    let mut writer = Writer::new(tasks);
    let mut soonest = 0;
    for now in 0..ticks {
        if now == soonest {
            soonest = u64::MAX;
            for (task, note) in notes.iter_mut().enumerate() {
                let of = &tasks[task];
                if note.next == now {
                    note.releases += 1;
                    note.next = now + of.period;
                    let (number, kept) = (note.releases, of.high || !queue.high_mode);
                    writer.take(Run::Release {
                        task,
                        job: number,
                        kept,
                    });
                    if kept {
                        let job = Job {
                            number,
                            release: now,
                            used: 0,
                            note: if of.high && number % 4 == 0 {
                                of.own
                            } else {
                                of.low
                            },
                        };
                        queue.push(task, job);
                    }
                }
                soonest = soonest.min(note.next);
            }
        }
        let Some((_, task)) = queue.least() else {
            queue.high_mode = false;
            writer.take(Run::Idles { length: 1 });
            continue;
        };
        let may_overrun = queue.may_overrun(task);
        let job = &mut queue.jobs[task][0];
        let number = job.number;
        job.used += 1;
        let how = if job.used == job.note {
            queue.end(task);
            How::Done
        } else if may_overrun && job.used == tasks[task].low {
            queue.switch();
            How::Over
        } else {
            How::More
        };
        writer.take(Run::Ticks {
            task,
            job: number,
            how,
            length: 1,
        });
    }
    writer.finish()
}

// ---- A planned run ----

// The jobs of a work file: task, release and need.
fn read_work(tasks: &[Task], text: &[u8]) -> Option<Vec<(usize, u64, u64)>> {
    let mut rest = text.strip_prefix(b"task,release,need\n")?;
    let mut names = Names::new(tasks);
    let mut next = vec![0; tasks.len()];
    let (mut work, mut last) = (Vec::new(), 0);
    while !rest.is_empty() {
        let (task, after) = names.find_in(rest)?;
        let (release, after) = number_in(after)?;
        let (line, after) = first_line(after);
        let (release, need) = (release.into(), number(line)?.into());
        if need == 0 || release < last || release < next[task] {
            return None;
        }
        next[task] = release + tasks[task].period;
        last = release;
        work.push((task, release, need));
        rest = after;
    }
    Some(work)
}

// From one release, end of a job or overrun to the next.
fn planned(tasks: &[Task], rule: Rule, work: &[(usize, u64, u64)], ticks: u64) -> Vec<u8> {
    let mut queue = Queue::new(tasks, rule);
    let mut counts = vec![0; tasks.len()];
    let mut writer = Writer::new(tasks);
    let (mut now, mut place) = (0, 0);
    while now < ticks {
        while let Some(&(task, release, need)) = work.get(place).filter(|row| row.1 == now) {
            place += 1;
            counts[task] += 1;
            let (number, kept) = (counts[task], tasks[task].high || !queue.high_mode);
            writer.take(Run::Release {
                task,
                job: number,
                kept,
            });
            if kept {
                let job = Job {
                    number,
                    release,
                    used: 0,
                    note: need,
                };
                queue.push(task, job);
            }
        }
        let next = work.get(place).map_or(ticks, |row| row.1.min(ticks));
        let Some((_, task)) = queue.least() else {
            queue.high_mode = false;
            let length = (next - now) as u32;
            writer.take(Run::Idles { length });
            now = next;
            continue;
        };
        let of = &tasks[task];
        let may_overrun = queue.may_overrun(task);
        let job = &mut queue.jobs[task][0];
        let (number, need) = (job.number, job.note);
        let own = need.min(of.own);
        let over = may_overrun && job.used < of.low && of.low < own;
        let end = if over { of.low } else { own };
        let length = (end - job.used).min(next - now);
        now += length;
        job.used += length;
        // The last tick stands alone, unless the job goes on after it.
        let is_last = job.used == end;
        let more = (length - u64::from(is_last)) as u32;
        if more > 0 {
            writer.take(Run::Ticks {
                task,
                job: number,
                how: How::More,
                length: more,
            });
        }
        if !is_last {
            continue;
        }
        let how = if over {
            queue.switch();
            How::Over
        } else {
            queue.end(task);
            if need <= of.own {
                How::Done
            } else {
                How::Stop
            }
        };
        writer.take(Run::Ticks {
            task,
            job: number,
            how,
            length: 1,
        });
    }
    writer.finish()
}

// ---- The program ----

// The status and the text.
fn answer(words: &[&str]) -> Option<(i32, Vec<u8>)> {
    let [command, tasks, rest @ ..] = words else {
        return None;
    };
    let tasks = read_tasks(&fs::read(tasks).ok()?)?;
    match (*command, rest) {
        ("check", []) => return Some((0, checked(&tasks)?)),
        ("stretch", []) => return Some((0, stretched(&tasks))),
        ("partition", [count]) => return Some((0, partitioned(&tasks, count.parse().ok()?)?)),
        _ => {}
    }
    let rule = match rest {
        [_, p, q] if *command == "judge" => Rule::Virtual {
            p: p.parse().ok()?,
            q: q.parse().ok()?,
        },
        _ => rule_of(&tasks)?,
    };
    match (*command, rest) {
        ("live", [ticks]) => Some((0, live(&tasks, rule, ticks.parse().ok()?))),
        ("run", [work, ticks]) => {
            let work = read_work(&tasks, &fs::read(work).ok()?)?;
            Some((0, planned(&tasks, rule, &work, ticks.parse().ok()?)))
        }
        (_, [trace, ..]) => traced(command, &tasks, rule, &fs::read(trace).ok()?),
        _ => None,
    }
}

// What a command on a trace answers. Each run is judged, and counted or written, when it is read.
fn traced(command: &str, tasks: &[Task], rule: Rule, trace: &[u8]) -> Option<(i32, Vec<u8>)> {
    let mut judge = Judge::new(tasks, rule);
    let mut report = Report {
        tasks,
        tallies: vec![Tally::default(); tasks.len()],
        tick: 0,
        idle: 0,
        switches: 0,
    };
    let mut writer = Writer::new(tasks);
    let mut runs = Vec::new();
    let read = match command {
        "judge" => read_trace(tasks, trace, |run| judge.take(run)),
        "report" => read_trace(tasks, trace, |run| {
            judge.take(run);
            report.take(run);
        }),
        "migrate" => read_trace(tasks, trace, |run| {
            judge.take(run);
            writer.take(run);
        }),
        "chart" => read_trace(tasks, trace, |run| {
            judge.take(run);
            runs.push(run);
        }),
        _ => return None,
    };
    if let Err((line, why)) = read {
        return Some((5, format!("trace line {line}: {why}\n").into()));
    }
    let ticks = judge.ticks;
    if let Some(text) = judge.finish() {
        return Some((6, text));
    }
    match command {
        "judge" => Some((0, b"legal late 0\n".to_vec())),
        "report" => Some((0, report.finish())),
        "migrate" => Some((0, writer.finish())),
        _ if ticks > MOST_CHARTED => None,
        _ => Some((0, charted(tasks, &runs, ticks as usize))),
    }
}

fn main() {
    let words: Vec<String> = env::args().skip(1).collect();
    let words: Vec<&str> = words.iter().map(String::as_str).collect();
    let Some((status, text)) = answer(&words) else {
        process::exit(3);
    };
    if io::stdout().write_all(&text).is_err() {
        process::exit(8);
    }
    process::exit(status);
}
