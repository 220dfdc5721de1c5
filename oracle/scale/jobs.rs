// A job is one entry with one source of inputs, drawn by their index: the same seed, job and index give the same input whatever the threads.
use crate::check::{Check, KINDS, NUMBERS};
use crate::headers::Tops;
use crate::inputs::Dice;
use crate::rivals::Rivals;
use ion::fec::conv::ConvCode;
use ion::phy_mfsk::hook::air;
use std::io::{IsTerminal, Write};
use std::panic::{AssertUnwindSafe, catch_unwind};
use std::sync::Mutex;
use std::sync::atomic::{AtomicU64, Ordering::Relaxed};
use std::time::{Duration, Instant};

/// What the Rust needs to have made once.
pub struct Oracle {
    pub code: ConvCode,
    /// Its labels, which are lent to ours.
    pub labels: Vec<u16>,
}

pub struct Job {
    pub entry: &'static str,
    pub source: &'static str,
    pub inputs: u64,
    /// The names of the kinds of answers, in the order of `Check::answers`; each must be met by one of the entry's jobs in a whole run.
    pub kinds: &'static [&'static str],
    /// The refusals that must be met in a whole run, and the only ones that may.
    pub numbers: &'static [u32],
    /// About what an input costs both sides, in milliseconds, for the time left.
    pub cost: f64,
    /// Draws the input of an index and compares.
    pub one: fn(&Oracle, &mut Dice, u64, &mut Check),
}

impl Job {
    pub fn name(&self) -> String {
        format!("{}/{}", self.entry, self.source)
    }
    pub fn dice(&self, seed: u64, index: u64) -> Dice {
        let own = self.name().bytes().fold(seed, |h, b| air::mix64(h ^ b as u64));
        Dice(air::mix64(own ^ air::mix64(index)))
    }
    /// One input; a panic on either side is a difference.
    pub fn input(&self, o: &Oracle, seed: u64, index: u64, plant: Option<usize>) -> Check {
        let mut c = Check { plant, ..Check::default() };
        if let Err(e) = catch_unwind(AssertUnwindSafe(|| (self.one)(o, &mut self.dice(seed, index), index, &mut c))) {
            let said = e.downcast_ref::<String>().cloned().or(e.downcast_ref::<&str>().map(|s| s.to_string()));
            c.bad = Some(format!("panicked: {}", said.unwrap_or_default()));
        }
        c
    }
}

#[derive(Default, Clone)]
pub struct Tally {
    pub inputs: u64,
    pub answers: [u64; KINDS],
    pub refused: [u64; NUMBERS],
    pub numbers: u64,
    /// Bits turned on our side.
    pub turned: u64,
    /// Inputs with a difference, and the one of the lowest index.
    pub differ: u64,
    pub first: Option<(u64, String)>,
    pub rivals: Rivals,
    pub tops: Tops,
}

impl Tally {
    fn add(&mut self, index: u64, c: Check) {
        self.inputs += 1;
        (0..KINDS).for_each(|k| self.answers[k] += c.answers[k]);
        (0..NUMBERS).for_each(|k| self.refused[k] += c.refused[k]);
        self.numbers += c.numbers;
        self.turned += c.turned as u64;
        self.rivals.join(&c.rivals);
        self.tops.join(&c.tops);
        if let Some(why) = c.bad {
            self.differ += 1;
            if self.first.as_ref().is_none_or(|f| index < f.0) {
                self.first = Some((index, why));
            }
        }
    }
    pub fn join(&mut self, o: Tally) {
        self.inputs += o.inputs;
        (0..KINDS).for_each(|k| self.answers[k] += o.answers[k]);
        (0..NUMBERS).for_each(|k| self.refused[k] += o.refused[k]);
        self.numbers += o.numbers;
        self.turned += o.turned;
        self.differ += o.differ;
        self.rivals.join(&o.rivals);
        self.tops.join(&o.tops);
        if let Some(f) = o.first {
            if self.first.as_ref().is_none_or(|g| f.0 < g.0) {
                self.first = Some(f);
            }
        }
    }
}

/// The line on standard error: overwritten on a terminal, else a new one every ten seconds.
pub struct Progress {
    begun: Instant,
    said: Option<Instant>,
    all: f64,
    before: f64,
}

fn minutes(s: f64) -> String {
    format!("{}:{:02}", s as u64 / 60, s as u64 % 60)
}

impl Progress {
    pub fn new(jobs: &[Job]) -> Self {
        Progress { begun: Instant::now(), said: None, all: jobs.iter().map(|j| j.cost * j.inputs as f64).sum(), before: 0.0 }
    }
    pub fn elapsed(&self) -> f64 {
        self.begun.elapsed().as_secs_f64()
    }
    fn say(&mut self, job: &Job, done: u64, threads: usize) {
        let overwrite = std::io::stderr().is_terminal();
        if self.said.is_some_and(|t| t.elapsed() < Duration::from_millis(if overwrite { 300 } else { 10_000 })) {
            return;
        }
        self.said = Some(Instant::now());
        let (past, share) = (self.elapsed(), (self.before + job.cost * done as f64) / self.all);
        // the jobs' own costs until a tenth is done, from then on the pace so far
        let left = if share < 0.1 { self.all * (1.0 - share) / 1e3 / threads as f64 } else { past / share * (1.0 - share) };
        let line = format!("{:3.0} %, {} past, about {} left: {} {done} of {}", 100.0 * share, minutes(past), minutes(left), job.name(), job.inputs);
        if overwrite {
            eprint!("\r{line:<78}");
        } else {
            eprintln!("{line}");
        }
        let _ = std::io::stderr().flush();
    }
    fn after(&mut self, job: &Job) {
        self.before += job.cost * job.inputs as f64;
    }
    pub fn end(&self) {
        if std::io::stderr().is_terminal() {
            eprint!("\r{:78}\r", "");
        }
    }
}

/// Every input of a job, by as many threads; `plant` is the index and the comparison in it.
pub fn run(o: &Oracle, job: &Job, seed: u64, threads: usize, plant: Option<(u64, usize)>, progress: &mut Progress) -> Tally {
    let (next, done) = (AtomicU64::new(0), AtomicU64::new(0));
    let sum = Mutex::new(Tally::default());
    let chunk = (1.0 / job.cost).clamp(1.0, 500.0) as u64;
    std::thread::scope(|s| {
        let workers: Vec<_> = (0..threads)
            .map(|_| {
                s.spawn(|| {
                    let mut own = Tally::default();
                    loop {
                        let from = next.fetch_add(chunk, Relaxed);
                        if from >= job.inputs {
                            break;
                        }
                        let to = (from + chunk).min(job.inputs);
                        for i in from..to {
                            own.add(i, job.input(o, seed, i, plant.filter(|p| p.0 == i).map(|p| p.1)));
                        }
                        done.fetch_add(to - from, Relaxed);
                    }
                    sum.lock().unwrap().join(own);
                })
            })
            .collect();
        while !workers.iter().all(|w| w.is_finished()) {
            progress.say(job, done.load(Relaxed), threads);
            std::thread::sleep(Duration::from_millis(5));
        }
    });
    progress.after(job);
    sum.into_inner().unwrap()
}
