// Runs all fifteen entries side by side at scale: ours through the C functions of libion.a, the Rust's through the hook, and for slips and
// the board, which the Rust has not, the second writer and reader of slip.rs and the second board of board.rs.
// Built and run by scale.sh, whose head says what can be asked.
#[path = "../board.rs"]
mod board;
#[path = "../face.rs"]
mod face;
#[path = "../inputs.rs"]
mod inputs;
#[path = "../made.rs"]
mod made;
#[path = "../noisy.rs"]
mod noisy;
#[path = "../second.rs"]
mod second;
#[path = "../slip.rs"]
mod slip;

mod boards;
mod check;
mod headers;
mod jobs;
mod noise;
mod replay;
mod rivals;
mod sending;
mod slips;
mod small;
mod soft;
mod table;
mod tracker;

use headers::Tops;
use jobs::{Job, Oracle, Progress, Tally, run};
use std::process::exit;

struct Asked {
    seed: u64,
    threads: usize,
    /// Of each job's inputs, in percent.
    share: f64,
    only: Option<String>,
    at: Option<u64>,
    plant: Option<(String, u64, usize)>,
    replay: Option<String>,
}

fn stop(why: &str) -> ! {
    eprintln!("scale: {why}\nusage: oracle/scale.sh [SEED] [--threads N] [--share PERCENT] [--only JOB [--at INDEX]] [--plant JOB:INDEX[:COMPARISON]] [--replay FOLDER]");
    exit(2)
}

fn number<T: std::str::FromStr>(name: &str, text: Option<&str>) -> T {
    text.and_then(|t| t.parse().ok()).unwrap_or_else(|| stop(&format!("{name} needs a number")))
}

fn asked() -> Asked {
    let cores = std::thread::available_parallelism().map_or(1, |n| n.get());
    let mut a = Asked { seed: 1, threads: cores, share: 100.0, only: None, at: None, plant: None, replay: None };
    let mut args = std::env::args().skip(1);
    while let Some(name) = args.next() {
        let mut next = || args.next();
        match name.as_str() {
            "--threads" => a.threads = number::<usize>(&name, next().as_deref()).max(1),
            "--share" => a.share = number(&name, next().as_deref()),
            "--only" => a.only = next(),
            "--at" => a.at = Some(number(&name, next().as_deref())),
            "--plant" => {
                let text = next().unwrap_or_default();
                let mut parts = text.split(':');
                let job = parts.next().unwrap_or_default().to_string();
                a.plant = Some((job, number(&name, parts.next()), parts.next().map_or(0, |p| number(&name, Some(p)))));
            }
            "--replay" => a.replay = Some(next().unwrap_or_else(|| stop("--replay needs a folder"))),
            word if !word.starts_with('-') => a.seed = number("the seed", Some(word)),
            _ => stop(&format!("{name} is not known")),
        }
    }
    a
}

/// One input alone, told.
fn alone(o: &Oracle, job: &Job, seed: u64, index: u64, plant: Option<usize>) -> i32 {
    let c = job.input(o, seed, index, plant);
    let t = Tally { inputs: 1, answers: c.answers, refused: c.refused, ..Tally::default() };
    println!("{} index {index} seed {seed}: answered {}; refused {}; {} comparisons of {} numbers", job.name(), table::kinds(job.kinds, &t), table::numbers(&t), c.made, c.numbers);
    if plant.is_some() && !c.turned {
        println!("  no bit was turned: it has no comparison of that number");
    }
    if let Some(why) = &c.bad {
        println!("  DIFFERS at {why}");
    }
    (c.bad.is_some() || plant.is_some()) as i32
}

/// That every comparison can fail: some inputs of a job, each again with one bit turned on our side before one comparison, which must
/// be found. Of long series some 40 comparisons are taken. Returns how many were planted and how many found.
fn planted(o: &Oracle, job: &Job, seed: u64) -> (u64, u64) {
    let (mut all, mut found) = (0, 0);
    for index in 0..((60.0 / job.cost) as u64).clamp(1, 10).min(job.inputs) {
        let made = job.input(o, seed, index, None).made;
        for p in (0..made).step_by(made.div_ceil(40).max(1)) {
            let c = job.input(o, seed, index, Some(p));
            all += 1;
            found += (c.turned && c.bad.is_some()) as u64;
        }
    }
    (all, found)
}

fn main() {
    let a = asked();
    // a panic is caught and told as a difference
    std::panic::set_hook(Box::new(|_| ()));
    let code = ion::phy_mfsk::hook::code();
    let o = Oracle { labels: inputs::labels(&code), code };
    if let Some(folder) = &a.replay {
        exit(replay::all(&o, folder, a.plant.map(|p| (p.1, p.2))));
    }
    let mut jobs: Vec<Job> = small::jobs().into_iter().chain(sending::jobs()).chain(slips::jobs()).chain(boards::jobs()).chain(noise::jobs()).chain(tracker::jobs()).chain(soft::jobs()).chain(headers::jobs()).collect();
    let names: Vec<String> = jobs.iter().map(|j| j.name()).collect();
    for name in a.only.iter().chain(a.plant.iter().map(|p| &p.0)) {
        if !names.contains(name) {
            stop(&format!("no job is named '{name}'; there are: {}", names.join(", ")));
        }
    }
    jobs.retain(|j| a.only.as_ref().is_none_or(|n| *n == j.name()));
    let plant_in = |job: &Job| a.plant.as_ref().filter(|p| p.0 == job.name()).map(|p| (p.1, p.2));
    if let Some(index) = a.at {
        let [job] = &jobs[..] else { stop("--at needs --only") };
        exit(alone(&o, job, a.seed, index, plant_in(job).filter(|p| p.0 == index).map(|p| p.1)));
    }
    jobs.iter_mut().filter(|j| j.source != "every n").for_each(|j| j.inputs = (j.inputs as f64 * a.share / 100.0).ceil() as u64);
    println!("seed {}, {} threads", a.seed, a.threads);
    let mut wrong = Vec::new();
    let mut progress = Progress::new(&jobs);
    let (mut plants, mut found) = (0, 0);
    for job in &jobs {
        let (p, f) = planted(&o, job, a.seed);
        plants += p;
        found += f;
        if p != f || p == 0 {
            wrong.push(format!("{}: {p} planted differences, {f} found", job.name()));
        }
    }
    let done: Vec<(&Job, Tally)> = jobs.iter().map(|j| (j, run(&o, j, a.seed, a.threads, plant_in(j), &mut progress))).collect();
    progress.end();
    table::print(&done);
    println!("(a tracker's inputs are series or states, random slips are put in series; their answers and refusals are calls)");
    for (job, t) in done.iter().filter(|(_, t)| t.rivals.held > 0) {
        println!("{}, {}", job.name(), t.rivals.line());
    }
    let mut tops = Tops::default();
    done.iter().for_each(|(_, t)| tops.join(&t.tops));
    if tops.passes != [0; 3] {
        println!("{}", tops.line());
    }
    if a.share >= 100.0 && a.only.is_none() && [tops.not_first, tops.not_last, tops.not_score].contains(&0) {
        wrong.push("no ceiling was met that is not the first pass's top, or not the last one's, or not the score".into());
    }
    // the counts are what they should be
    for (job, t) in &done {
        if t.inputs != job.inputs {
            wrong.push(format!("{}: {} inputs of {}", job.name(), t.inputs, job.inputs));
        }
        let told: u64 = t.answers.iter().chain(&t.refused).sum();
        let series = job.entry == "tracker" || job.name() == "slip put/random";
        if told < t.inputs || (!series && told != t.inputs && t.differ == 0) {
            wrong.push(format!("{}: {told} calls of {} inputs are told", job.name(), t.inputs));
        }
        if let Some(k) = (0..check::NUMBERS).find(|&k| t.refused[k] > 0 && !job.numbers.contains(&(k as u32))) {
            wrong.push(format!("{}: {k} is no refusal of it", job.name()));
        }
        if a.share >= 100.0 {
            if let Some(k) = job.numbers.iter().find(|&&k| t.refused[k as usize] == 0) {
                wrong.push(format!("{}: refusal {k} was never met", job.name()));
            }
            let met = |k: usize| done.iter().any(|(j, t)| j.entry == job.entry && t.answers[k] > 0);
            if let Some(k) = (0..job.kinds.len()).find(|&k| a.only.is_none() && !met(k)) {
                wrong.push(format!("{}: '{}' was never met", job.entry, job.kinds[k]));
            }
        }
        if let Some((index, why)) = &t.first {
            wrong.push(format!("{}: {} of {} inputs differ, first index {index}: {why}\n    alone: oracle/scale.sh {} --only '{}' --at {index}", job.name(), t.differ, t.inputs, a.seed, job.name()));
        }
    }
    if a.plant.is_some() && done.iter().all(|(_, t)| t.turned == 0) {
        wrong.push("no bit was turned: there is no such input, or no comparison of that number in it".into());
    }
    let sum = |f: fn(&Tally) -> u64| done.iter().map(|(_, t)| f(t)).sum::<u64>();
    println!(
        "{} inputs, {} numbers compared by their bits, {} differ; {plants} differences planted beforehand, {found} found; {:.0} s",
        table::commas(sum(|t| t.inputs)), table::commas(sum(|t| t.numbers)), sum(|t| t.differ), progress.elapsed()
    );
    for w in &wrong {
        println!("WRONG {w}");
    }
    exit(!wrong.is_empty() as i32)
}
