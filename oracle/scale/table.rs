// The table on standard output: a line for each entry, and below it one for each source of inputs.
use crate::check::NUMBERS;
use crate::jobs::{Job, Tally};

/// With a comma at every third place.
pub fn commas(n: u64) -> String {
    let s = n.to_string();
    s.bytes().enumerate().fold(String::new(), |mut out, (i, b)| {
        if i > 0 && (s.len() - i) % 3 == 0 {
            out.push(',');
        }
        out.push(b as char);
        out
    })
}

pub fn kinds(names: &[&str], t: &Tally) -> String {
    let parts: Vec<String> = names.iter().zip(t.answers).filter(|(_, n)| *n > 0).map(|(k, n)| format!("{k}: {}", commas(n))).collect();
    if parts.is_empty() { "-".into() } else { parts.join(", ") }
}

pub fn numbers(t: &Tally) -> String {
    let parts: Vec<String> = (0..NUMBERS).filter(|&k| t.refused[k] > 0).map(|k| format!("{k}: {}", commas(t.refused[k]))).collect();
    if parts.is_empty() { "-".into() } else { parts.join(", ") }
}

pub fn print(done: &[(&Job, Tally)]) {
    let mut rows = vec![["entry".to_string(), "inputs".into(), "answers by kind".into(), "refused by number".into(), "differ".into()]];
    let row = |name: String, names: &[&str], t: &Tally| [name, commas(t.inputs), kinds(names, t), numbers(t), commas(t.differ)];
    for (i, (job, t)) in done.iter().enumerate() {
        if i == 0 || done[i - 1].0.entry != job.entry {
            let own: Vec<_> = done.iter().filter(|(j, _)| j.entry == job.entry).collect();
            let names = own.iter().map(|(j, _)| j.kinds).max_by_key(|k| k.len()).unwrap_or(&[]);
            let mut sum = Tally::default();
            own.iter().for_each(|(_, t)| sum.join(t.clone()));
            rows.push(row(job.entry.into(), names, &sum));
        }
        rows.push(row(format!("  {}", job.source), job.kinds, t));
    }
    let wide = |c: usize| rows.iter().map(|r| r[c].chars().count()).max().unwrap_or(0);
    let (a, b, c, d) = (wide(0), wide(1), wide(2), wide(3));
    for r in &rows {
        println!("{:a$}  {:>b$}  {:c$}  {:d$}  {:>6}", r[0], r[1], r[2], r[3], r[4]);
    }
}
