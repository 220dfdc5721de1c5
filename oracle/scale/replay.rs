// Recorded bursts: every file of a folder (docs/BURST-FORMAT.md), its header read and its soft values by both sides.
use crate::check::Check;
use crate::face::Header;
use crate::inputs::Dice;
use crate::jobs::Oracle;
use crate::small::header_bits;
use crate::{headers, made, soft};
use std::path::PathBuf;

fn said(c: &Check, kinds: &[&str]) -> String {
    match (c.answers.iter().position(|&n| n > 0), c.refused.iter().position(|&n| n > 0)) {
        (Some(k), _) => kinds[k].into(),
        (_, Some(k)) => format!("refused by {k}"),
        _ => "nothing".into(),
    }
}

/// The exit status: 0, 1 with a difference, 2 where there is nothing to compare.
pub fn all(o: &Oracle, folder: &str, plant: Option<(u64, usize)>) -> i32 {
    let mut files: Vec<PathBuf> = match std::fs::read_dir(folder) {
        Ok(list) => list.filter_map(|e| e.ok().map(|e| e.path())).filter(|p| p.is_file()).collect(),
        Err(e) => {
            eprintln!("scale: {folder}: {e}");
            return 2;
        }
    };
    files.sort();
    let (mut read, mut broken, mut differ) = (0u64, 0u64, 0u64);
    for (i, path) in files.iter().enumerate() {
        let name = path.file_name().unwrap_or_default().to_string_lossy();
        let b = match std::fs::read(path).map_err(|e| e.to_string()).and_then(|s| made::read(&s)) {
            Ok(b) => b,
            Err(why) => {
                println!("{name}: no burst file: {why}");
                broken += 1;
                continue;
            }
        };
        read += 1;
        let mut d = Dice(i as u64);
        let planted = |half: usize| plant.filter(|p| p.0 == i as u64 && p.1 / 100 == half).map(|p| p.1 % 100);
        let mut h = Check { plant: planted(0), ..Check::default() };
        headers::read(o, &mut h, &mut d, b.mode, b.kind, b.header_terms, Header::lengths(header_bits(b.kind)));
        let mut s = Check { plant: planted(1), ..Check::default() };
        let mut ours = soft::lent(&mut d, b.mode, b.kind, b.layout, b.symbols as u8, b.window, b.bits);
        (ours.terms, ours.blanked) = (b.data_terms, b.blanked);
        soft::values(&mut s, ours);
        println!("{name}: mode {} kind {} layout {} header {}; {} bits {}", b.mode, b.kind, b.layout, said(&h, headers::OUTCOMES), b.bits, said(&s, &["in bit form", "in symbol form", "of data"]));
        for (what, c) in [("header read", h), ("soft values", s)] {
            if let Some(why) = c.bad {
                println!("  DIFFERS, {what}: {why}");
                differ += 1;
            }
        }
    }
    println!("{read} bursts replayed, {broken} files that are none, {differ} differences");
    if differ > 0 { 1 } else if read == 0 { 2 } else { 0 }
}
