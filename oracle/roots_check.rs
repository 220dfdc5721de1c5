// The 52 lines of `roots` (document 02, #109): those of f32::sqrt, and by squares of whole numbers the nearest ones. The arguments are what
// the program printed, its recorded output, and the source with the table, of which every line `ENTRY, // n bits` is read: the entry by
// Rust's own reading of decimals, and the comment beside it.
use std::fs::read_to_string;
use std::process::exit;

const MOST: u32 = 52;

fn line(n: u32, root: f32) -> String {
    format!("{n} {:08x}", root.to_bits())
}

/// A positive f32 from 1/2 to below 8, as a whole number of units of 2^-24.
fn units(bits: u32) -> u128 {
    let (digits, exponent) = (u128::from(bits & 0x7f_ffff | 0x80_0000), bits >> 23);
    assert!((126..=129).contains(&exponent), "{bits:08x} is not from 1/2 to below 8");
    digits << (exponent - 126)
}

/// Whether √n lies between the middles to both neighbours: (x + y)² < 4n < (x + z)², all in units of 2^-24.
fn is_nearest(n: u32, bits: u32) -> bool {
    let square = |other: u32| (units(bits) + units(other)).pow(2);
    let four = u128::from(4 * n) << 48;
    square(bits - 1) < four && four < square(bits + 1)
}

/// Each line of `text` against what it is to be, and that there are no others.
fn held(name: &str, text: &str, want: &str, wrong: &mut u32) {
    let (ours, theirs): (Vec<&str>, Vec<&str>) = (text.lines().collect(), want.lines().collect());
    let differ = (0..ours.len().max(theirs.len())).filter(|&i| ours.get(i) != theirs.get(i)).collect::<Vec<_>>();
    println!("{name}: {} lines, {} differ", ours.len(), differ.len());
    if let Some(&i) = differ.first() {
        println!("  line {}: {:?}, and not {:?}", i + 1, ours.get(i), theirs.get(i));
    } else if text != want {
        println!("  the lines do not end as they should");
    }
    *wrong += (text != want) as u32;
}

fn main() {
    let files: Vec<String> = std::env::args().skip(1).map(|f| read_to_string(&f).unwrap_or_else(|e| panic!("{f}: {e}"))).collect();
    let [printed, recorded, source] = &files[..] else { panic!("what was printed, what is recorded, and the table's source") };
    let want: String = (1..=MOST).map(|n| line(n, (n as f32).sqrt()) + "\n").collect();
    let mut wrong = 0;
    held("printed", printed, &want, &mut wrong);
    held("recorded", recorded, &want, &mut wrong);
    let (mut entries, mut comments) = (String::new(), String::new());
    for (entry, comment) in source.lines().filter_map(|l| l.trim().split_once(", // ")) {
        let root: f32 = entry.parse().unwrap_or_else(|e| panic!("{entry}: {e}"));
        entries += &(line(entries.lines().count() as u32 + 1, root) + "\n");
        comments += &format!("{comment}\n");
    }
    held("the table's entries", &entries, &want, &mut wrong);
    held("the bits beside them", &comments, &want, &mut wrong);
    let far: Vec<u32> = (1..=MOST).filter(|&n| !is_nearest(n, (n as f32).sqrt().to_bits())).collect();
    println!("f32::sqrt by squares of whole numbers: {MOST} compared, {} not nearest", far.len());
    wrong += far.len() as u32;
    exit((wrong > 0) as i32);
}
