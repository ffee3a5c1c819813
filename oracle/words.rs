//! Cases about words: each word's accepted records are found by brute force, with the Rust's own check and `pack_data`.
//! A line is a word of 16 hexadecimal digits; an answer is the line that document 01 prints for it.

use crate::random::Random;
use crate::settings::{answer, check, words_of};
use crate::super_opts::SuperOpts;
use std::collections::{BTreeSet, HashMap};
use std::io::{BufRead, BufWriter, Write};

/// One value of each filter, the neighbours of the named ones among them.
const DOWNS: [i32; 7] = [-1, 0, 1, 2, 3, 4, 5];
const UPS: [i32; 5] = [-1, 0, 1, 2, 3];

fn halving(down: i32) -> i32 {
    match down {
        0 | 1 => 1,
        2..=4 => down,
        _ => 0,
    }
}

fn upscale(up: i32) -> i32 {
    match up {
        0 | 1 => up,
        _ => 2,
    }
}

/// Every accepted record of a size, over all settings, by the word that the Rust packs it to.
fn records(width: u32, height: u32) -> HashMap<u64, Vec<SuperOpts>> {
    let mut found: HashMap<u64, Vec<SuperOpts>> = HashMap::new();
    for pel in [1, 2, 4] {
        for gpu in [0, 1, 2] {
            for down in DOWNS {
                for up in UPS {
                    for flags in 0..8u32 {
                        let w = [pel, gpu, down as u32, up as u32, flags & 1, flags >> 1 & 1, flags >> 2, 0, width, height];
                        if let Ok(r) = check(127, &w) {
                            let of = found.entry(r.pack_data() as u64).or_default();
                            if !of.iter().any(|q| words_of(q) == words_of(&r)) { of.push(r); }
                        }
                    }
                }
            }
        }
    }
    found
}

/// The line that document 01 prints for a word with these records.
fn line(word: u64, of: &[SuperOpts]) -> String {
    let Some(r) = of.first() else { return format!("{word:016x} 20") };
    let down_matters = r.levels >= 2;
    let up_matters = r.pel > 1 && r.gpu < 2 && r.full && r.levels >= 1;
    if down_matters && of.iter().any(|q| halving(q.scale_down) != halving(r.scale_down)) {
        return format!("{word:016x} 21");
    }
    if up_matters && of.iter().any(|q| upscale(q.scale_up) != upscale(r.scale_up)) {
        return format!("{word:016x} 22");
    }
    for q in of {
        let (a, b) = (words_of(r), words_of(q));
        assert!(a[..2] == b[..2] && a[4..] == b[4..], "records with one word differ in what it holds");
    }
    let told = |matters: bool, n: i32| if matters { n.to_string() } else { "-".to_owned() };
    format!(
        "{word:016x} 0 {} {} {} {} {} {} {} {} {} {}",
        r.width, r.height, r.pel, r.levels, r.gpu, u8::from(r.full), u8::from(r.rc), u8::from(r.lean),
        told(down_matters, r.scale_down), told(up_matters, r.scale_up),
    )
}

pub fn answers() {
    let mut out = BufWriter::new(std::io::stdout().lock());
    let mut size = (0, 0);
    let mut found = HashMap::new();
    for text in std::io::stdin().lock().lines() {
        let word = u64::from_str_radix(&text.unwrap(), 16).unwrap();
        let of = ((word >> 16) as u16, word as u16);
        if of != size {
            size = of;
            found = records(of.0.into(), of.1.into());
        }
        writeln!(out, "{}", line(word, found.get(&word).map_or(&[][..], |v| v))).unwrap();
    }
}

/// For settings cases: what is printed for each word that the Rust packs, among the records that differ from the packed one in their filters.
pub fn packed() {
    let mut lines = BTreeSet::new();
    for text in std::io::stdin().lock().lines() {
        let w: Vec<u32> = text.unwrap().split(' ').map(|x| u32::from_str_radix(x, 16).unwrap()).collect();
        let Ok(r) = answer(&w) else { continue };
        let word = r.pack_data() as u64;
        let mut of = vec![r];
        for down in DOWNS {
            for up in UPS {
                let mut other = words_of(&r);
                (other[2], other[3]) = (down as u32, up as u32);
                of.extend(check(127, &other).into_iter().filter(|q| q.pack_data() as u64 == word));
            }
        }
        lines.insert(line(word, &of));
    }
    for l in lines { println!("{l}"); }
}

/// Words of random accepted records of any size, and half of them with a bit or a field changed.
pub fn cases(seed: u64, count: u64) {
    let mut rng = Random(seed);
    let mut out = BufWriter::new(std::io::stdout().lock());
    for k in 0..count {
        let mut side = || 1 + rng.below(if k % 3 == 0 { 16_384 } else { 40 }) as u32;
        let (width, height) = (side(), side());
        let words: BTreeSet<u64> = records(width, height).into_keys().collect();
        let mut word = *words.iter().nth(rng.below(words.len() as u64) as usize).unwrap();
        if k % 2 == 1 {
            word ^= match rng.below(3) {
                0 => 1 << rng.below(64),
                1 => 1 << (32 + rng.below(32)),
                _ => (1 + rng.below(63)) << 40,
            };
        }
        writeln!(out, "{word:016x}").unwrap();
    }
}

/// Every word that an accepted record of sides 1 to 24 packs to, and each with the next level count.
pub fn all() {
    let mut out = BufWriter::new(std::io::stdout().lock());
    for width in 1..=24 {
        for height in 1..=24 {
            let words: BTreeSet<u64> = records(width, height).into_keys().collect();
            for word in words {
                writeln!(out, "{word:016x}\n{:016x}", word + (1 << 40)).unwrap();
            }
        }
    }
}
