//! Cases about layouts, and the Rust's answers. The form of a line is in crates/replay_layout/src/main.rt.

use crate::met::Met;
use crate::random::Random;
use crate::settings::{accept, check, print, words_of};
use crate::super_build as sb;
use crate::super_opts::{SuperOpts, reduce_dim};
use std::io::{BufRead, BufWriter, Write};

/// Document 01's limits on shifts and pitches; the Rust has none.
const MOST_SHIFT: u32 = 1;
const MOST_PITCH: u64 = 32_768;
const LEVELS: usize = 13;

/// Numbers 6 to 8, or the record.
pub fn laid_out(w: &[u32]) -> Result<SuperOpts, u32> {
    let r = accept(&w[..10])?;
    let (x, y, pitch) = (w[10], w[11], u64::from(w[12]) << 32 | u64::from(w[13]));
    if x > MOST_SHIFT || y > MOST_SHIFT { return Err(7); }
    let least = if r.full { r.width } else { reduce_dim(r.width, 1) } as u64 >> x;
    if pitch < least.max(1) || pitch > MOST_PITCH { return Err(8); }
    Ok(r)
}

pub fn answers() {
    let mut out = BufWriter::new(std::io::stdout().lock());
    let mut met = Met::default();
    for line in std::io::stdin().lock().lines() {
        let w: Vec<u32> = line.unwrap().split(' ').map(|x| u32::from_str_radix(x, 16).unwrap()).collect();
        let mut answer = vec![0u32; 2 + 4 * LEVELS + 3];
        match laid_out(&w) {
            Ok(r) => {
                let (regions, end) = sb::layout(&r, w[13] as usize, (w[10], w[11]));
                answer[1] = regions.len() as u32;
                for (k, (offset, width, height)) in regions.into_iter().enumerate() {
                    answer[2 + 4 * k..][..4].copy_from_slice(&[(offset as u64 >> 32) as u32, offset as u32, width as u32, height as u32]);
                }
                answer[54..].copy_from_slice(&[0, (end as u64 >> 32) as u32, end as u32]);
            }
            Err(number) => (answer[0], answer[54]) = (number, number),
        }
        met.note(answer[0]);
        print(&mut out, &answer);
    }
    met.tell();
}

/// A record of these settings.
pub fn record(pel: u32, full: bool, width: u32, height: u32) -> [u32; 10] {
    words_of(&check(127, &[pel, 1, 4, 0, full.into(), 0, 0, 0, width, height]).unwrap())
}

/// Every size from 1 to 64 with every shift, full or not, and pel, at the least pitch, one below it, and a wide one (the kept list: sizes 1 to 6, the pitches in turn); then `count` of any size, some with a value changed.
pub fn cases(seed: u64, count: u64) {
    let mut rng = Random(seed);
    let mut out = BufWriter::new(std::io::stdout().lock());
    let sides = if count == 0 { 6 } else { 64 };
    for width in 1..=sides {
        for height in 1..=sides {
            for (pel, full) in [(1, true), (2, true), (4, true), (1, false)] {
                for shifts in 0..4 {
                    let r = record(pel, full, width, height);
                    let least = (if full { width } else { reduce_dim(width as i32, 1) as u32 } >> (shifts & 1)).max(1);
                    let pitches = [least, least - 1, least + 13];
                    let turn = (width + height + shifts) as usize % 3;
                    for pitch in if count == 0 { &pitches[turn..=turn] } else { &pitches[..] } {
                        print(&mut out, &[&r[..], &[shifts & 1, shifts >> 1, 0, *pitch]].concat());
                    }
                }
            }
        }
    }
    for _ in 0..count {
        let mut side = || 1 + rng.below(16_384) as u32;
        let (width, height) = (side(), side());
        let (pel, full) = rng.pick(&[(1, true), (2, true), (4, true), (1, false)]);
        let mut w = [&record(pel, full, width, height)[..], &[rng.below(2) as u32, rng.below(2) as u32, 0, rng.below(33_000) as u32]].concat();
        if rng.below(4) == 0 {
            let k = rng.below(14) as usize;
            w[k] = if (4..7).contains(&k) { 1 - w[k] } else { rng.pick(&[0, 1, 2, 3, u32::MAX, 32_768, 32_769, 1 << 31]) };
        }
        print(&mut out, &w);
    }
}
