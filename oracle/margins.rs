//! Cases about a frame's margins and rows, and the Rust's answers. The form of a case is in crates/replay_margins/src/main.rt.

use crate::layout::{laid_out, record};
use crate::met::Met;
use crate::random::Random;
use crate::super_build as sb;
use crate::super_opts::SuperOpts;
use std::io::{BufWriter, Read, Write};

fn write(out: &mut impl Write, words: &[u32], frame: &[u8]) {
    for w in words { out.write_all(&w.to_le_bytes()).unwrap(); }
    out.write_all(frame).unwrap();
}

/// A frame that is long enough, or number 11.
fn framed(w: &[u32], len: usize) -> Result<SuperOpts, u32> {
    let r = laid_out(&w[..14])?;
    let (_, end) = sb::layout(&r, w[13] as usize, (w[10], w[11]));
    if len < end { Err(11) } else { Ok(r) }
}

/// Offset and length of a stored row: "19: no such level, plane or row is stored".
pub(crate) fn place(r: &SuperOpts, pitch: usize, shifts: (u32, u32), [level, plane, y]: [usize; 3]) -> Result<(usize, usize), u32> {
    let (regions, _) = sb::layout(r, pitch, shifts);
    let &(offset, width, height) = regions.get(level).ok_or(19u32)?;
    let planes = if level > 0 { 1 } else if r.full { (r.pel * r.pel) as usize } else { 0 };
    if plane >= planes || y >= height { return Err(19); }
    Ok((offset + (plane * height + y) * pitch, width))
}

fn row(w: &[u32], frame: &[u8]) -> Result<Vec<u8>, u32> {
    let r = framed(w, frame.len())?;
    let (offset, width) = place(&r, w[13] as usize, (w[10], w[11]), [w[15] as usize, w[16] as usize, w[17] as usize])?;
    Ok(frame[offset..][..width].to_vec())
}

pub fn answers() {
    let mut from = std::io::BufReader::new(std::io::stdin().lock());
    let mut out = BufWriter::new(std::io::stdout().lock());
    let mut head = [0u8; 80];
    let mut met = Met::default();
    while from.read_exact(&mut head).is_ok() {
        let w: Vec<u32> = head.chunks(4).map(|c| u32::from_le_bytes(c.try_into().unwrap())).collect();
        let mut frame = vec![0; w[14] as usize];
        from.read_exact(&mut frame).unwrap();
        if w[18] == 0 {
            let number = match framed(&w, frame.len()) {
                Ok(r) => { sb::clear(&mut frame, &r, w[13] as usize, (w[10], w[11])); 0 }
                Err(number) => number,
            };
            met.note(number);
            write(&mut out, &[number], &frame);
        } else {
            let (number, row) = match row(&w, &frame) { Ok(row) => (0, row), Err(number) => (number, vec![]) };
            met.note(number);
            write(&mut out, &[number, row.len() as u32], &row);
        }
    }
    met.tell();
}

fn garbage(rng: &mut Random, len: u32) -> Vec<u8> {
    (0..len).map(|_| 1 + rng.below(255) as u8).collect()
}

/// The least pitch of a plane.
fn least(full: bool, width: u32, x_shift: u32) -> u32 {
    (if full { width } else { 2 * (width / 4) } >> x_shift).max(1)
}

/// Every size from 1 to 64 with every shift, full or not, and pel: margins to be cleared.
/// Pitches, down values and spare lengths take turns: 16 cases to a size and 5, 7 and 3 values have no common factor, so each combination comes.
fn sizes(rng: &mut Random, out: &mut impl Write) {
    let mut turn = 0;
    for width in 1..=64 {
        for height in 1..=64 {
            for (pel, full) in SETTINGS {
                for (x, y) in [(0, 0), (0, 1), (1, 0), (1, 1)] {
                    let mut w = record(pel, full, width, height).to_vec();
                    w[2] = [4, 0, 1, 2, 3, 5, u32::MAX][turn / 5 % 7];
                    let pitch = least(full, width, x) + [0, 1, 3, 8, 16][turn % 5];
                    w.extend([x, y, 0, pitch]);
                    let end = sb::layout(&laid_out(&w).unwrap(), pitch as usize, (x, y)).1 as u32;
                    let len = end + [0, 1, 1 + rng.below(80) as u32][turn / 35 % 3];
                    w.extend([len, 0, 0, 0, 0, 0]);
                    write(out, &w, &garbage(rng, len));
                    turn += 1;
                }
            }
        }
    }
}

const SETTINGS: [(u32, bool); 4] = [(1, true), (2, true), (4, true), (1, false)];

/// `count` cases of sides 1 to 64 (the kept list: 1 to 16), with every shift, full or not, pel and down; frames exact, longer and one short; random bytes before; some with a value changed. Before them, but for the kept list, every size.
pub fn cases(seed: u64, count: u64) {
    let mut rng = Random(seed);
    let mut out = BufWriter::new(std::io::stdout().lock());
    let sides = if count <= 600 { 16 } else { 64 };
    if count > 600 { sizes(&mut rng, &mut out); }
    for k in 0..count {
        let mut side = || 1 + rng.below(sides) as u32;
        let (width, height) = (side(), side());
        let (pel, full) = rng.pick(&SETTINGS);
        let mut w = record(pel, full, width, height).to_vec();
        w[2] = rng.pick(&[4, 4, 4, 0, 2, 3, 5]);
        let (x, y) = (rng.below(2) as u32, rng.below(2) as u32);
        let pitch = least(full, width, x) + rng.pick(&[0, 0, 1, 3, 8, 16]);
        w.extend([x, y, 0, pitch]);
        let end = laid_out(&w).map_or(0, |r| sb::layout(&r, pitch as usize, (x, y)).1) as u32;
        let len = match rng.below(6) { 0 => end.saturating_sub(1), 1 | 2 => end + rng.below(81) as u32, _ => end };
        w.extend([len, rng.below(5) as u32, rng.below(u64::from(pel * pel) + 1) as u32, rng.below(u64::from(height) + 1) as u32, (k % 2) as u32, 0]);
        if rng.below(8) == 0 {
            let at = rng.pick(&[0, 1, 4, 7, 8, 9, 10, 11, 13, 15, 16, 17]);
            w[at] = rng.pick(&[0, 1, 2, 3, u32::MAX, 32_769, 1 << 31]);
            if at == 4 { w[4] &= 1; }
        }
        write(&mut out, &w, &garbage(&mut rng, len));
    }
}
