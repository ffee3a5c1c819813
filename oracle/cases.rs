//! A case that builds: its words and its bytes, as crates/frame_cases/src/lib.rt has them.
//! First what a case is, and its bytes; then the answers; last the search for the first case that differs.

use crate::met::Met;
use crate::random::Random;
use std::io::{BufReader, BufWriter, Read, Write};

/// Where the lengths stand: of the sources, then of frame, spill and scratch.
pub(crate) const LENGTHS: usize = 16;

/// A case of so many words, and so many sources.
#[derive(Clone)]
pub(crate) struct Case<const W: usize, const S: usize> {
    pub(crate) words: [u32; W],
    pub(crate) source: Vec<u8>,
    /// Frame, spill and scratch.
    pub(crate) lent: [Vec<u8>; 3],
}

/// The bytes that a seed makes.
fn made(seed: u32, lengths: [usize; 3]) -> [Vec<u8>; 3] {
    let mut x = u64::from(seed) % 0x7fff_ffff;
    lengths.map(|n| (0..n).map(|_| { x = x * 48_271 % 0x7fff_ffff; (x >> 23) as u8 }).collect())
}

impl<const W: usize, const S: usize> Case<W, S> {
    pub(crate) const FRAME: usize = LENGTHS + S;
    pub(crate) const WHOLE: usize = Self::FRAME + 3;
    pub(crate) const MADE: usize = Self::FRAME + 4;
    pub(crate) const SEED: usize = Self::FRAME + 5;

    /// Of these words, its bytes still to come.
    pub(crate) fn of(words: [u32; W]) -> Self {
        Case { words, source: vec![], lent: [vec![], vec![], vec![]] }
    }

    pub(crate) fn sources(&self) -> usize {
        self.words[LENGTHS..Self::FRAME].iter().map(|&n| n as usize).sum()
    }

    fn lengths(&self) -> [usize; 3] {
        std::array::from_fn(|k| self.words[Self::FRAME + k] as usize)
    }

    pub(crate) fn read(from: &mut impl Read) -> Option<Self> {
        let mut head = vec![0u8; 4 * W];
        from.read_exact(&mut head).ok()?;
        let mut c = Self::of(std::array::from_fn(|k| u32::from_le_bytes(head[4 * k..][..4].try_into().unwrap())));
        let mut bytes = |n: usize| { let mut b = vec![0; n]; from.read_exact(&mut b).unwrap(); b };
        c.source = bytes(c.sources());
        c.lent = if c.words[Self::MADE] == 0 { c.lengths().map(bytes) } else { made(c.words[Self::SEED], c.lengths()) };
        Some(c)
    }

    pub(crate) fn write(&self, out: &mut impl Write) {
        for w in self.words { out.write_all(&w.to_le_bytes()).unwrap(); }
        out.write_all(&self.source).unwrap();
        if self.words[Self::MADE] == 0 { for b in &self.lent { out.write_all(b).unwrap(); } }
    }

    /// The source's bytes and the earlier bytes of what is lent.
    pub(crate) fn filled(mut self, rng: &mut Random) -> Self {
        let wild = rng.below(8);
        self.source = (0..self.sources()).map(|k| match wild {
            0 => 0,
            1 => rng.pick(&[0, 255]),
            2 => rng.pick(&[0, 1, 127, 128, 254, 255]),
            3 => (7 * k) as u8,
            _ => rng.next() as u8,
        }).collect();
        self.words[Self::SEED] = if rng.below(8) == 0 { 0 } else { 1 + rng.below(0x7fff_fffe) as u32 };
        self
    }

    /// The earlier bytes written into the case: this byte and, from `end` of the frame on, that one.
    pub(crate) fn told(mut self, end: usize, before: u8, beyond: u8) -> Self {
        self.words[Self::MADE] = 0;
        self.lent = std::array::from_fn(|k| (0..self.lengths()[k]).map(|at| if k == 0 && at >= end { beyond } else { before }).collect());
        self
    }

    /// The answer to a build: the number, and what the lent bytes are after it.
    pub(crate) fn answer(&self, number: u32, lent: &[Vec<u8>; 3]) -> Vec<u8> {
        let mut out = number.to_le_bytes().to_vec();
        for b in lent { out.extend(sums(b)); }
        if self.words[Self::WHOLE] != 0 { out.extend(&lent[0]); }
        out
    }
}

fn sums(bytes: &[u8]) -> [u8; 8] {
    let sum = |m: u64| bytes.iter().fold(1u64, |h, &b| (h * m + u64::from(b)) % 4_294_967_291) as u32;
    let [a, b] = [sum(1_000_003), sum(998_244_353)].map(u32::to_le_bytes);
    [a, b].concat().try_into().unwrap()
}

/// A number of two words, the high one first.
pub(crate) fn long(w: &[u32], k: usize) -> u64 {
    u64::from(w[k]) << 32 | u64::from(w[k + 1])
}

pub(crate) fn spares<const N: usize>(rng: &mut Random) -> [u32; N] {
    std::array::from_fn(|_| match rng.below(4) { 0 => 1 + rng.below(80) as u32, 1 => rng.below(3) as u32, _ => 0 })
}

/// The answers to the cases on standard input.
pub(crate) fn answers<const W: usize, const S: usize>(answer: impl Fn(&Case<W, S>, &mut Met) -> Vec<u8>) {
    let mut from = BufReader::new(std::io::stdin().lock());
    let mut out = BufWriter::new(std::io::stdout().lock());
    let mut met = Met::default();
    while let Some(c) = Case::read(&mut from) {
        out.write_all(&answer(&c, &mut met)).unwrap();
    }
    met.tell();
}

/// The number and the case of the first answer in the file that isn't the Rust's, of the cases on standard input; with it the first byte of the frame that differs, if the case asks for the frame.
pub(crate) fn differs<const W: usize, const S: usize>(file: &str, answer: impl Fn(&Case<W, S>, &mut Met) -> Vec<u8>) {
    let mut from = BufReader::new(std::io::stdin().lock());
    let mut theirs = BufReader::new(std::fs::File::open(file).unwrap());
    let mut at = 0;
    while let Some(c) = Case::read(&mut from) {
        let want = answer(&c, &mut Met::default());
        let mut got = Vec::new();
        (&mut theirs).take(want.len() as u64).read_to_end(&mut got).unwrap();
        if want != got {
            let first = (0..want.len()).find(|&k| got.get(k) != Some(&want[k])).unwrap();
            println!("case {at}: {:?}", c.words);
            println!("byte {first} of the answer (4 of the number, 8 each of the sums of frame, spill and scratch, then the frame, if it is asked for; of three planes, then the parts and the row's place): {} and not {:?}", want[first], got.get(first));
            return;
        }
        at += 1;
    }
    println!("all {at} answers are the Rust's");
}

/// Case number `at` of those on standard input, now with the whole frame asked for.
pub(crate) fn pick<const W: usize, const S: usize>(at: u64) {
    let mut from = BufReader::new(std::io::stdin().lock());
    for _ in 0..at { Case::<W, S>::read(&mut from).unwrap(); }
    let mut c = Case::<W, S>::read(&mut from).unwrap();
    c.words[Case::<W, S>::WHOLE] = 1;
    c.write(&mut std::io::stdout().lock());
}
