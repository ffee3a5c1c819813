//! Cases about settings, and the Rust's answers. The form of a line is in crates/replay_settings/src/main.rt.

use crate::params::Value;
use crate::random::Random;
use crate::super_opts::SuperOpts;
use std::io::{BufRead, BufWriter, Write};

const RECORD: u32 = 256;
/// Document 01's limit on a side; the Rust has none.
const MOST_SIDE: i32 = 16_384;
const WILD: [i32; 10] = [0, -1, 5, 7, 100, -100, i32::MAX, i32::MIN, i32::MAX - 1, i32::MIN + 1];
const SIDES: [i32; 22] = [1, 2, 3, 4, 5, 7, 8, 15, 16, 17, 31, 48, 64, 100, 1080, 1920, 16_383, 16_384, 16_385, 65_535, 65_536, 65_537];

/// The ten values of a record, as words.
pub fn words_of(r: &SuperOpts) -> [u32; 10] {
    [
        r.pel as u32, r.gpu as u32, r.scale_down as u32, r.scale_up as u32,
        r.full.into(), r.rc.into(), r.lean.into(), r.levels as u32, r.width as u32, r.height as u32,
    ]
}

pub fn print(out: &mut impl Write, words: &[u32]) {
    let text: Vec<String> = words.iter().map(|w| format!("{w:08x}")).collect();
    writeln!(out, "{}", text.join(" ")).unwrap();
}

/// The check on the settings that `has` names, and document 01's number.
pub fn check(has: u32, w: &[u32]) -> Result<SuperOpts, u32> {
    let number = |k: usize| Value::Number(f64::from(w[k] as i32));
    let flag = |k: usize| Value::Bool(w[k] != 0);
    let mut top = Vec::new();
    let mut scale = Vec::new();
    if has & 1 != 0 { top.push(("pel".to_owned(), number(0))); }
    if has & 2 != 0 { top.push(("gpu".to_owned(), number(1))); }
    if has & 4 != 0 { scale.push(("down".to_owned(), number(2))); }
    if has & 8 != 0 { scale.push(("up".to_owned(), number(3))); }
    if !scale.is_empty() { top.push(("scale".to_owned(), Value::Object(scale))); }
    if has & 16 != 0 { top.push(("full".to_owned(), flag(4))); }
    if has & 32 != 0 { top.push(("rc".to_owned(), flag(5))); }
    if has & 64 != 0 { top.push(("lean".to_owned(), flag(6))); }
    let options = Value::Object(top);
    let (width, height) = (w[8] as i32, w[9] as i32);
    let r = SuperOpts::from_opt((has != 0).then_some(&options), width, height).map_err(|said| match said.as_str() {
        s if s.contains("pel has to be") => 1u32,
        s if s.contains("gpu has to be") => 2,
        s if s.contains("finest level with high pel") => 3,
        s if s.contains("lean needs") => 4,
        s => panic!("a message that no number stands for: {s}"),
    })?;
    let side = |n: i32| (1..=MOST_SIDE).contains(&n);
    if side(width) && side(height) { Ok(r) } else { Err(5) }
}

/// A record is accepted if the check returns it for its own settings and size.
pub fn accept(w: &[u32]) -> Result<SuperOpts, u32> {
    match check(127, w) {
        Ok(r) if words_of(&r)[..] == *w => Ok(r),
        _ => Err(6),
    }
}

/// A case: settings to be checked, or a record to be tested.
pub fn answer(w: &[u32]) -> Result<SuperOpts, u32> {
    if w[0] == RECORD { accept(&w[1..]) } else { check(w[0], &w[1..]) }
}

pub fn answers() {
    let mut out = BufWriter::new(std::io::stdout().lock());
    for line in std::io::stdin().lock().lines() {
        let w: Vec<u32> = line.unwrap().split(' ').map(|x| u32::from_str_radix(x, 16).unwrap()).collect();
        let mut answer = vec![0u32; 18];
        match self::answer(&w) {
            Ok(r) => {
                answer[1..11].copy_from_slice(&words_of(&r));
                let word = r.pack_data() as u64;
                answer[12] = (word >> 32) as u32;
                answer[13] = word as u32;
                answer[15] = r.super_height() as u32;
                answer[17] = r.super_width() as u32;
            }
            Err(number) => {
                answer[0] = number;
                // what the zeros of a refused record give
                for k in [11, 14, 16] { answer[k] = 6; }
            }
        }
        print(&mut out, &answer);
    }
}

/// All combinations of present and absent; each value near its limits, or wild; sides likewise.
pub fn cases(seed: u64, count: u64) {
    let mut rng = Random(seed);
    let mut out = BufWriter::new(std::io::stdout().lock());
    for k in 0..count {
        let mut w = [0u32; 11];
        w[0] = (k % 128) as u32;
        let wild = rng.below(4) == 0;
        let mut value = |usual: &[i32]| -> u32 {
            if wild && rng.below(3) == 0 { (if rng.below(2) == 0 { rng.pick(&WILD) } else { rng.next() as i32 }) as u32 } else { rng.pick(usual) as u32 }
        };
        w[1] = value(&[1, 2, 4]);
        w[2] = value(&[0, 1, 2]);
        w[3] = value(&[0, 1, 2, 3, 4, 4, 4, 5]);
        w[4] = value(&[0, 0, 1, 2, 3]);
        let side = |rng: &mut Random| -> u32 {
            match rng.below(if wild { 5 } else { 3 }) {
                0 => rng.pick(&SIDES) as u32,
                1 => 1 + rng.below(80) as u32,
                2 => 1 + rng.below(16_384) as u32,
                3 => rng.pick(&WILD) as u32,
                _ => rng.next() as u32,
            }
        };
        w[9] = side(&mut rng);
        w[10] = side(&mut rng);
        for f in 5..8 { w[f] = rng.below(2) as u32; }
        if k % 5 == 4 { record(&mut rng, &mut w); }
        print(&mut out, &w);
    }
}

/// A record case: one that the check returned, and in half of them one value changed.
fn record(rng: &mut Random, w: &mut [u32; 11]) {
    if let Ok(r) = check(w[0], &w[1..]) {
        w[1..].copy_from_slice(&words_of(&r));
    } else {
        w[8] = rng.below(14) as u32;
    }
    w[0] = RECORD;
    if rng.below(2) == 0 {
        let k = 1 + rng.below(10) as usize;
        w[k] = if (5..8).contains(&k) { 1 - w[k] } else { [w[k].wrapping_add(1), w[k].wrapping_sub(1), 0, rng.next() as u32][rng.below(4) as usize] };
    }
}
