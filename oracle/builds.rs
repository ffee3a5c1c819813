//! Cases about whole builds, and the Rust's answers. The form of a case is in crates/replay_builds/src/main.rt.
//! First what answers a case; then what cases are made; last the two cubic paths beside each other.

use crate::cases::{self, LENGTHS, long, spares};
use crate::generic;
use crate::layout::laid_out;
use crate::met::Met;
use crate::random::Random;
use crate::settings::{accept, check, words_of};
use crate::super_build as sb;
use crate::super_opts::{SuperOpts, reduce_dim};
use std::io::{BufReader, BufWriter};

/// Document 01's limit on a pitch; the Rust has none.
pub(crate) const MOST_PITCH: u64 = 32_768;
const WORDS: usize = 24;
/// What crates/replay_builds can hold of source, frame, spill and scratch.
const HELD: [u32; 4] = [2_129_920, 4_194_304, 589_824, 524_800];

type Case = cases::Case<WORDS, 1>;

const SOURCE_PITCH: usize = 14;
/// Whether the fused path is off.
const GENERIC: usize = 23;

/// What a build needs: the least source pitch, and the lengths of source, frame, spill and scratch.
pub(crate) fn needs(r: &SuperOpts, w: &[u32], source_pitch: u64) -> (u64, [u64; 4]) {
    let pitch = u64::from(w[13]);
    let (width, height) = ((r.width >> w[10]) as u64, (r.height >> w[11]) as u64);
    let (_, end) = sb::layout(r, pitch as usize, (w[10], w[11]));
    let source = if width == 0 || height == 0 { 0 } else { (height - 1) * source_pitch + width };
    let spill = if !r.full && r.levels >= 2 { (reduce_dim(r.height, 1) >> w[11]) as u64 * pitch } else { 16 };
    (width.max(1), [source, end as u64, spill, 16 * (pitch + 16)])
}

/// Numbers 6 to 13, or the record.
fn judged(w: &[u32]) -> Result<SuperOpts, u32> {
    let r = laid_out(&w[..14])?;
    let source_pitch = long(w, SOURCE_PITCH);
    let (least, _) = needs(&r, w, 0);
    if source_pitch < least || source_pitch > MOST_PITCH { return Err(9); }
    let (_, lengths) = needs(&r, w, source_pitch);
    for (k, need) in lengths.into_iter().enumerate() {
        if u64::from(w[LENGTHS + k]) < need { return Err(10 + k as u32); }
    }
    Ok(r)
}

/// The number, and what the lent bytes are after the call: a finished build leaves zeros in spill and scratch, a refusal changes nothing.
fn built(c: &Case) -> (u32, [Vec<u8>; 3]) {
    let w = &c.words;
    let [mut frame, spill, scratch] = c.lent.clone();
    match judged(w) {
        Ok(r) => {
            let build = if w[GENERIC] == 0 { sb::build } else { generic::build };
            build(&mut frame, &r, w[13] as usize, (w[10], w[11]), &c.source, w[SOURCE_PITCH + 1] as usize);
            (0, [frame, vec![0; spill.len()], vec![0; scratch.len()]])
        }
        Err(number) => (number, [frame, spill, scratch]),
    }
}

fn answer(c: &Case, met: &mut Met) -> Vec<u8> {
    let (number, lent) = built(c);
    met.note(number);
    c.answer(number, &lent)
}

pub fn answers() {
    cases::answers(answer);
}

pub fn differs(file: &str) {
    cases::differs(file, answer);
}

pub fn pick(at: u64) {
    cases::pick::<WORDS, 1>(at);
}

/// What a case is made of before its bytes are; the lengths are what is needed and so much more.
struct Plan {
    record: [u32; 10],
    shifts: (u32, u32),
    /// Above the least.
    pitch: u32,
    source_pitch: u32,
    spare: [u32; 4],
}

impl Plan {
    fn case(&self) -> Case {
        let (x, y) = self.shifts;
        let (width, full) = (self.record[8], self.record[4] != 0);
        let least = (if full { width } else { reduce_dim(width as i32, 1) as u32 } >> x).max(1);
        let mut words = [0; WORDS];
        words[..10].copy_from_slice(&self.record);
        words[10..14].copy_from_slice(&[x, y, 0, least + self.pitch]);
        words[SOURCE_PITCH + 1] = (width >> x).max(1) + self.source_pitch;
        let r = laid_out(&words[..14]).unwrap();
        let (_, lengths) = needs(&r, &words, u64::from(words[SOURCE_PITCH + 1]));
        for k in 0..4 { words[LENGTHS + k] = lengths[k] as u32 + self.spare[k]; }
        words[Case::MADE] = 1;
        Case::of(words)
    }
}

/// A record that the Rust's check returns.
pub(crate) fn record(pel: i32, gpu: i32, down: i32, up: i32, full: bool, width: u32, height: u32) -> [u32; 10] {
    words_of(&check(127, &[pel as u32, gpu as u32, down as u32, up as u32, full.into(), 0, 0, 0, width, height]).unwrap())
}

/// Ten words that are no record, in place of one.
pub(crate) fn spoil_record(rng: &mut Random, w: &mut [u32]) {
    let fine = w.to_vec();
    while accept(w).is_ok() {
        w.copy_from_slice(&fine);
        let at = rng.below(10) as usize;
        w[at] = match at {
            4..7 => 1 - w[at],
            7 => rng.pick(&[w[7] + 1, w[7].wrapping_sub(1)]),
            _ => rng.pick(&[0, 1, 2, 3, 5, 16_385, u32::MAX, 1 << 31]),
        };
    }
}

/// A pitch, in two words, below the least or above the most.
pub(crate) fn spoil_pitch(rng: &mut Random, w: &mut [u32], least: u32) {
    match rng.below(4) { 0 => w[0] = 1, 1 => w[1] = 32_769, 2 => w[1] = 0, _ => w[1] = least - 1 }
}

/// A length below what is needed.
pub(crate) fn spoil_length(rng: &mut Random, need: u32) -> u32 {
    rng.pick(&[need - 1, need - 1, need / 2, 0])
}

/// A value that the number refuses, in place of one that is fine. Says no where none is: a source of which no byte is needed, a frame without levels.
fn spoil(rng: &mut Random, w: &mut [u32; WORDS], number: u32) -> bool {
    match number {
        6 => spoil_record(rng, &mut w[..10]),
        7 => w[rng.pick(&[10, 11])] = rng.pick(&[2, 3, 31, 32, u32::MAX]),
        8 | 9 => {
            let at = if number == 8 { 12 } else { SOURCE_PITCH };
            let least = if number == 9 { (w[8] >> w[10]).max(1) } else { (if w[4] != 0 { w[8] } else { reduce_dim(w[8] as i32, 1) as u32 } >> w[10]).max(1) };
            spoil_pitch(rng, &mut w[at..at + 2], least);
        }
        _ => {
            // what is needed by the values that were fine: those of lower numbers are spoilt later
            let need = needs(&laid_out(&w[..14]).unwrap(), w, long(w, SOURCE_PITCH)).1[number as usize - 10] as u32;
            if need == 0 { return false; }
            w[LENGTHS + number as usize - 10] = spoil_length(rng, need);
        }
    }
    true
}

/// Spoils the case by these numbers, the highest first. The lowest has to win.
fn spoilt(rng: &mut Random, c: &mut Case, numbers: &[u32]) -> bool {
    let mut w = c.words;
    let mut falling = numbers.to_vec();
    falling.sort_by(|a, b| b.cmp(a));
    for &number in &falling {
        if !spoil(rng, &mut w, number) { return false; }
    }
    assert_eq!(judged(&w).err(), falling.last().copied(), "{w:?}");
    c.words = w;
    true
}

/// The earlier bytes written into the case: this byte and, past the written end, that one.
fn told(c: Case, before: u8, beyond: u8) -> Case {
    let end = laid_out(&c.words[..14]).map_or(0, |r| needs(&r, &c.words, 0).1[1] as usize);
    c.told(end, before, beyond)
}

/// Sides from 1 to 40 in turn, or more of the small ones.
fn sides(rng: &mut Random, turn: u64) -> (u32, u32) {
    if turn % 2 == 0 { return (1 + (turn / 2 % 40) as u32, 1 + (turn / 80 % 40) as u32); }
    let mut side = || match rng.below(3) { 0 => 1 + rng.below(10) as u32, 1 => 4 + rng.below(16) as u32, _ => 1 + rng.below(40) as u32 };
    (side(), side())
}

fn planned(rng: &mut Random, record: [u32; 10]) -> Plan {
    let least = (if record[4] != 0 { record[8] } else { reduce_dim(record[8] as i32, 1) as u32 }).max(1);
    let pitch = match rng.below(8) {
        0..3 => 0,
        3 => 1,
        4 => rng.pick(&[2, 5]),
        5 => least.next_multiple_of(16) - least,
        6 => 16 * (1 + rng.below(4) as u32),
        _ => rng.below(100) as u32,
    };
    let source_pitch = match rng.below(4) { 0 => rng.below(40) as u32, 1 => rng.pick(&[1, 2, 3]), _ => 0 };
    Plan { record, shifts: (rng.below(2) as u32, rng.below(2) as u32), pitch, source_pitch, spare: spares(rng) }
}

/// Pel 1, each down value, full and not.
fn halving(rng: &mut Random, turn: u64) -> Plan {
    let (width, height) = if turn % 8 == 7 { (8 + rng.below(122) as u32, 8 + rng.below(122) as u32) } else { sides(rng, turn) };
    let gpu = rng.below(3) as i32;
    let r = record(1, gpu, (turn % 7) as i32 - 1, 0, rng.below(2) == 0, width, height);
    planned(rng, r)
}

/// A record of this size, with any settings that the Rust's check takes.
pub(crate) fn any_record(rng: &mut Random, width: u32, height: u32) -> [u32; 10] {
    loop {
        let values = [
            rng.pick(&[1, 2, 2, 4, 4]),
            rng.pick(&[0, 0, 0, 1, 2]),
            rng.pick(&[4, 4, 4, 3, 2, 1, 0, -1, 5, i32::MIN, i32::MAX]) as u32,
            rng.pick(&[0, 1, 2, 2, 3, -1, i32::MAX]) as u32,
            u32::from(rng.below(2) == 0),
            rng.below(2) as u32,
            u32::from(rng.below(4) == 0),
            0, width, height,
        ];
        if let Ok(r) = check(127, &values) { return words_of(&r); }
    }
}

/// Every setting.
fn whole(rng: &mut Random, turn: u64) -> Plan {
    let (width, height) = sides(rng, turn);
    let r = any_record(rng, width, height);
    planned(rng, r)
}

/// Sizes at which the fused path is taken, for one level or more, and some at which it isn't.
fn path_off(rng: &mut Random, turn: u64) -> Plan {
    let width = match turn % 4 { 0 => 16 + rng.below(32) as u32, 1 => 8 * (2 + rng.below(15) as u32), _ => 8 * (2 + rng.below(6) as u32) };
    let height = 8 + rng.below(if turn % 4 == 1 { 120 } else { 40 }) as u32;
    let pel = rng.pick(&[1, 1, 1, 2, 4]);
    let full = pel > 1 || rng.below(2) == 0;
    let r = record(pel, rng.pick(&[0, 0, 1, 2]), rng.pick(&[4, 4, 4, 4, 4, 4, 3, 5]), rng.pick(&[0, 1, 2]), full, width, height);
    let mut plan = planned(rng, r);
    if rng.below(4) != 0 { plan.shifts = (0, 0); }
    plan
}

/// A side of up to 16,384 and a small one, and usual pictures, as far as the replay holds them.
fn large(rng: &mut Random, turn: u64) -> Plan {
    loop {
        let far = rng.pick(&[16_384, 16_384, 16_383, 8_192, 4_099]);
        let near = 4 + rng.below(28) as u32;
        let (width, height) = match turn % 4 { 0 => (far, near), 1 => (near, far), 2 => (1920, 1080), _ => rng.pick(&[(1280, 720), (720, 576), (641, 361), (1920, 1080)]) };
        let pel = rng.pick(&[1, 2, 4]);
        let full = pel > 1 || rng.below(2) == 0;
        let r = record(pel, rng.pick(&[0, 0, 1, 2]), rng.pick(&[4, 4, 3, 2, 1]), rng.pick(&[0, 1, 2]), full, width, height);
        let mut plan = planned(rng, r);
        if rng.below(4) == 0 { plan.pitch = 32_768 - width; }
        let c = plan.case();
        if (0..4).all(|k| c.words[LENGTHS + k] <= HELD[k]) { return plan; }
    }
}

/// Of this pitch, and with nothing to spare.
fn plan(record: [u32; 10], shifts: (u32, u32), pitch: u32) -> Plan {
    let (width, full) = (record[8], record[4] != 0);
    let least = (if full { width } else { reduce_dim(width as i32, 1) as u32 } >> shifts.0).max(1);
    Plan { record, shifts, pitch: pitch - least, source_pitch: 0, spare: [0; 4] }
}

/// The planes of docs/TWO-PATHS.md by which builds with the fused path on and off differ, by each path.
fn differing() -> Vec<Case> {
    [(true, 16, 8, 17), (true, 24, 16, 25), (false, 32, 16, 17), (false, 48, 32, 26)].into_iter().flat_map(|(full, width, height, pitch)| {
        let mut c = plan(record(1, 1, 4, 0, full, width, height), (0, 0), pitch).case();
        let (source, frame) = if full { (0, 255) } else { (255, 0) };
        c.source = vec![source; c.words[LENGTHS] as usize];
        c.words[Case::WHOLE] = 1;
        let on = told(c, frame, frame);
        let mut off = on.clone();
        off.words[GENERIC] = 1;
        [on, off]
    }).collect()
}

/// Planes of means whose rows leave no gap, which are made at once.
fn at_once() -> Vec<Case> {
    [(2, 16, 16, 16), (2, 20, 24, 32), (2, 64, 8, 64), (4, 16, 16, 16), (4, 48, 12, 48)].into_iter()
        .map(|(pel, width, height, pitch)| plan(record(pel, 1, 4, 0, true, width, height), (0, 0), pitch).case()).collect()
}

/// Cases that went wrong in a draft or look as if they could, each with an exact frame and with 255s past its end.
fn hard() -> Vec<Case> {
    [
        plan(record(1, 1, 4, 0, false, 16, 24), (1, 0), 10),
        plan(record(4, 1, 0, 0, true, 4, 25), (1, 0), 9),
        plan(record(4, 0, 4, 2, true, 5, 11), (1, 0), 2),
        plan(record(1, 1, 4, 0, true, 15, 14), (0, 1), 26),
        plan(record(1, 1, 4, 0, false, 15, 14), (0, 1), 26),
        plan(record(4, 0, 4, 2, true, 4, 4), (0, 1), 5),
        plan(record(4, 0, 4, 0, true, 4, 4), (1, 1), 3),
        plan(record(4, 0, 4, 1, true, 4, 4), (1, 1), 3),
        plan(record(4, 0, 4, 2, true, 4, 4), (1, 1), 3),
        plan(record(2, 1, 4, 0, true, 20, 20), (0, 0), 20),
        plan(record(1, 1, 4, 0, false, 8, 8), (0, 0), 4),
        plan(record(2, 0, 4, 0, true, 17, 4), (0, 0), 17),
        plan(record(2, 0, 4, 1, true, 17, 4), (0, 0), 17),
        plan(record(2, 0, 4, 2, true, 17, 4), (0, 0), 17),
    ].into_iter().flat_map(|mut p| {
        let exact = p.case();
        p.spare[1] = 80;
        [exact, p.case()]
    }).collect()
}

const NUMBERS: std::ops::RangeInclusive<u32> = 6..=13;

/// So many of the kept cases are built with the fused path off.
const KEPT_GENERIC: u64 = 32;

/// Each number alone, and each two of them.
fn faults() -> Vec<Vec<u32>> {
    NUMBERS.flat_map(|a| NUMBERS.filter(move |&b| a <= b).map(move |b| if a == b { vec![a] } else { vec![a, b] })).collect()
}

/// Kinds: `halving`, `whole` and `generic`, some with one or two faults; `large`; `kept`, the hard cases, every two faults, small sizes of the first two kinds, then some of the third, the planes of docs/TWO-PATHS.md by both paths, and planes that are made at once.
/// Of kind `generic` the fused path is off, and half of the frames hold zeros.
pub fn cases(seed: u64, count: u64, kind: &str) {
    let mut rng = Random(seed);
    let rng = &mut rng;
    let mut out = BufWriter::new(std::io::stdout().lock());
    let faults = faults();
    if kind == "kept" {
        for (k, c) in hard().into_iter().enumerate() {
            let mut c = c.filled(rng);
            c.words[Case::WHOLE] = 1;
            if k < 2 { c.source.fill(0); }
            told(c.clone(), 0, 255).write(&mut out);
            c.write(&mut out);
        }
        for (numbers, full) in faults.iter().flat_map(|f| [(f, true), (f, false)]) {
            let mut c = planned(rng, record(1, 0, 4, 2, full, 9, 8)).case();
            assert!(spoilt(rng, &mut c, numbers));
            c.words[Case::WHOLE] = 1;
            c.filled(rng).write(&mut out);
        }
    }
    for turn in 0..count + if kind == "kept" { KEPT_GENERIC } else { 0 } {
        let off = kind == "generic" || turn >= count;
        let plan = match (kind, turn % 2) {
            ("halving", _) => halving(rng, turn),
            ("whole", _) => whole(rng, turn),
            ("large", _) => large(rng, turn),
            _ if off => path_off(rng, turn),
            // odd turns: the sizes are drawn
            ("kept", 0) => halving(rng, turn + 1),
            ("kept", _) => whole(rng, turn),
            _ => panic!("kinds: halving, whole, generic, large, kept"),
        };
        let mut c = plan.case();
        if kind != "large" && rng.below(8) == 0 { spoilt(rng, &mut c, &faults[(turn % faults.len() as u64) as usize]); }
        c.words[Case::WHOLE] = u32::from(kind != "large" && turn % 32 == 0);
        let mut c = c.filled(rng);
        if off {
            c.words[GENERIC] = 1;
            // four of eight turns, so that each of the four ways to choose a size meets both
            if turn / 4 % 2 == 0 { c.words[Case::SEED] = 0; }
        }
        let c = if kind != "large" && turn % 64 == 5 { told(c, 255, 255) } else { c };
        c.write(&mut out);
    }
    if kind == "kept" {
        for c in differing() { c.write(&mut out); }
        for mut c in at_once() {
            c.words[Case::WHOLE] = 1;
            c.filled(rng).write(&mut out);
        }
    }
}

/// What `paths` tells apart: where both paths have to leave one frame, and where builds can differ.
#[derive(Default)]
struct Sort {
    builds: u64,
    /// With a level that the fused path makes.
    fused: u64,
    others: u64,
}

/// Whether a level is fused; in a frame that is long enough its width decides.
fn fuses(r: &SuperOpts, w: &[u32]) -> bool {
    let (levels, _) = sb::layout(r, w[13] as usize, (w[10], w[11]));
    r.scale_down == 4 && levels.iter().enumerate().skip(1).any(|(l, &(_, width, _))| (r.full || l > 1) && width >= 8 && width % 4 == 0)
}

/// The Rust with its fused path on and off, over the cases on standard input: how many builds leave another frame, of each sort.
/// Fails where one does though it must not (another down; a full record in a frame of zeros), and where none does of a sort that can: then the cases show nothing.
pub fn paths() {
    const SORTS: [(&str, bool); 5] = [
        ("down isn't 4", false),
        ("down 4, full, in a frame of zeros", false),
        ("down 4, full, in a frame of other bytes", true),
        ("down 4, not full, in a frame of zeros", true),
        ("down 4, not full, in a frame of other bytes", true),
    ];
    let mut from = BufReader::new(std::io::stdin().lock());
    let mut sorts: [Sort; 5] = Default::default();
    let mut fails = false;
    let mut at = 0;
    while let Some(mut c) = Case::read(&mut from) {
        if let Ok(r) = judged(&c.words) {
            let zeros = c.lent[0].iter().all(|&b| b == 0);
            let k = if r.scale_down != 4 { 0 } else { 1 + usize::from(!zeros) + 2 * usize::from(!r.full) };
            let [on, off] = [0, 1].map(|path| { c.words[GENERIC] = path; built(&c).1 });
            sorts[k].builds += 1;
            sorts[k].fused += u64::from(fuses(&r, &c.words));
            sorts[k].others += u64::from(on != off);
            if on != off && !SORTS[k].1 {
                println!("case {at} leaves another frame: {}, {:?}", SORTS[k].0, c.words);
                fails = true;
            }
        }
        at += 1;
    }
    for (sort, (name, differ)) in sorts.iter().zip(SORTS) {
        println!("{name}: {} of {} builds leave another frame; {} have a level that the fused path makes", sort.others, sort.builds, sort.fused);
        if differ && sort.others == 0 {
            println!("none of these does: the cases don't show that such builds can differ");
            fails = true;
        }
    }
    if fails { std::process::exit(1); }
}
