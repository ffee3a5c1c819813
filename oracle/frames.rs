//! Cases about frames of three planes, and the Rust's answers. The form of a case is in crates/replay_frames/src/main.rt.
//! First what answers a case: the numbers, the build, the parts and the row; then what cases are made.

use crate::builds::{MOST_PITCH, any_record, needs, record, spoil_length, spoil_pitch, spoil_record};
use crate::cases::{self, LENGTHS, long, spares};
use crate::margins::place;
use crate::met::Met;
use crate::portable::{self, SuperBuilder};
use crate::random::Random;
use crate::settings::{accept, check, words_of};
use crate::super_build as sb;
use crate::super_opts::SuperOpts;
use std::io::BufWriter;

const WORDS: usize = 29;
const PITCHES: usize = 10;
/// Part, level, plane and number of the row asked for.
const ROW: usize = 25;
/// What crates/replay_frames can hold of the sources together, and of frame, spill and scratch.
const HELD: [u32; 4] = [2_424_832, 4_718_592, 4_096, 262_656];
/// Of Y, U and V.
const SHIFTS: [(u32, u32); 3] = [(0, 0), (1, 1), (1, 1)];

type Case = cases::Case<WORDS, 3>;

fn pitch(r: &SuperOpts, part: usize) -> usize {
    r.width as usize >> SHIFTS[part].0
}

/// What a build of one of the planes needs, as `needs` of builds has it.
fn plane_needs(r: &SuperOpts, part: usize, source_pitch: u64) -> (u64, [u64; 4]) {
    let (x, y) = SHIFTS[part];
    let layout = [&words_of(r)[..], &[x, y, 0, pitch(r, part) as u32]].concat();
    needs(r, &layout, source_pitch)
}

/// The lengths that a build needs: of Y, U and V, the frame, spill and scratch. Spill and scratch are lent for one plane after the other, and Y needs the most.
fn lengths(r: &SuperOpts, w: &[u32]) -> [u64; 6] {
    let [y, u, v] = [0, 1, 2].map(|part| plane_needs(r, part, long(w, PITCHES + 2 * part)).1);
    [y[0], u[0], v[0], y[1] + u[1] + v[1], y[2], y[3]]
}

/// Numbers 6, 23 and 24, or the record.
fn taken(w: &[u32]) -> Result<SuperOpts, u32> {
    let r = accept(&w[..10])?;
    if r.width < 2 || r.height < 2 { return Err(23); }
    if r.full { Ok(r) } else { Err(24) }
}

/// The numbers of a build in document 02's order, or the record.
fn judged(w: &[u32]) -> Result<SuperOpts, u32> {
    let r = taken(w)?;
    for part in 0..3 {
        let pitch = long(w, PITCHES + 2 * part);
        if pitch < plane_needs(&r, part, 0).0 || pitch > MOST_PITCH { return Err(9); }
    }
    for (k, need) in lengths(&r, w).into_iter().enumerate() {
        if u64::from(w[LENGTHS + k]) < need { return Err([10, 10, 10, 11, 12, 13][k]); }
    }
    Ok(r)
}

/// The Rust's own builder of three planes, where it takes the record. With no level its frame is of zeros at full size, where none is written here.
fn builder(r: &SuperOpts) -> Option<SuperBuilder> {
    let builder = portable::builder(r);
    assert_eq!(builder.is_some(), r.width % 2 == 0 && r.height % 2 == 0 && !r.lean, "{:?}", words_of(r));
    let builder = builder.filter(|_| r.levels > 0)?;
    assert_eq!(words_of(&portable::record(&builder)), words_of(r));
    Some(builder)
}

/// Where the parts of a frame end.
fn ends(r: &SuperOpts) -> [usize; 3] {
    let mut end = 0;
    [0, 1, 2].map(|part| { end += sb::layout(r, pitch(r, part), SHIFTS[part]).1; end })
}

/// Each plane built by itself, in bytes of its own.
fn plane_by_plane(c: &Case, r: &SuperOpts) -> Vec<u8> {
    let ends = ends(r);
    let mut frame = c.lent[0].clone();
    let mut from = 0;
    for part in 0..3 {
        let source = &c.source[from..][..c.words[LENGTHS + part] as usize];
        from += source.len();
        let start = if part == 0 { 0 } else { ends[part - 1] };
        sb::build(&mut frame[start..ends[part]], r, pitch(r, part), SHIFTS[part], source, long(&c.words, PITCHES + 2 * part) as usize);
    }
    frame
}

/// The frame of the Rust's own builder, where it takes the record and what is lent: sources that are the picture and no more, in a frame of zeros.
fn joined(c: &Case, r: &SuperOpts) -> Option<Vec<u8>> {
    let builder = builder(r)?;
    let end = ends(r)[2];
    let exact = (0..3).all(|part| {
        let pitch = long(&c.words, PITCHES + 2 * part);
        pitch == self::pitch(r, part) as u64 && u64::from(c.words[LENGTHS + part]) == plane_needs(r, part, pitch).1[0]
    });
    if !exact || c.lent[0][..end].iter().any(|&b| b != 0) { return None; }
    let bytes = builder.build(&c.source).unwrap().bytes();
    assert_eq!(bytes.len(), end, "{:?}", c.words);
    Some([&bytes, &c.lent[0][end..]].concat())
}

/// The number, and what the lent bytes are after the call: a finished build leaves zeros in spill and scratch, a refusal changes nothing.
fn built(c: &Case, met: &mut Met) -> (u32, [Vec<u8>; 3]) {
    let r = match judged(&c.words) { Ok(r) => r, Err(number) => return (number, c.lent.clone()) };
    let mut frame = plane_by_plane(c, &r);
    if let Some(joined) = joined(c, &r) {
        assert!(joined == frame, "the Rust's builder and its planes one by one differ: {:?}", c.words);
        met.note_of("joined_", 0);
        frame = joined;
    }
    let zeros = |k: usize| vec![0; c.lent[k].len()];
    (0, [frame, zeros(1), zeros(2)])
}

/// Start, pitch and length of each part, the frame's length, and the needs of spill and scratch.
fn parts(r: &SuperOpts) -> [u64; 12] {
    let mut pitches = [0, 1, 2].map(|part| pitch(r, part));
    let mut told = [0, 1, 2].map(|part| sb::layout(r, pitches[part], SHIFTS[part]).1);
    // a frame of zeros is enough to see them, but not where it would be of gigabytes
    if let Some(builder) = builder(r).filter(|b| b.output_len() <= HELD[1] as usize) {
        let frame = builder.build(&vec![0; builder.source_len()]).unwrap();
        let theirs = (portable::pitches(&frame), frame.planes().map(<[u8]>::len));
        assert_eq!(theirs, (pitches, told), "{:?}", words_of(r));
        (pitches, told) = theirs;
    }
    let mut numbers = [0; 12];
    let mut start = 0;
    for part in 0..3 {
        numbers[3 * part..][..3].copy_from_slice(&[start, pitches[part], told[part]].map(|n| n as u64));
        start += told[part];
    }
    numbers[9] = start as u64;
    let (_, needs) = plane_needs(r, 0, 0);
    numbers[10..].copy_from_slice(&needs[2..]);
    numbers
}

/// Offset and length of the row asked for.
fn row(w: &[u32]) -> Result<[u64; 2], u32> {
    let r = taken(w)?;
    let ends = ends(&r);
    if (w[Case::FRAME] as usize) < ends[2] { return Err(11); }
    let part = w[ROW] as usize;
    if part > 2 { return Err(19); }
    let (offset, length) = place(&r, pitch(&r, part), SHIFTS[part], [1, 2, 3].map(|k| w[ROW + k] as usize))?;
    let start = if part == 0 { 0 } else { ends[part - 1] };
    Ok([start + offset, length].map(|n| n as u64))
}

/// A number and, where it is 0, those that are told with it, two words each.
fn put(out: &mut Vec<u8>, told: Result<&[u64], u32>) -> u32 {
    let (number, numbers) = match told { Ok(numbers) => (0, numbers), Err(number) => (number, &[][..]) };
    out.extend(number.to_le_bytes());
    for n in numbers {
        out.extend(((n >> 32) as u32).to_le_bytes());
        out.extend((*n as u32).to_le_bytes());
    }
    number
}

fn answer(c: &Case, met: &mut Met) -> Vec<u8> {
    let (number, lent) = built(c, met);
    met.note(number);
    let mut out = c.answer(number, &lent);
    let parts = taken(&c.words).map(|r| parts(&r));
    met.note_of("parts_", put(&mut out, parts.as_ref().map(|p| &p[..]).map_err(|&number| number)));
    let row = row(&c.words);
    met.note_of("row_", put(&mut out, row.as_ref().map(|p| &p[..]).map_err(|&number| number)));
    out
}

pub fn answers() {
    cases::answers(answer);
}

pub fn differs(file: &str) {
    cases::differs(file, answer);
}

pub fn pick(at: u64) {
    cases::pick::<WORDS, 3>(at);
}

/// What a case is made of before its bytes are; the lengths are what is needed and so much more.
struct Plan {
    record: [u32; 10],
    /// Above the least.
    source_pitches: [u32; 3],
    spare: [u32; 6],
}

impl Plan {
    fn case(&self) -> Case {
        let mut words = [0; WORDS];
        words[..10].copy_from_slice(&self.record);
        let r = taken(&words).unwrap();
        for part in 0..3 { words[PITCHES + 2 * part + 1] = pitch(&r, part) as u32 + self.source_pitches[part]; }
        for (k, need) in lengths(&r, &words).into_iter().enumerate() { words[LENGTHS + k] = need as u32 + self.spare[k]; }
        words[Case::MADE] = 1;
        Case::of(words)
    }
}

/// Sources that are the picture and no more.
fn exact(record: [u32; 10]) -> Plan {
    Plan { record, source_pitches: [0; 3], spare: [0; 6] }
}

fn planned(rng: &mut Random, record: [u32; 10]) -> Plan {
    let source_pitches = std::array::from_fn(|_| match rng.below(4) { 0 => rng.below(40) as u32, 1 => rng.pick(&[1, 2, 3]), _ => 0 });
    Plan { record, source_pitches, spare: spares(rng) }
}

/// A full record of any other settings.
fn full(rng: &mut Random, width: u32, height: u32) -> [u32; 10] {
    loop {
        let r = any_record(rng, width, height);
        if r[4] != 0 { return r; }
    }
}

/// The same record but for some of its values, as the check settles it.
fn settled(w: &mut [u32], change: &[(usize, u32)]) {
    for &(at, value) in change { w[at] = value; }
    let r = words_of(&check(127, &w[..10]).unwrap());
    w[..10].copy_from_slice(&r);
}

/// The numbers of a build, in the order in which they are looked for.
const NUMBERS: [u32; 8] = [6, 23, 24, 9, 10, 11, 12, 13];

/// A value that the number refuses, in place of one that is fine. Says no where none is: a frame without levels.
fn spoil(rng: &mut Random, w: &mut [u32; WORDS], number: u32) -> bool {
    match number {
        6 => spoil_record(rng, &mut w[..10]),
        23 => settled(w, &[(rng.pick(&[8, 9]), 1)]),
        24 => settled(w, &[(0, 1), (4, 0), (6, 0)]),
        9 => {
            let part = rng.below(3) as usize;
            let at = PITCHES + 2 * part;
            let least = w[8] >> SHIFTS[part].0;
            spoil_pitch(rng, &mut w[at..at + 2], least);
        }
        _ => {
            let at = if number == 10 { rng.below(3) as usize } else { number as usize - 8 };
            // what is needed by the values that were fine: those of numbers before are spoilt later
            let need = lengths(&taken(w).unwrap(), w)[at] as u32;
            if need == 0 { return false; }
            w[LENGTHS + at] = spoil_length(rng, need);
        }
    }
    true
}

/// Spoils the case by these numbers, which are in the order of `NUMBERS`, the last first. The first has to win.
fn spoilt(rng: &mut Random, c: &mut Case, numbers: &[u32]) -> bool {
    let mut w = c.words;
    for &number in numbers.iter().rev() {
        if !spoil(rng, &mut w, number) { return false; }
    }
    assert_eq!(judged(&w).err(), numbers.first().copied(), "{w:?}");
    c.words = w;
    true
}

/// Each number alone, each two and each three of them.
fn faults() -> Vec<Vec<u32>> {
    (1u32..256).filter(|set| set.count_ones() <= 3).map(|set| (0..8).filter(|k| set >> k & 1 != 0).map(|k| NUMBERS[k]).collect()).collect()
}

/// A row that is stored, or one that is just outside, or far.
fn ask_row(rng: &mut Random, c: &mut Case) {
    let w = &mut c.words;
    let Ok(r) = taken(w) else { return };
    let part = rng.below(3) as usize;
    let (regions, _) = sb::layout(&r, pitch(&r, part), SHIFTS[part]);
    let level = rng.below(r.levels.max(1) as u64) as usize;
    let planes = if level == 0 { (r.pel * r.pel) as u32 } else { 1 };
    let height = regions.get(level).map_or(1, |g| g.2) as u32;
    w[ROW..].copy_from_slice(&[part as u32, level as u32, rng.below(planes.into()) as u32, rng.below(height.into()) as u32]);
    let last = [2, r.levels as u32 - u32::from(r.levels > 0), planes - 1, height - 1];
    let at = rng.below(4) as usize;
    match rng.below(8) {
        0 => w[ROW + at] = last[at] + 1,
        1 => w[ROW + at] = rng.pick(&[last[at] + 2, 1 << 31, u32::MAX]),
        2 => w[ROW + 3] = height - 1,
        _ => (),
    }
}

/// Mostly small sides, odd and even; some of 2 and 3, of which no level is stored, and some that are wide.
fn sides(rng: &mut Random) -> (u32, u32) {
    let mut side = |most: u64| 2 + rng.below(most - 1) as u32;
    match side(17) {
        2 => (side(3), side(40)),
        3 => (side(40), side(3)),
        4 => (side(400), side(60)),
        5..8 => (side(100), side(100)),
        _ => (side(40), side(40)),
    }
}

/// Every setting; a third of them are pictures that the Rust's own builder takes as they are, but for lean ones. Says whether the frame is to hold zeros.
fn whole(rng: &mut Random) -> (Case, bool) {
    let (width, height) = sides(rng);
    let plain = rng.below(3) == 0;
    let (width, height) = if plain { (width & !1, height & !1) } else { (width, height) };
    let mut record = full(rng, width, height);
    if rng.below(16) == 0 { settled(&mut record, &[(0, rng.pick(&[1, 2])), (1, 1), (2, 4), (3, 0), (6, 1)]); }
    let mut plan = planned(rng, record);
    if plain { plan = Plan { spare: [0, 0, 0, plan.spare[3], plan.spare[4], plan.spare[5]], ..exact(record) }; }
    (plan.case(), plain)
}

/// What a caller who hand-writes three calls mixes up: lengths or pitches of U and V exchanged, or the luma pitch passed for V.
fn mixed(rng: &mut Random, c: &mut Case) {
    let w = &mut c.words;
    match rng.below(3) {
        0 => w.swap(LENGTHS + 1, LENGTHS + 2),
        1 => w.swap(PITCHES + 3, PITCHES + 5),
        _ => w[PITCHES + 5] = w[PITCHES + 1],
    }
}

/// A record of any size with nothing lent: its parts are told all the same, and they needn't fit 32 bits.
fn far(rng: &mut Random) -> Case {
    let mut side = || match rng.below(4) { 0 => 16_384, 1 => 16_383, _ => 2 + rng.below(16_383) as u32 };
    let (width, height) = (side(), side());
    let mut words = [0; WORDS];
    words[..10].copy_from_slice(&full(rng, width, height));
    for part in 0..3 { words[PITCHES + 2 * part + 1] = width; }
    words[Case::MADE] = 1;
    Case::of(words)
}

/// A side of up to 16,384 and a small one, and usual pictures, as far as the replay holds them.
fn large(rng: &mut Random, turn: u64) -> (Case, bool) {
    loop {
        let wide = rng.pick(&[16_384, 16_384, 16_383, 8_192, 4_099]);
        let near = 4 + rng.below(20) as u32;
        let (width, height) = match turn % 4 { 0 => (wide, near), 1 => (near, wide), 2 => (1440, 1080), _ => rng.pick(&[(1280, 720), (720, 576), (641, 361), (640, 360)]) };
        let r = record(rng.pick(&[1, 2, 4]), rng.pick(&[0, 0, 1, 2]), rng.pick(&[4, 4, 3, 2, 1]), rng.pick(&[0, 1, 2]), true, width, height);
        let plain = rng.below(2) == 0;
        let c = if plain { exact(r) } else { planned(rng, r) }.case();
        let w = &c.words[LENGTHS..];
        if w[0] + w[1] + w[2] <= HELD[0] && (1..4).all(|k| w[2 + k] <= HELD[k]) { return (c, plain); }
    }
}

/// Pictures at which something shows first: with planes that aren't cut apart, 4x4 at pel 4, in byte 262, which is U's; no level, and sides that are odd.
fn hard() -> Vec<[u32; 10]> {
    [(4, 0, 2, 4, 4), (4, 0, 1, 4, 4), (4, 0, 0, 4, 4), (4, 1, 0, 4, 4), (2, 0, 2, 4, 4), (1, 1, 0, 2, 2), (2, 1, 0, 3, 2), (4, 0, 2, 3, 3), (4, 0, 2, 5, 7), (2, 0, 1, 17, 9), (1, 1, 0, 33, 31), (2, 1, 0, 40, 24)].into_iter()
        .map(|(pel, gpu, up, width, height)| record(pel, gpu, 4, up, true, width, height)).collect()
}

/// So many bytes of sources a kept case has at most.
const KEPT_SOURCES: usize = 1_500;

/// Kinds: `whole`, some with up to three faults or a mix-up of U and V, and some of any size with nothing lent; `sizes`, every size from 2 to 40 in turn, from zeros; `large`; `kept`, the hard pictures, every fault, and small ones of the first kind.
pub fn cases(seed: u64, count: u64, kind: &str) {
    let mut rng = Random(seed);
    let rng = &mut rng;
    let mut out = BufWriter::new(std::io::stdout().lock());
    let faults = faults();
    if kind == "kept" {
        for record in hard() {
            let mut c = exact(record).case().filled(rng);
            c.words[Case::WHOLE] = 1;
            c.words[Case::SEED] = 0;
            ask_row(rng, &mut c);
            c.write(&mut out);
            let mut c = Plan { spare: [0, 0, 0, 80, 3, 3], ..exact(record) }.case().filled(rng);
            c.words[Case::WHOLE] = 1;
            let end = ends(&taken(&c.words).unwrap())[2];
            c.told(end, 7, 255).write(&mut out);
        }
        for numbers in &faults {
            let record = full(rng, 9, 8);
            let mut c = planned(rng, record).case();
            ask_row(rng, &mut c);
            assert!(spoilt(rng, &mut c, numbers));
            c.words[Case::WHOLE] = u32::from(numbers.len() == 1);
            c.filled(rng).write(&mut out);
        }
    }
    for turn in 0..count {
        let (mut c, zeros) = match kind {
            "whole" if turn % 64 == 9 => (far(rng), false),
            "whole" => whole(rng),
            "sizes" => (exact(full(rng, 2 + (turn % 39) as u32, 2 + (turn / 39 % 39) as u32)).case(), true),
            "large" => large(rng, turn),
            "kept" if turn % 16 == 9 => (far(rng), false),
            "kept" => loop {
                let (c, zeros) = whole(rng);
                if c.sources() < KEPT_SOURCES { break (c, zeros); }
            },
            _ => panic!("kinds: whole, sizes, large, kept"),
        };
        ask_row(rng, &mut c);
        if matches!(kind, "whole" | "kept") && c.sources() > 0 {
            match rng.below(24) {
                0..3 => _ = spoilt(rng, &mut c, &faults[(turn % faults.len() as u64) as usize]),
                3 => mixed(rng, &mut c),
                _ => (),
            }
        }
        c.words[Case::WHOLE] = u32::from(kind != "large" && turn % 32 == 0);
        let mut c = c.filled(rng);
        if zeros { c.words[Case::SEED] = 0; }
        c.write(&mut out);
    }
}
