//! The library from Rust: a safe wrapper and a small program over it. scripts/library compiles and runs it; by hand:
//!     rustc --edition 2024 examples/rust/sillcandle.rs -L target/staticlib -o out/sillcandle
//! In a program of your own: `#[path = "examples/rust/sillcandle.rs"] #[allow(dead_code)] mod sillcandle;`: what is private stays so.
//! Three calls aren't wrapped: sill_accepted, since a `Record` is accepted; sill_super_sizes and sill_clear_margins, which no build needs.
//! In order: the calls; refusals; settings, `Record` and its longhand; `Word` and what it tells; `Layout` and `Plane`; `Parts` and `Frame`, of three planes; the program.
//! The wrapper holds what the header asks of a caller: counts are the slices' own, and what is written overlaps nothing.

use std::error::Error;
use std::fmt;

mod sill {
    #[link(name = "sillcandle", kind = "static")]
    unsafe extern "C" {
        pub fn sill_check(given: u32, pel: i32, gpu: i32, down: i32, up: i32, full: i32, rc: i32, lean: i32, width: i32, height: i32, record: *mut i32, count: usize) -> u32;
        pub fn sill_pack_data(record: *const i32, count: usize, word: *mut u64, word_count: usize) -> u32;
        pub fn sill_read_word(word: u64, told: *mut i32, told_count: usize) -> u32;
        pub fn sill_prepare_alike(a: u64, b: u64) -> u32;
        pub fn sill_longhand_write(record: *const i32, count: usize, bytes: *mut u8, bytes_count: usize) -> u32;
        pub fn sill_longhand_read(bytes: *const u8, bytes_count: usize, record: *mut i32, count: usize, after: *mut usize, after_count: usize) -> u32;
        pub fn sill_layout(record: *const i32, count: usize, x_shift: u32, y_shift: u32, pitch: usize, layout: *mut usize, layout_count: usize) -> u32;
        pub fn sill_layout_change(record: *const i32, count: usize, layout: *mut usize, layout_count: usize, x_shift: u32, y_shift: u32, pitch: usize) -> u32;
        pub fn sill_written_end(record: *const i32, count: usize, layout: *const usize, layout_count: usize, end: *mut usize, end_count: usize) -> u32;
        pub fn sill_needs(record: *const i32, count: usize, layout: *const usize, layout_count: usize, needs: *mut usize, needs_count: usize) -> u32;
        pub fn sill_row(frame_length: usize, record: *const i32, count: usize, layout: *const usize, layout_count: usize, level: u32, plane: usize, y: usize, place: *mut usize, place_count: usize) -> u32;
        pub fn sill_level_plane(frame_length: usize, record: *const i32, count: usize, layout: *const usize, layout_count: usize, level: u32, plane: usize, place: *mut usize, place_count: usize) -> u32;
        pub fn sill_build_plane(frame: *mut u8, frame_count: usize, spill: *mut u8, spill_count: usize, scratch: *mut u8, scratch_count: usize, record: *const i32, count: usize, layout: *const usize, layout_count: usize, src: *const u8, src_count: usize, src_pitch: usize) -> u32;
        pub fn sill_frame_parts(record: *const i32, count: usize, parts: *mut usize, parts_count: usize) -> u32;
        pub fn sill_frame_row(frame_length: usize, record: *const i32, count: usize, part: u32, level: u32, plane: usize, y: usize, place: *mut usize, place_count: usize) -> u32;
        pub fn sill_build_frame(frame: *mut u8, frame_count: usize, spill: *mut u8, spill_count: usize, scratch: *mut u8, scratch_count: usize, record: *const i32, count: usize, y: *const u8, y_count: usize, y_pitch: usize, u: *const u8, u_count: usize, u_pitch: usize, v: *const u8, v_count: usize, v_pitch: usize) -> u32;
    }
}

/// Each line is a number, a name and a sentence of the header; scripts/library holds them to it.
macro_rules! refusals {
    ($($number:literal $name:ident $sentence:literal)*) => {
        /// Why a call gave nothing, by the numbers and names of the header.
        #[derive(Clone, Copy, Debug, PartialEq, Eq)]
        pub enum Refused {
            $(#[doc = $sentence] $name = $number,)*
        }

        fn done(number: u32) -> Result<(), Refused> {
            match number {
                0 => Ok(()),
                $($number => Err(Refused::$name),)*
                _ => unreachable!("no call of the library gives {number}"),
            }
        }

        impl fmt::Display for Refused {
            fn fmt(&self, f: &mut fmt::Formatter) -> fmt::Result {
                let sentence = match self {
                    $(Self::$name => $sentence,)*
                };
                write!(f, "refused, {}: {sentence}", *self as u32)
            }
        }
    };
}

refusals! {
    1 BadPel "pel isn't 1, 2 or 4"
    2 BadGpu "gpu isn't 0, 1 or 2"
    3 BadFull "pel 2 or 4, and not full"
    4 BadLean "lean, and pel above 2, gpu not 1, not full or down not 4"
    5 BadSize "width or height outside 1 to 16,384"
    6 NoRecord "a record handed in is no accepted record"
    7 BadShift "a shift above 1"
    8 BadPitch "pitch below max(1, least) or above 32,768; least is level 0's width if full, else level 1's"
    9 BadSourcePitch "source pitch below max(1, level 0's width) or above 32,768"
    10 BadSource "source shorter than (h - 1) * source pitch + w; 0 bytes suffice if w or h is 0"
    11 BadFrame "frame shorter than the written end"
    12 BadSpill "spill shorter than its need"
    13 BadScratch "scratch shorter than 16 * (pitch + 16)"
    14 BadLevels "packing: more than 63 levels"
    15 NoRoom "a slice lent for the answer is shorter than the answer; longhand: the bytes end before the length field or the record does"
    16 NoKind "longhand: the kind isn't known"
    17 BadLength "longhand: length isn't the kind's, or is below 2"
    18 BadContents "longhand: contents aren't an accepted record, or a spare flag is set"
    19 NoRow "no such level, plane or row is stored"
    20 NoCode "the word is no code"
    21 NoDown "halving filter isn't told"
    22 NoUp "upscale filter isn't told"
    23 NoChroma "three planes: width or height is below 2"
    24 NotFull "three planes: the record isn't full"
    32 BadLayout "the layout isn't the one that its record gives"
}

impl Error for Refused {}

/// Settings, each present or absent.
#[derive(Clone, Copy, Default)]
pub struct Settings {
    pub pel: Option<i32>,
    pub gpu: Option<i32>,
    pub down: Option<i32>,
    pub up: Option<i32>,
    pub full: Option<bool>,
    pub rc: Option<bool>,
    pub lean: Option<bool>,
}

/// A record that the check gave, or that was read back.
#[derive(Clone, Copy, Debug, PartialEq, Eq)]
pub struct Record([i32; 10]);

/// What a record has. None is made from it: only the check and a longhand give a record.
#[derive(Clone, Copy, Debug, PartialEq, Eq)]
pub struct Fields {
    pub pel: i32,
    pub gpu: i32,
    pub down: i32,
    pub up: i32,
    pub full: bool,
    pub rc: bool,
    pub lean: bool,
    pub levels: i32,
    pub width: i32,
    pub height: i32,
}

/// What stands at the front of some bytes, and the place after it.
#[derive(Clone, Copy, Debug, PartialEq, Eq)]
pub enum Longhand {
    Record { record: Record, after: usize },
    /// A kind that isn't known: here `NoKind` is no refusal, since a reader can go on after it.
    Unknown { after: usize },
}

impl Record {
    pub fn check(s: Settings, width: i32, height: i32) -> Result<Self, Refused> {
        let flag = |f: Option<bool>| f.map(i32::from);
        let all = [s.pel, s.gpu, s.down, s.up, flag(s.full), flag(s.rc), flag(s.lean)];
        let given = all.iter().enumerate().map(|(k, v)| u32::from(v.is_some()) << k).sum();
        let [pel, gpu, down, up, full, rc, lean] = all.map(Option::unwrap_or_default);
        let mut record = [0; 10];
        // SAFETY: the pointer and the count are the array's.
        done(unsafe { sill::sill_check(given, pel, gpu, down, up, full, rc, lean, width, height, record.as_mut_ptr(), record.len()) })?;
        Ok(Self(record))
    }

    pub fn fields(&self) -> Fields {
        let [pel, gpu, down, up, full, rc, lean, levels, width, height] = self.0;
        Fields { pel, gpu, down, up, full: full != 0, rc: rc != 0, lean: lean != 0, levels, width, height }
    }

    pub fn word(&self) -> Result<Word, Refused> {
        let mut word = 0;
        // SAFETY: a record of ten, and one number lent for the answer.
        done(unsafe { sill::sill_pack_data(self.0.as_ptr(), self.0.len(), &mut word, 1) })?;
        Ok(Word(word))
    }

    pub fn longhand(&self) -> Result<[u8; 21], Refused> {
        let mut bytes = [0; 21];
        // SAFETY: a record of ten, and 21 bytes lent for the answer.
        done(unsafe { sill::sill_longhand_write(self.0.as_ptr(), self.0.len(), bytes.as_mut_ptr(), bytes.len()) })?;
        Ok(bytes)
    }

    pub fn read_longhand(bytes: &[u8]) -> Result<Longhand, Refused> {
        let (mut record, mut after) = ([0; 10], 0);
        // SAFETY: the bytes' own count, and ten numbers and one lent for the answers.
        let number = unsafe { sill::sill_longhand_read(bytes.as_ptr(), bytes.len(), record.as_mut_ptr(), record.len(), &mut after, 1) };
        match done(number) {
            Ok(()) => Ok(Longhand::Record { record: Self(record), after }),
            Err(Refused::NoKind) => Ok(Longhand::Unknown { after }),
            Err(why) => Err(why),
        }
    }
}

/// A word, as a report stores it.
#[derive(Clone, Copy, Debug, PartialEq, Eq)]
pub struct Word(pub u64);

/// What a word tells of the one build that it names. A filter that has no part in the build is `None`.
#[derive(Clone, Copy, Debug, PartialEq, Eq)]
pub struct Description {
    pub width: i32,
    pub height: i32,
    pub pel: i32,
    pub levels: i32,
    pub gpu: i32,
    pub full: bool,
    pub rc: bool,
    pub lean: bool,
    pub down: Option<i32>,
    pub up: Option<i32>,
}

impl Word {
    /// `NoCode`, `NoDown` or `NoUp` where it doesn't name one build.
    pub fn read(self) -> Result<Description, Refused> {
        let mut told = [0; 12];
        // SAFETY: twelve numbers lent for the answer.
        done(unsafe { sill::sill_read_word(self.0, told.as_mut_ptr(), told.len()) })?;
        let [width, height, pel, levels, gpu, full, rc, lean, down_matters, down, up_matters, up] = told;
        let filter = |matters, value| (matters != 0).then_some(value);
        Ok(Description { width, height, pel, levels, gpu, full: full != 0, rc: rc != 0, lean: lean != 0, down: filter(down_matters, down), up: filter(up_matters, up) })
    }

    /// Whether both name one build and agree in all bits but those of rc and lean.
    pub fn prepares_alike(self, other: Self) -> bool {
        // SAFETY: nothing is lent.
        unsafe { sill::sill_prepare_alike(self.0, other.0) == 1 }
    }
}

impl fmt::Display for Word {
    fn fmt(&self, f: &mut fmt::Formatter) -> fmt::Result {
        write!(f, "{:016x}", self.0)
    }
}

/// A plane's layout, made once and kept. Only a record makes or changes one, so its numbers are always some record's; with another
/// record than its own it is `BadLayout`, unless that gives the same numbers.
#[derive(Clone, Copy, Debug, PartialEq, Eq)]
pub struct Layout([usize; 43]);

/// Where a level lies: each of its planes takes height * pitch bytes, one after another from the offset on. Of a record that isn't full
/// nothing of level 0 is stored.
#[derive(Clone, Copy, Debug, PartialEq, Eq)]
pub struct Region {
    pub offset: usize,
    pub width: usize,
    pub height: usize,
}

impl Layout {
    pub fn levels(&self) -> usize {
        self.0[0]
    }

    /// Across and down, each 0 or 1.
    pub fn shifts(&self) -> (u32, u32) {
        (self.0[1] as u32, self.0[2] as u32)
    }

    pub fn pitch(&self) -> usize {
        self.0[3]
    }

    /// `None` past the last level.
    pub fn region(&self, level: usize) -> Option<Region> {
        self.regions().nth(level)
    }

    pub fn regions(&self) -> impl Iterator<Item = Region> + '_ {
        self.0[4..].chunks_exact(3).take(self.levels()).map(|of| Region { offset: of[0], width: of[1], height: of[2] })
    }
}

/// A frame that a build has finished, and what it was built by.
pub struct Plane {
    record: Record,
    layout: Layout,
    pub frame: Vec<u8>,
}

impl Record {
    pub fn layout(&self, shifts: (u32, u32), pitch: usize) -> Result<Layout, Refused> {
        let (r, mut l) = (&self.0, [0; 43]);
        // SAFETY: a record of ten, and 43 numbers lent for the answer.
        done(unsafe { sill::sill_layout(r.as_ptr(), r.len(), shifts.0, shifts.1, pitch, l.as_mut_ptr(), l.len()) })?;
        Ok(Layout(l))
    }

    /// The layout becomes the one of these shifts and this pitch; it stays as it was where that is refused.
    pub fn change_layout(&self, layout: &mut Layout, shifts: (u32, u32), pitch: usize) -> Result<(), Refused> {
        let (r, l) = (&self.0, &mut layout.0);
        // SAFETY: a record of ten, and a layout of 43, which is borrowed for this call alone.
        done(unsafe { sill::sill_layout_change(r.as_ptr(), r.len(), l.as_mut_ptr(), l.len(), shifts.0, shifts.1, pitch) })
    }

    pub fn written_end(&self, layout: &Layout) -> Result<usize, Refused> {
        let (r, l, mut end) = (&self.0, &layout.0, 0);
        // SAFETY: a record of ten, a layout of 43, and one number lent for the answer.
        done(unsafe { sill::sill_written_end(r.as_ptr(), r.len(), l.as_ptr(), l.len(), &mut end, 1) })?;
        Ok(end)
    }

    /// Bytes of spill and of scratch.
    pub fn needs(&self, layout: &Layout) -> Result<[usize; 2], Refused> {
        let (r, l, mut needs) = (&self.0, &layout.0, [0; 2]);
        // SAFETY: a record of ten, a layout of 43, and two numbers lent for the answer.
        done(unsafe { sill::sill_needs(r.as_ptr(), r.len(), l.as_ptr(), l.len(), needs.as_mut_ptr(), needs.len()) })?;
        Ok(needs)
    }

    /// Builds in a frame of zeros, with spill and scratch of its own.
    pub fn build_plane(&self, layout: &Layout, src: &[u8], src_pitch: usize) -> Result<Plane, Refused> {
        let mut frame = vec![0; self.written_end(layout)?];
        let [mut spill, mut scratch] = self.needs(layout)?.map(|n| vec![0u8; n]);
        let (r, l) = (&self.0, &layout.0);
        // SAFETY: each pointer goes with its own slice's count; the vectors are new, so nothing overlaps.
        done(unsafe {
            sill::sill_build_plane(
                frame.as_mut_ptr(), frame.len(), spill.as_mut_ptr(), spill.len(), scratch.as_mut_ptr(), scratch.len(),
                r.as_ptr(), r.len(), l.as_ptr(), l.len(), src.as_ptr(), src.len(), src_pitch,
            )
        })?;
        Ok(self.plane(layout, frame))
    }

    /// A frame that was built before, as one read from a file. Whether it is long enough is told where a row is asked for.
    pub fn plane(&self, layout: &Layout, frame: Vec<u8>) -> Plane {
        Plane { record: *self, layout: *layout, frame }
    }
}

impl Plane {
    pub fn layout(&self) -> &Layout {
        &self.layout
    }

    /// For a row now and then: record and layout are tested each time. For many, `level_plane`.
    pub fn row(&self, level: u32, plane: usize, y: usize) -> Result<&[u8], Refused> {
        let (r, l, mut place) = (&self.record.0, &self.layout.0, [0; 2]);
        // SAFETY: a record of ten, a layout of 43, and two numbers lent for the answer.
        done(unsafe { sill::sill_row(self.frame.len(), r.as_ptr(), r.len(), l.as_ptr(), l.len(), level, plane, y, place.as_mut_ptr(), place.len()) })?;
        let [offset, length] = place;
        Ok(&self.frame[offset..][..length])
    }

    pub fn level_plane(&self, level: u32, plane: usize) -> Result<LevelPlane<'_>, Refused> {
        let (r, l, mut place) = (&self.record.0, &self.layout.0, [0; 4]);
        // SAFETY: a record of ten, a layout of 43, and four numbers lent for the answer.
        done(unsafe { sill::sill_level_plane(self.frame.len(), r.as_ptr(), r.len(), l.as_ptr(), l.len(), level, plane, place.as_mut_ptr(), place.len()) })?;
        let [start, width, height, pitch] = place;
        Ok(LevelPlane { bytes: &self.frame[start..][..height * pitch], width, height, pitch })
    }
}

/// One plane of a level, whole: rows of `width` bytes that begin `pitch` bytes apart.
#[derive(Clone, Copy)]
pub struct LevelPlane<'a> {
    pub bytes: &'a [u8],
    pub width: usize,
    pub height: usize,
    pub pitch: usize,
}

impl<'a> LevelPlane<'a> {
    pub fn rows(&self) -> impl Iterator<Item = &'a [u8]> + use<'a> {
        let width = self.width;
        self.bytes.chunks_exact(self.pitch).map(move |row| &row[..width])
    }
}

/// One of a frame's three planes.
#[derive(Clone, Copy, Debug, PartialEq, Eq)]
pub enum Of {
    Y,
    U,
    V,
}

/// Where a plane lies in a frame of three.
#[derive(Clone, Copy, Debug, PartialEq, Eq)]
pub struct Part {
    pub start: usize,
    pub pitch: usize,
    pub length: usize,
}

/// Where all three lie, and how many bytes a build takes.
#[derive(Clone, Copy, Debug, PartialEq, Eq)]
pub struct Parts {
    pub y: Part,
    pub u: Part,
    pub v: Part,
    pub frame: usize,
    pub spill: usize,
    pub scratch: usize,
}

/// A plane's bytes as a decoder left them, and the pitch of their rows: not the frame's, which isn't asked for.
#[derive(Clone, Copy)]
pub struct Source<'a> {
    pub bytes: &'a [u8],
    pub pitch: usize,
}

/// A frame of three planes that a build has finished.
pub struct Frame {
    record: Record,
    pub bytes: Vec<u8>,
}

impl Record {
    pub fn parts(&self) -> Result<Parts, Refused> {
        let mut told = [0; 12];
        // SAFETY: a record of ten, and twelve numbers lent for the answer.
        done(unsafe { sill::sill_frame_parts(self.0.as_ptr(), self.0.len(), told.as_mut_ptr(), told.len()) })?;
        let part = |k: usize| Part { start: told[k], pitch: told[k + 1], length: told[k + 2] };
        Ok(Parts { y: part(0), u: part(3), v: part(6), frame: told[9], spill: told[10], scratch: told[11] })
    }

    /// Builds in a frame of zeros, with spill and scratch of its own.
    pub fn build_frame(&self, y: Source, u: Source, v: Source) -> Result<Frame, Refused> {
        let parts = self.parts()?;
        let [mut bytes, mut spill, mut scratch] = [parts.frame, parts.spill, parts.scratch].map(|n| vec![0u8; n]);
        let r = &self.0;
        // SAFETY: each pointer goes with its own slice's count; the vectors are new, so only sources can overlap, and those are only read.
        done(unsafe {
            sill::sill_build_frame(
                bytes.as_mut_ptr(), bytes.len(), spill.as_mut_ptr(), spill.len(), scratch.as_mut_ptr(), scratch.len(), r.as_ptr(), r.len(),
                y.bytes.as_ptr(), y.bytes.len(), y.pitch, u.bytes.as_ptr(), u.bytes.len(), u.pitch, v.bytes.as_ptr(), v.bytes.len(), v.pitch,
            )
        })?;
        Ok(Frame { record: *self, bytes })
    }
}

impl Frame {
    pub fn row(&self, of: Of, level: u32, plane: usize, y: usize) -> Result<&[u8], Refused> {
        let (r, mut place) = (&self.record.0, [0; 2]);
        // SAFETY: a record of ten, and two numbers lent for the answer.
        done(unsafe { sill::sill_frame_row(self.bytes.len(), r.as_ptr(), r.len(), of as u32, level, plane, y, place.as_mut_ptr(), place.len()) })?;
        let [offset, length] = place;
        Ok(&self.bytes[offset..][..length])
    }
}

fn main() -> Result<(), Box<dyn Error>> {
    let settings = Settings { pel: Some(1), ..Settings::default() };
    let record = Record::check(settings, 8, 8)?;
    println!("{:?}", record.fields());
    let word = record.word()?;
    println!("word {word}: {:?}", word.read()?);
    let marked = Record::check(Settings { rc: Some(true), ..settings }, 8, 8)?.word()?;
    println!("word {marked}, which differs in rc: prepares alike: {}", word.prepares_alike(marked));
    for stored in [0x0000040200400030, 0x0300440100400030, 0x0001050200400030].map(Word) {
        match stored.read() {
            Ok(told) => println!("word {stored}: {told:?}"),
            Err(why) => println!("word {stored}: {why}"),
        }
    }
    // One level: down has no part in the build, and the words differ in the bit that says whether it is 4.
    let (four, other) = (Word(0x0001010200040004), Word(0x0001410200040004));
    println!("words {four} and {other}: equal descriptions: {}, prepare alike: {}", four.read()? == other.read()?, four.prepares_alike(other));

    let mut longhand = record.longhand()?;
    println!("longhand {longhand:?}");
    assert_eq!(Record::read_longhand(&longhand), Ok(Longhand::Record { record, after: 21 }));
    assert_eq!(Record::read_longhand(&longhand[..20]), Err(Refused::NoRoom));
    longhand[4] = 2;
    println!("kind 2: {:?}", Record::read_longhand(&longhand));
    assert_eq!(Record::read_longhand(&longhand), Ok(Longhand::Unknown { after: 21 }));

    let mut layout = record.layout((0, 0), 16)?;
    println!("{} levels, rows {} apart, level 1: {:?}", layout.levels(), layout.pitch(), layout.region(1));
    assert_eq!((layout.shifts(), layout.region(2)), ((0, 0), None));
    let source: Vec<u8> = (0..64).map(|i| 3 * i).collect();
    let plane = record.build_plane(&layout, &source, 8)?;
    let whole = plane.level_plane(1, 0)?;
    for (y, row) in whole.rows().enumerate() {
        println!("level 1, row {y}: {row:?}");
        assert_eq!(plane.row(1, 0, y), Ok(row));
    }
    assert_eq!((whole.rows().count(), whole.height, plane.row(1, 0, 4)), (4, 4, Err(Refused::NoRow)));
    assert_eq!((plane.level_plane(0, 1).err(), plane.layout()), (Some(Refused::NoRow), &layout));
    assert_eq!(record.build_plane(&layout, &source[1..], 8).err(), Some(Refused::BadSource));
    assert_eq!((record.plane(&layout, plane.frame.clone()).row(1, 0, 0), record.plane(&layout, Vec::new()).row(1, 0, 0)), (plane.row(1, 0, 0), Err(Refused::BadFrame)));
    // A changed layout is the one made afresh; what can't be made leaves it as it was.
    record.change_layout(&mut layout, (0, 0), 24)?;
    assert_eq!((record.layout((0, 0), 24)?, record.change_layout(&mut layout, (2, 0), 24)), (layout, Err(Refused::BadShift)));
    assert_eq!((record.layout((0, 0), 24)?, record.layout((0, 0), 7)), (layout, Err(Refused::BadPitch)));
    if let Err(why) = Record::check(settings, 8, 12)?.written_end(&layout) {
        println!("8x8's layout with 8x12: {why} ({why:?})");
    }
    if let Err(why) = Record::check(Settings { pel: Some(3), ..settings }, 8, 8) {
        println!("pel 3: {why} ({why:?})");
    }

    let record = Record::check(settings, 16, 8)?;
    println!("{:?}", record.parts()?);
    let filled = |first: usize, count: usize| (0..count).map(|i| (first + 3 * i) as u8).collect::<Vec<u8>>();
    let (y, u, v) = (filled(0, 8 * 20), filled(50, 4 * 12), filled(100, 4 * 9));
    let [y, u, v] = [(&y[..], 20), (&u, 12), (&v, 9)].map(|(bytes, pitch)| Source { bytes, pitch });
    println!("V, level 1, row 1: {:?}", record.build_frame(y, u, v)?.row(Of::V, 1, 0, 1)?);
    // The luma pitch for V: here V has too few bytes for it.
    assert_eq!(record.build_frame(y, u, Source { pitch: y.pitch, ..v }).err(), Some(Refused::BadSource));
    if let Err(why) = Record::check(settings, 16, 1)?.parts() {
        println!("16x1: {why} ({why:?})");
    }
    Ok(())
}
