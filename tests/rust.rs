//! The Rust of open-svpflow, unchanged, with the doors that tests/calls.c, bench/builds.c and bench/layouts.c go through. scripts/door and bench/run lay its files beside this one.
//! What the rules refuse isn't asked of it, but for settings: the Rust has no such limits.
#![allow(dead_code)]

mod analyse {
    // What `SuperOpts::from_params` names; its own file isn't part of what is ported.
    pub(crate) struct SuperParams {
        pub(crate) pel: i32,
        pub(crate) gpu: i32,
        pub(crate) levels: i32,
        pub(crate) width: i32,
        pub(crate) height: i32,
    }
}
mod params;
mod super_opts;

use params::Value;
use super_opts::SuperOpts;

/// Document 01's number for the Rust's message, or 0 and the record.
#[unsafe(no_mangle)]
pub extern "C" fn rust_check(given: u32, set: &[i32; 7], width: i32, height: i32, record: &mut [i32; 10]) -> u32 {
    let has = |k: usize| given >> k & 1 != 0;
    let named = |of: &[(usize, &str)], value: &dyn Fn(i32) -> Value| -> Vec<(String, Value)> {
        of.iter().filter(|(k, _)| has(*k)).map(|&(k, name)| (name.to_owned(), value(set[k]))).collect()
    };
    let number = |n: i32| Value::Number(f64::from(n));
    let mut top = named(&[(0, "pel"), (1, "gpu")], &number);
    top.extend(named(&[(4, "full"), (5, "rc"), (6, "lean")], &|n| Value::Bool(n != 0)));
    let scale = named(&[(2, "down"), (3, "up")], &number);
    if !scale.is_empty() { top.push(("scale".to_owned(), Value::Object(scale))); }
    let options = Value::Object(top);
    match SuperOpts::from_opt((given & 127 != 0).then_some(&options), width, height) {
        Ok(r) => {
            *record = [r.pel, r.gpu, r.scale_down, r.scale_up, r.full.into(), r.rc.into(), r.lean.into(), r.levels, r.width, r.height];
            0
        }
        Err(said) => match said.as_str() {
            s if s.contains("pel has to be") => 1,
            s if s.contains("gpu has to be") => 2,
            s if s.contains("finest level with high pel") => 3,
            s if s.contains("lean needs") => 4,
            s => panic!("a message that no number stands for: {s}"),
        },
    }
}

fn opts(r: &[i32; 10]) -> SuperOpts {
    SuperOpts { pel: r[0], gpu: r[1], scale_down: r[2], scale_up: r[3], full: r[4] != 0, rc: r[5] != 0, lean: r[6] != 0, levels: r[7], width: r[8], height: r[9] }
}

#[unsafe(no_mangle)]
pub extern "C" fn rust_levels(width: i32, height: i32) -> i32 {
    super_opts::auto_levels(width, height)
}

#[unsafe(no_mangle)]
pub extern "C" fn rust_word(record: &[i32; 10]) -> u64 {
    opts(record).pack_data() as u64
}

#[unsafe(no_mangle)]
pub extern "C" fn rust_sizes(record: &[i32; 10], sizes: &mut [i32; 2]) {
    let r = opts(record);
    *sizes = [r.super_width(), r.super_height()];
}

mod super_build {
    include!("super_build.rs");

    fn laid_out(r: &SuperOpts, x: u32, y: u32, pitch: usize) -> Vec<Region> {
        level_regions(pitch, r.width as usize, r.height as usize, (x, y), r)
    }

    #[unsafe(no_mangle)]
    pub extern "C" fn rust_regions(record: &[i32; 10], x: u32, y: u32, pitch: usize, regions: &mut [usize; 40]) {
        let of = laid_out(&crate::opts(record), x, y, pitch);
        *regions = [0; 40];
        regions[0] = of.len();
        for (k, g) in of.iter().enumerate() {
            (regions[1 + k], regions[14 + k], regions[27 + k]) = (g.offset, g.width, g.height);
        }
    }

    #[unsafe(no_mangle)]
    pub extern "C" fn rust_end(record: &[i32; 10], x: u32, y: u32, pitch: usize) -> usize {
        let r = crate::opts(record);
        written_end(&laid_out(&r, x, y, pitch), pitch, &r)
    }

    /// The bytes behind a pointer of C's.
    fn bytes<'a>(at: *const u8, length: usize) -> &'a [u8] {
        if length == 0 { &[] } else { unsafe { std::slice::from_raw_parts(at, length) } }
    }

    fn writable<'a>(at: *mut u8, length: usize) -> &'a mut [u8] {
        if length == 0 { &mut [] } else { unsafe { std::slice::from_raw_parts_mut(at, length) } }
    }

    #[unsafe(no_mangle)]
    pub extern "C" fn rust_clear(frame: *mut u8, length: usize, record: &[i32; 10], x: u32, y: u32, pitch: usize) {
        let r = crate::opts(record);
        clear_margins(writable(frame, length), &laid_out(&r, x, y, pitch), pitch, length, &r);
    }

    #[unsafe(no_mangle)]
    pub extern "C" fn rust_build(frame: *mut u8, length: usize, record: &[i32; 10], x: u32, y: u32, pitch: usize, src: *const u8, src_length: usize, src_pitch: usize) {
        let r = crate::opts(record);
        build_plane(writable(frame, length), pitch, bytes(src, src_length), src_pitch, r.width as usize, r.height as usize, (x, y), &r);
    }
}
