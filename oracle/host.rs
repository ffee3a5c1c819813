//! super_build.rs as it stands beside this file, and below it doors to its private items; nothing above them is changed.
include!("super_build.rs");

/// The filter that the Rust reads off a down setting, as document 01 lists them: 1 average, 2 bilinear, 3 quadratic, 4 cubic, 0 none.
pub(crate) fn halving(down: i32) -> u8 {
    match ReduceFilter::from_option(down) {
        None => 0,
        Some(ReduceFilter::Average) => 1,
        Some(ReduceFilter::Bilinear) => 2,
        Some(ReduceFilter::Quadratic) => 3,
        Some(ReduceFilter::Cubic) => 4,
    }
}

fn filter(k: u8) -> ReduceFilter {
    [ReduceFilter::Average, ReduceFilter::Bilinear, ReduceFilter::Quadratic, ReduceFilter::Cubic][usize::from(k - 1)]
}

fn kernel(k: u8) -> HalfPel {
    if k == 1 { HalfPel::CatmullRom } else { HalfPel::Wiener }
}

pub(crate) fn is_edge(k: u8, y: usize, height: usize) -> bool {
    filter(k).vertical_edge(y, height)
}

pub(crate) fn means(out: &mut [u8], a: &[u8], b: &[u8]) {
    vertical_average(out, a, b);
}

pub(crate) fn weigh_rows(k: u8, out: &mut [u8], rows: [&[u8]; 6]) {
    vertical_filter(filter(k), out, rows);
}

pub(crate) fn halve_row(k: u8, out: &mut [u8], src: &[u8]) {
    reduce_row(filter(k), src, out, &mut Deinterleaved::default());
}

/// A row of half samples, made in a frame of its own.
pub(crate) fn half_row(k: u8, row: &[u8]) -> Vec<u8> {
    let width = row.len();
    let mut frame = [row, &vec![0; width]].concat();
    let mut canvas = Canvas { frame: &mut frame, spill: Vec::new() };
    Interp { pitch: width, width, height: 1 }.horizontal(&mut canvas, width, 0, kernel(k));
    frame.split_off(width)
}

/// The plane of half samples down a plane.
pub(crate) fn half_plane(k: u8, plane: &[u8], width: usize) -> Vec<u8> {
    let mut frame = [plane, &vec![0; plane.len()]].concat();
    let mut canvas = Canvas { frame: &mut frame, spill: Vec::new() };
    Interp { pitch: width, width, height: plane.len() / width }.vertical(&mut canvas, plane.len(), 0, kernel(k));
    frame.split_off(plane.len())
}

/// Offset, width and height of each level, and where the last one ends.
pub(crate) fn layout(r: &SuperOpts, pitch: usize, shifts: (u32, u32)) -> (Vec<(usize, usize, usize)>, usize) {
    let regions = level_regions(pitch, r.width as usize, r.height as usize, shifts, r);
    let end = written_end(&regions, pitch, r);
    (regions.iter().map(|g| (g.offset, g.width, g.height)).collect(), end)
}

pub(crate) fn clear(frame: &mut [u8], r: &SuperOpts, pitch: usize, shifts: (u32, u32)) {
    let regions = level_regions(pitch, r.width as usize, r.height as usize, shifts, r);
    let len = frame.len();
    clear_margins(frame, &regions, pitch, len, r);
}

pub(crate) fn build(frame: &mut [u8], r: &SuperOpts, pitch: usize, shifts: (u32, u32), src: &[u8], src_pitch: usize) {
    build_plane(frame, pitch, src, src_pitch, r.width as usize, r.height as usize, shifts, r);
}
