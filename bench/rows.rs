//! The Rust's row functions, unchanged, with a C ABI: what bench/rows.c calls beside ours. Whole builds have doors of their own, those of tests/rust.rs: each more caller of a function changes what the compiler makes of it.
//! The two at the end are the bodies of `Interp::horizontal` and `Interp::vertical` for one row, without fetching it from the canvas and storing it there.
#![allow(dead_code)]

mod analyse {
    pub(crate) struct SuperParams {
        pub(crate) pel: i32,
        pub(crate) gpu: i32,
        pub(crate) levels: i32,
        pub(crate) width: i32,
        pub(crate) height: i32,
    }
}
mod params;
mod super_opts;
mod super_build {
    include!("super_build.rs");

    const N: usize = 1920;
    type Row = [u8; N];

    fn filter(k: u32) -> ReduceFilter {
        [ReduceFilter::Average, ReduceFilter::Bilinear, ReduceFilter::Quadratic, ReduceFilter::Cubic][k as usize - 1]
    }

    fn kernel(k: u32) -> HalfPel {
        if k == 1 { HalfPel::CatmullRom } else { HalfPel::Wiener }
    }

    #[unsafe(no_mangle)]
    pub extern "C" fn rust_means(out: &mut Row, a: &Row, b: &Row) {
        vertical_average(out, a, b);
    }

    #[unsafe(no_mangle)]
    pub extern "C" fn rust_copy(out: &mut Row, a: &Row) {
        out.copy_from_slice(a);
    }

    #[unsafe(no_mangle)]
    pub extern "C" fn rust_zero(out: &mut Row) {
        out.fill(0);
    }

    #[unsafe(no_mangle)]
    pub extern "C" fn rust_vertical(k: u32, out: &mut Row, m2: &Row, m1: &Row, c0: &Row, p1: &Row, p2: &Row, p3: &Row) {
        vertical_filter(filter(k), out, [m2, m1, c0, p1, p2, p3]);
    }

    thread_local!(static SPLIT: std::cell::RefCell<Deinterleaved> = std::cell::RefCell::default());

    #[unsafe(no_mangle)]
    pub extern "C" fn rust_halved(k: u32, out: &mut [u8; N / 2], src: &Row) {
        SPLIT.with_borrow_mut(|split| reduce_row(filter(k), src, out, split));
    }

    #[unsafe(no_mangle)]
    pub extern "C" fn rust_half_along(k: u32, out: &mut Row, row: &Row) {
        let (kernel, w) = (kernel(k), N);
        let (lead, tail) = kernel.edges();
        let inner = w.saturating_sub(tail).saturating_sub(lead);
        let mut padded = [0u8; N + 5];
        padded[2..N + 2].copy_from_slice(row);
        let taps: [&[u8]; 6] = std::array::from_fn(|k| &padded[lead + k..][..inner]);
        apply_half_pel(kernel, &mut out[lead..lead + inner], taps);
        let pixel = &padded[2..];
        for i in (0..lead).chain(lead + inner..w.saturating_sub(1)) {
            out[i] = ((u16::from(pixel[i]) + u16::from(pixel[i + 1]) + 1) >> 1) as u8;
        }
        out[w - 1] = pixel[w - 1];
    }

    #[unsafe(no_mangle)]
    pub extern "C" fn rust_half_down(k: u32, out: &mut Row, m2: &Row, m1: &Row, c0: &Row, p1: &Row, p2: &Row, p3: &Row) {
        apply_half_pel(kernel(k), out, [m2, m1, c0, p1, p2, p3]);
    }
}
