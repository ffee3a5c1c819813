//! The Rust of open-svpflow, unchanged, answering cases as the Rattle programs do; those that ask for the fused path off, by a copy of super_build.rs in which one condition is changed (scripts/oracle).
//! `scripts/oracle` lays its files beside this one and builds it. Usage:
//!     oracle settings-cases SEED COUNT    cases for `replay_settings`, a line each
//!     oracle settings                     the Rust's answers to such cases, from standard input
//!     oracle rows-cases SEED PASSES       cases for `replay_rows`
//!     oracle rows                         the Rust's answers to such cases, from standard input
//!     oracle layout-cases SEED COUNT      cases for `replay_layout`, a line each
//!     oracle layout                       the Rust's answers to such cases, from standard input
//!     oracle margins-cases SEED COUNT     cases for `replay_margins`
//!     oracle margins                      the Rust's answers to such cases, from standard input
//!     oracle builds-cases SEED COUNT KIND cases for `replay_builds`, of kind halving, whole, generic, large or kept
//!     oracle builds                       the Rust's answers to such cases, from standard input
//!     oracle builds-differs FILE          the first of the answers in the file that isn't the Rust's
//!     oracle builds-pick AT               one of the cases, with its whole frame asked for
//!     oracle builds-paths                 how many of the cases leave another frame where the fused path is off
//!     oracle frames-cases SEED COUNT KIND cases for `replay_frames`, of kind whole, sizes, large or kept
//!     oracle frames                       the Rust's answers to such cases, from standard input
//!     oracle frames-differs FILE          the first of the answers in the file that isn't the Rust's
//!     oracle frames-pick AT               one of the cases, with its whole frame asked for
//!     oracle words-cases SEED COUNT       words of accepted records, and damaged ones
//!     oracle words-all                    every word of sides 1 to 24, and its neighbour
//!     oracle words-packed                 what document 01 prints for each word that settings cases, from standard input, pack to
//!     oracle words                        what document 01 prints for such words, by brute force over the Rust's records
#![allow(dead_code)]

mod params;
mod super_opts;
#[path = "host.rs"]
mod super_build;
#[path = "generic/host.rs"]
mod generic;
#[path = "frame_host.rs"]
mod portable;

mod analyse;
mod builds;
mod cases;
mod frames;
mod layout;
mod margins;
mod met;
mod random;
mod rows;
mod settings;
mod words;

fn main() {
    let words: Vec<String> = std::env::args().skip(1).collect();
    let number = |k: usize| -> u64 { words.get(k).and_then(|w| w.parse().ok()).unwrap_or_else(|| usage()) };
    match words.first().map(String::as_str) {
        Some("settings-cases") => settings::cases(number(1), number(2)),
        Some("settings") => settings::answers(),
        Some("rows-cases") => rows::cases(number(1), number(2)),
        Some("rows") => rows::answers(),
        Some("layout-cases") => layout::cases(number(1), number(2)),
        Some("layout") => layout::answers(),
        Some("margins-cases") => margins::cases(number(1), number(2)),
        Some("margins") => margins::answers(),
        Some("builds-cases") => builds::cases(number(1), number(2), words.get(3).map_or_else(|| usage(), String::as_str)),
        Some("builds") => builds::answers(),
        Some("builds-differs") => builds::differs(words.get(1).map_or_else(|| usage(), String::as_str)),
        Some("builds-pick") => builds::pick(number(1)),
        Some("builds-paths") => builds::paths(),
        Some("frames-cases") => frames::cases(number(1), number(2), words.get(3).map_or_else(|| usage(), String::as_str)),
        Some("frames") => frames::answers(),
        Some("frames-differs") => frames::differs(words.get(1).map_or_else(|| usage(), String::as_str)),
        Some("frames-pick") => frames::pick(number(1)),
        Some("words-cases") => words::cases(number(1), number(2)),
        Some("words-all") => words::all(),
        Some("words-packed") => words::packed(),
        Some("words") => words::answers(),
        _ => usage(),
    }
}

fn usage() -> ! {
    eprintln!("usage: oracle SUBJECT-cases SEED COUNT [KIND] | oracle words-all | oracle words-packed | oracle SUBJECT-differs FILE | oracle SUBJECT-pick AT | oracle builds-paths | oracle SUBJECT; SUBJECT: settings, rows, layout, margins, builds, frames, words; differs and pick: builds, frames");
    std::process::exit(2)
}
