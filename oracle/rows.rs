//! Cases about rows, and the Rust's answers. The form of a case is in crates/replay_rows/src/main.rt.

use crate::random::Random;
use crate::super_build as sb;
use std::io::{BufWriter, Read, Write};

const MEANS: u8 = 0;
const COPY: u8 = 1;
const ZERO: u8 = 2;
const VERTICAL: u8 = 3;
const HORIZONTAL: u8 = 4;
const REST: u8 = 5;
const HALF_ROW: u8 = 6;
const HALF_DOWN: u8 = 7;
const CHOSEN: u8 = 8;
const EDGE: u8 = 9;

struct Case {
    kind: u8,
    filter: u8,
    y: u16,
    h: u16,
    n: u16,
    value: i32,
    data: Vec<u8>,
}

fn write(out: &mut impl Write, c: &Case) {
    let mut head = vec![c.kind, c.filter];
    for x in [c.y, c.h, c.n] { head.extend(x.to_le_bytes()); }
    head.extend(c.value.to_le_bytes());
    head.resize(16, 0);
    out.write_all(&head).unwrap();
    out.write_all(&c.data).unwrap();
}

fn read(from: &mut impl Read) -> Option<Case> {
    let mut head = [0u8; 16];
    from.read_exact(&mut head).ok()?;
    let two = |k: usize| u16::from_le_bytes([head[k], head[k + 1]]);
    let mut data = vec![0; 6 * usize::from(two(6))];
    from.read_exact(&mut data).unwrap();
    Some(Case { kind: head[0], filter: head[1], y: two(2), h: two(4), n: two(6), value: i32::from_le_bytes(head[8..12].try_into().unwrap()), data })
}

fn answer(c: &Case) -> Vec<u8> {
    let n = usize::from(c.n);
    let row = |k: usize| &c.data[k * n..(k + 1) * n];
    let rows: [&[u8]; 6] = std::array::from_fn(row);
    let mut out = vec![0; n];
    match c.kind {
        MEANS => sb::means(&mut out, row(0), row(1)),
        COPY => out.copy_from_slice(row(0)),
        ZERO => {}
        VERTICAL => sb::weigh_rows(c.filter, &mut out, rows),
        HORIZONTAL => sb::halve_row(c.filter, &mut out, &c.data[..2 * n]),
        REST => sb::weigh_rows(4, &mut out, rows),
        HALF_ROW => out = sb::half_row(c.filter, row(0)),
        HALF_DOWN => {
            // the plane whose rows around y are the six, as far as it has them
            let (y, h) = (i64::from(c.y), i64::from(c.h));
            let mut plane = vec![0; n * usize::from(c.h)];
            for (k, r) in rows.iter().enumerate() {
                let at = y + k as i64 - 2;
                if (0..h).contains(&at) { plane[at as usize * n..][..n].copy_from_slice(r); }
            }
            out.copy_from_slice(&sb::half_plane(c.filter, &plane, n)[usize::from(c.y) * n..][..n]);
        }
        CHOSEN => out[0] = sb::halving(c.value),
        EDGE => out[0] = sb::is_edge(c.filter, c.y.into(), c.h.into()).into(),
        _ => panic!("no such case"),
    }
    out
}

pub fn answers() {
    let mut from = std::io::BufReader::new(std::io::stdin().lock());
    let mut out = BufWriter::new(std::io::stdout().lock());
    while let Some(c) = read(&mut from) { out.write_all(&answer(&c)).unwrap(); }
}

/// `count` passes over every row function and filter, each at every length from 0 to 70 and some long ones (the first pass: at every third).
pub fn cases(seed: u64, count: u64) {
    let mut rng = Random(seed);
    let mut out = BufWriter::new(std::io::stdout().lock());
    for value in (-3..9).chain([i32::MIN, i32::MAX, 100, -100]) {
        write(&mut out, &Case { kind: CHOSEN, filter: 0, y: 0, h: 0, n: 1, value, data: vec![0; 6] });
    }
    for filter in 1..=4 {
        for h in 1..=6 {
            for y in 0..h { write(&mut out, &Case { kind: EDGE, filter, y, h, n: 1, value: 0, data: vec![0; 6] }); }
        }
    }
    for pass in 0..count {
        let lengths = (0..=70).step_by(if pass == 0 { 3 } else { 1 }).chain(if pass % 8 == 1 { vec![640, 1919, 1920, 4096] } else { vec![] });
        for n in lengths {
            for kind in MEANS..=HALF_DOWN {
                let filters = match kind { VERTICAL | HORIZONTAL => 4, HALF_ROW | HALF_DOWN => 2, _ => 1 };
                for filter in 1..=filters {
                    // the Rust makes no half samples of an empty row, and panics on one byte by the Wiener kernel
                    if n == 0 && kind >= HALF_ROW || n == 1 && kind == HALF_ROW && filter == 2 { continue; }
                    let h = 1 + rng.below(9) as u16;
                    let y = rng.below(h.into()) as u16;
                    let wild = rng.below(3);
                    let data = (0..6 * n).map(|_| match wild { 0 => rng.pick(&[0, 255]), 1 => rng.pick(&[0, 1, 127, 128, 254, 255]), _ => rng.next() as u8 }).collect();
                    write(&mut out, &Case { kind, filter, y, h, n: n as u16, value: 0, data });
                }
            }
        }
    }
}
