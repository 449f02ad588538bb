//! Random inputs: strings, instructions, reports, field lines and prefixes, chosen by what the table holds.
use crate::random::{Mood, Random};
use crate::table::Table;
use h3::qpack::prefix_int;

pub const NAMES: &[&[u8]] = &[b":path", b":authority", b"cookie", b"x", b"custom-key", b"", b"accept", b"n1", b"n2", b"n3", b"age"];
pub const VALUES: &[&[u8]] = &[b"", b"/", b"0", b"a", b"b", b"custom-value", b"www.example.com", b"gzip, deflate, br"];

pub fn text(r: &mut Random, m: &Mood, of: &[&[u8]]) -> Vec<u8> {
    if r.below(4) > 0 {
        return r.pick(of).to_vec();
    }
    let len = r.below(m.longest + 1);
    let b = r.below(4) as u8 + b'p';
    vec![b; len as usize]
}

pub fn integer(width: u8, flags: u8, value: u64) -> Vec<u8> {
    let mut out = Vec::new();
    prefix_int::encode(width, flags, value, &mut out);
    out
}

fn string(width: u8, flags: u8, s: &[u8], h: bool) -> Vec<u8> {
    let mut out = integer(width, flags << 1 | h as u8, s.len() as u64);
    out.extend(s);
    out
}

/// A number around something that matters.
pub fn odd(r: &mut Random) -> u64 {
    let edge = *r.pick(&[0, 1, 31, 32, 63, 64, 65, 99, 127, 128, 255, 256, 16_384, 16_385, 65_535, 1 << 30, 1 << 62, 1 << 63, u64::MAX]);
    edge.wrapping_add(r.below(3)).wrapping_sub(1)
}

/// An index that is mostly good.
fn index(r: &mut Random, live: u64) -> u64 {
    if r.one_in(12) { odd(r) >> 1 } else { r.below(live + 1) }
}

pub fn live(t: &Table) -> u64 {
    t.rust.fields.len() as u64
}

pub fn instruction(r: &mut Random, m: &Mood, t: &Table) -> Vec<u8> {
    let h = r.one_in(40);
    match r.below(8) {
        0 | 1 => {
            let mut b = string(5, 1, &text(r, m, NAMES), h);
            b.extend(string(7, 0, &text(r, m, VALUES), r.one_in(40)));
            b
        }
        2 | 3 => {
            let fixed = r.one_in(2);
            let i = if fixed { r.below(102) } else { index(r, live(t)) };
            let mut b = integer(6, 2 | fixed as u8, i);
            b.extend(string(7, 0, &text(r, m, VALUES), h));
            b
        }
        4..=6 => integer(5, 0, index(r, live(t))),
        _ => {
            let c = if r.one_in(6) { odd(r) >> 1 } else { r.below(m.capacity + 20) };
            integer(5, 1, if r.one_in(3) { m.capacity } else { c })
        }
    }
}

/// A report, mostly of a stream that has a section queued.
pub fn report(r: &mut Random, m: &Mood) -> Vec<u8> {
    let stream = if r.one_in(20) { odd(r) >> 1 } else { r.below(m.streams) };
    match r.below(8) {
        0..=3 => integer(7, 1, stream),
        4 => integer(6, 1, stream),
        _ => integer(6, 0, if r.one_in(10) { odd(r) >> 2 } else { r.below(5) }),
    }
}

pub fn line(r: &mut Random, m: &Mood, t: &Table) -> Vec<u8> {
    let h = r.one_in(60);
    let value = string(7, 0, &text(r, m, VALUES), h);
    let n = r.below(2) as u8;
    let mut b = match r.below(8) {
        0 => return integer(6, 3, r.below(100)),
        1 | 2 => return integer(6, 2, index(r, live(t))),
        3 => return integer(4, 1, index(r, live(t))),
        4 => integer(4, 4 | n << 1 | 1, r.below(100)),
        5 => integer(4, 4 | n << 1, index(r, live(t))),
        6 => integer(3, n, index(r, live(t))),
        _ => string(3, 2 | n, &text(r, m, NAMES), r.one_in(60)),
    };
    b.extend(value);
    b
}

pub fn prefix(r: &mut Random, t: &Table) -> Vec<u8> {
    let (total, entries) = (t.rust.vas.inserted as u64, t.rust.max_size as u64 / 32);
    let required = if r.one_in(10) { odd(r) >> 1 } else { total.saturating_sub(r.below(4)) };
    let count = if required == 0 || entries == 0 { r.below(2) * r.below(3) } else { required % (2 * entries) + 1 };
    let sign = r.one_in(3);
    let delta = if r.one_in(30) { odd(r) >> 1 } else { r.below(4) };
    let mut b = integer(8, 0, if r.one_in(30) { odd(r) >> 1 } else { count });
    b.extend(integer(7, sign as u8, delta));
    b
}

/// Cuts, flips or repeats some bytes.
pub fn damage(r: &mut Random, s: &mut Vec<u8>) {
    if s.is_empty() {
        return;
    }
    let at = r.below(s.len() as u64) as usize;
    match r.below(4) {
        0 => s.truncate(at),
        1 => s[at] ^= 1 << r.below(8),
        2 => s[at] = r.next() as u8,
        _ => s.insert(at, r.next() as u8),
    }
}

pub fn several(r: &mut Random, most: u64, mut one: impl FnMut(&mut Random) -> Vec<u8>) -> Vec<u8> {
    let n = r.below(most) + 1;
    let mut s: Vec<u8> = (0..n).flat_map(|_| one(r)).take(60_000).collect();
    if r.one_in(6) {
        damage(r, &mut s);
    }
    s
}
