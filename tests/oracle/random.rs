//! Random sequences of calls, chosen by what the table holds.
use crate::inputs::*;
use crate::pair::{Fault, Pair};
use crate::script::{op, Command, WHOLE_ARENA};
use crate::table::Table;

/// xorshift64*
pub struct Random(u64);

impl Random {
    pub fn new(seed: u64) -> Random {
        Random(seed.wrapping_mul(0x9e37_79b9_7f4a_7c15) | 1)
    }

    pub fn next(&mut self) -> u64 {
        self.0 ^= self.0 >> 12;
        self.0 ^= self.0 << 25;
        self.0 ^= self.0 >> 27;
        self.0.wrapping_mul(0x2545_f491_4f6c_dd1d)
    }

    pub fn below(&mut self, n: u64) -> u64 {
        (self.next() >> 11) % n.max(1)
    }

    pub fn one_in(&mut self, n: u64) -> bool {
        self.below(n) == 0
    }

    pub fn pick<'a, T>(&mut self, of: &'a [T]) -> &'a T {
        &of[self.below(of.len() as u64) as usize]
    }
}

/// A kind of episode: how large the table is, how long its strings are, how long a section stays open, and how seldom a report comes.
pub struct Mood {
    pub capacity: u64,
    pub longest: u64,
    most: u64,
    pub streams: u64,
    open: u64,
    silence: u64,
}

fn mood(r: &mut Random) -> Mood {
    Mood {
        capacity: *r.pick(&[0, 31, 64, 106, 220, 400, 1024, 4096, 16_384, 16_384]),
        longest: *r.pick(&[4, 4, 40, 300, 4000]),
        most: *r.pick(&[0, 1, 3, 40, 100, 65_534]),
        streams: *r.pick(&[1, 3, 8]),
        open: *r.pick(&[1, 1, 4, 60]),
        silence: *r.pick(&[1, 1, 1, 30]),
    }
}

/// A call while no section is open.
fn closed(r: &mut Random, m: &Mood, t: &Table) -> Command {
    let k = 0;
    let stream = if r.one_in(30) { odd(r) } else { r.below(m.streams) };
    match r.below(30) {
        0 => Command::new(op::SET_CAPACITY, k, &[if r.one_in(4) { odd(r) } else { r.below(m.capacity + 40) }], &[]),
        1 | 2 => Command::new(op::SET_CAPACITY, k, &[m.capacity], &[]),
        3 => Command::new(op::SET_MAX_BLOCKED, k, &[if r.one_in(4) { odd(r) } else { m.most }], &[]),
        4..=8 => Command::new(op::PUT, k, &[], &[&text(r, m, NAMES), &text(r, m, VALUES)]),
        9..=13 => Command::new(op::BEGIN, k, &[stream], &[]),
        14 | 15 => Command::new(op::ACKNOWLEDGE, k, &[stream], &[]),
        16 if r.one_in(m.silence) => Command::new(op::CANCEL, k, &[stream], &[]),
        16..=18 if !r.one_in(m.silence) => Command::new(op::BEGIN, k, &[stream], &[]),
        16..=18 => Command::new(op::INCREMENT, k, &[if r.one_in(20) { odd(r) } else { r.below(6) }], &[]),
        19..=22 => {
            let many = if r.one_in(40) { 300 } else { 6 };
            let s = several(r, many, |r| instruction(r, m, t));
            Command::new(op::ON_ENCODER_RECV, k, &[], &[&s]).buffer(3 + r.below(4), r.next() as u8)
        }
        23..=25 => Command::new(op::ON_DECODER_RECV, k, &[], &[&several(r, 5, |r| report(r, m))]),
        _ => section(r, m, t, k),
    }
}

fn section(r: &mut Random, m: &Mood, t: &Table, k: u8) -> Command {
    let mut s = prefix(r, t);
    s.extend(several(r, 6, |r| line(r, m, t)));
    if r.one_in(20) {
        damage(r, &mut s);
    }
    let room = if r.one_in(10) { r.below(60) } else { 60_000 };
    let records = if r.one_in(10) { r.below(4) } else { 1000 };
    Command::new(op::SECTION_ON, k, &[records], &[&s]).buffer(room, r.next() as u8)
}

/// A call while a section is open.
fn open(r: &mut Random, m: &Mood, t: &Table) -> Command {
    let k = 0;
    let inserted = t.rust.vas.inserted as u64;
    let (name, value) = match r.below(3) {
        0 if live(t) > 0 => {
            let f = &t.rust.fields[r.below(live(t)) as usize];
            (f.name.to_vec(), f.value.to_vec())
        }
        _ => (text(r, m, NAMES), text(r, m, VALUES)),
    };
    match r.below(16) {
        0..=4 => Command::new(op::FIND, k, &[], &[&name, &value]),
        5..=11 => Command::new(op::INSERT, k, &[], &[&name, &value]),
        12 if r.one_in(3) && r.one_in(m.open) => Command::new(op::ABANDON, k, &[], &[]),
        12 => closed(r, m, t),
        _ if !r.one_in(m.open) => Command::new(op::FIND, k, &[], &[&name, &value]),
        _ => {
            let largest = if r.one_in(20) { odd(r) } else { inserted.saturating_sub(r.below(3)) };
            Command::new(op::COMMIT, k, &[largest], &[])
        }
    }
}

/// What a call without a table is made of.
struct Parts {
    value: u64,
    width: u64,
    flags: u64,
    at: u64,
    bytes: Vec<u8>,
    name: Vec<u8>,
    text: Vec<u8>,
    room: u64,
    fill: u8,
    kind: u64,
    reference: u64,
    inserted: u64,
    dropped: u64,
    small: u64,
}

fn parts(r: &mut Random, m: &Mood, t: &Table) -> Parts {
    let value = if r.one_in(2) { odd(r) } else { r.next() >> r.below(64) };
    let (width, flags) = (r.below(10), r.below(9));
    let at = r.below(3);
    let mut bytes = vec![r.next() as u8; at as usize];
    match r.below(6) {
        0 => bytes.extend(integer(1 + r.below(8) as u8, 0, value)),
        1 => bytes.extend(instruction(r, m, t)),
        2 => bytes.extend(line(r, m, t)),
        3 => bytes.extend(report(r, m)),
        4 => bytes.extend((0..r.below(12)).map(|_| r.next() as u8 | 0x80)),
        _ => bytes.extend((0..r.below(12)).map(|_| r.next() as u8)),
    }
    if r.one_in(8) {
        damage(r, &mut bytes);
        bytes.resize(bytes.len().max(at as usize), 0);
    }
    let (name, text) = (text(r, m, NAMES), text(r, m, VALUES));
    let (room, fill) = (*r.pick(&[0, 3, 12, 40, 9000]), r.next() as u8);
    let (kind, reference) = (*r.pick(&[0, 1, 4, 5, 6]), r.below(3));
    let inserted = r.below(40);
    let dropped = r.below(inserted + 1);
    let small = if r.one_in(10) { odd(r) } else { r.below(50) };
    Parts { value, width, flags, at, bytes, name, text, room, fill, kind, reference, inserted, dropped, small }
}

/// A call without a table.
fn alone(r: &mut Random, m: &Mood, t: &Table) -> Command {
    let p = parts(r, m, t);
    let Parts { value, width, flags, at, room, fill, kind, reference, inserted: i, dropped: d, small, .. } = p;
    let (s, name, text) = (&p.bytes[..], &p.name[..], &p.text[..]);
    match r.below(25) {
        0 => Command::new(op::INT_READ, 0, &[at, width], &[s]),
        1 => Command::new(op::INT_SIZE, 0, &[value, width], &[]),
        2 => Command::new(op::INT_WRITE, 0, &[at, width, flags, value], &[]).buffer(room, fill),
        3 => Command::new(op::TEXT_READ, 0, &[at, width], &[s]),
        4 => Command::new(op::TEXT_WRITE, 0, &[at, width, flags], &[text]).buffer(room, fill),
        5 => Command::new(op::STATIC_GET, 0, &[small.wrapping_mul(2)], &[]),
        6 => Command::new(op::STATIC_FIND, 0, &[], &[name, text]),
        7 => Command::new(op::STATIC_FIND_NAME, 0, &[], &[name]),
        8 => Command::new(op::VAS_RELATIVE, 0, &[i, d, small], &[]),
        9 => Command::new(op::VAS_RELATIVE_BASE, 0, &[i, d, r.below(50), small], &[]),
        10 => Command::new(op::VAS_POST_BASE, 0, &[i, d, r.below(50), small], &[]),
        11 => Command::new(op::VAS_INDEX, 0, &[i, d, small], &[]),
        12 => Command::new(op::VAS_LARGEST_REF, 0, &[i, d], &[]),
        13 => Command::new(op::STREAM_READ_INTEGER, 0, &[kind, at], &[s]),
        14 => Command::new(op::STREAM_READ_NAME_REF, 0, &[at], &[s]),
        15 => Command::new(op::STREAM_READ_LITERAL, 0, &[at], &[s]),
        // the crate's increment holds a byte
        16 => Command::new(op::STREAM_WRITE_INTEGER, 0, &[kind, at, if kind == 4 { value % 256 } else { value }], &[]).buffer(room, fill),
        17 => Command::new(op::STREAM_WRITE_NAME_REF, 0, &[at, r.below(2), value], &[text]).buffer(room, fill),
        18 => Command::new(op::STREAM_WRITE_LITERAL, 0, &[at], &[name, text]).buffer(room, fill),
        19 => Command::new(op::BLOCK_READ_LINE, 0, &[at], &[s]),
        20 => Command::new(op::BLOCK_WRITE_INDEXED, 0, &[reference, at, value], &[]).buffer(room, fill),
        21 => Command::new(op::BLOCK_WRITE_NAMED, 0, &[reference, at, value], &[text]).buffer(room, fill),
        22 => Command::new(op::BLOCK_WRITE_LITERAL, 0, &[at], &[name, text]).buffer(room, fill),
        23 => stateless(r, m, t, fill),
        _ => Command::new(op::READ_PREFIX, 0, &[0, t.rust.vas.inserted as u64, t.rust.max_size as u64], &[&prefix(r, t)]),
    }
}

fn stateless(r: &mut Random, m: &Mood, t: &Table, fill: u8) -> Command {
    let mut s = prefix(r, t);
    s.extend(several(r, 6, |r| line(r, m, t)));
    let max = if r.one_in(3) { r.below(400) } else { u64::MAX >> 1 };
    let records = if r.one_in(10) { r.below(4) } else { 1000 };
    Command::new(op::SECTION_STATELESS, 0, &[records, max], &[&s]).buffer(9000, fill)
}

/// The counts of a fresh table set high, on both sides.
fn set_high(p: &mut Pair, r: &mut Random) -> Result<(), Fault> {
    let high = [(1 << 62) - 1, (1 << 62) - 3, (1 << 62) - 40, 1 << 40, 65_000];
    let count = *r.pick(&high);
    for (field, value) in [(0, count), (1, count), (9, count - r.below(3))] {
        p.step(Command::new(op::SET, 0, &[field, 0, value], &[]))?;
    }
    Ok(())
}

/// One sequence from fresh tables; `after` looks at the pair after every step.
pub fn episode(p: &mut Pair, r: &mut Random, mut after: impl FnMut(&Pair)) -> Result<(), Fault> {
    p.reset()?;
    let m = mood(r);
    if r.one_in(8) {
        set_high(p, r)?;
    }
    p.step(Command::new(op::SET_CAPACITY, 0, &[m.capacity], &[]))?;
    p.step(Command::new(op::SET_MAX_BLOCKED, 0, &[m.most], &[]))?;
    let length = *r.pick(&[40, 200, 200, 600, 2500]);
    for _ in 0..length {
        let t = &p.tables[0];
        let c = match r.below(5) {
            0 => alone(r, &m, t),
            _ if t.open.is_some() => open(r, &m, t),
            _ if r.one_in(60) => open(r, &m, t),
            _ => closed(r, &m, t),
        };
        let short = r.one_in(200);
        let c = if short { c.clone().lend(r.below(WHOLE_ARENA)) } else { c };
        p.step(c)?;
        after(p);
    }
    Ok(())
}
