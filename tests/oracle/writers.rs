//! The writers. A string is written plain: the bytes are those of the specification, and the crate reads them back.
use crate::leaves::{refused, same};
use crate::listed;
use crate::script::{op, Command};
use crate::streams::{buffer, Judged};
use h3::qpack::block::{Indexed, IndexedWithPostBase, Literal, LiteralWithNameRef, LiteralWithPostBaseNameRef};
use h3::qpack::stream::*;
use h3::qpack::{prefix_int, prefix_string};
use std::io::Cursor;

pub fn encoded(width: u64, flags: u64, value: u64) -> Vec<u8> {
    let mut out = Vec::new();
    prefix_int::encode(width as u8, flags as u8, value, &mut out);
    out
}

/// A writer's answer: the bytes at a position of a buffer, or that they do not fit.
pub fn placed(c: &Command, at: u64, bytes: &[u8], ours: &str) -> Judged {
    let end = at.saturating_add(bytes.len() as u64);
    if end > c.room {
        return same(format!("24 {}", buffer(&[], c.room, c.fill)), ours).map(|_| Some(&listed::OUTPUT_FULL));
    }
    let mut all = vec![c.fill; at as usize];
    all.extend(bytes);
    same(format!("0 {end} {}", buffer(&all, c.room, c.fill)), ours)
}

fn int_write(c: &Command, ours: &str) -> Judged {
    let [at, width, flags, value] = c.numbers[..] else { unreachable!() };
    if !(1..=8).contains(&width) || flags >> (8 - width) != 0 {
        return refused(&listed::BAD_WIDTH, c, ours);
    }
    if value >= 1 << 63 {
        return refused(&listed::COUNT_TOO_LARGE, c, ours);
    }
    placed(c, at, &encoded(width, flags, value), ours)
}

/// A writer of strings: ours is the plain bytes, and the crate reads them back, whole, as what was written.
fn read_back(c: &Command, at: u64, plain: &[u8], ours: &str, back: impl Fn(&mut Cursor<&[u8]>) -> bool) -> Judged {
    if let Some(l) = placed(c, at, plain, ours)? {
        return Ok(Some(l));
    }
    let mut r = Cursor::new(plain);
    if back(&mut r) && r.position() as usize == plain.len() {
        return Ok(Some(&listed::PLAIN_STRINGS));
    }
    Err(format!("{} bytes that the crate reads back", plain.len()))
}

/// A plain string: flags, H not set, its length, its bytes.
fn plain(width: u64, flags: u64, s: &[u8]) -> Vec<u8> {
    [&encoded(width, flags << 1, s.len() as u64), s].concat()
}

/// An integer with flags, and a plain string.
fn named(width: u64, flags: u64, index: u64, value: &[u8]) -> Vec<u8> {
    [encoded(width, flags, index), plain(7, 0, value)].concat()
}

fn text_write(c: &Command, ours: &str) -> Judged {
    let [at, width, flags] = c.numbers[..] else { unreachable!() };
    if !(1..=7).contains(&width) || flags >> (7 - width) != 0 {
        return refused(&listed::BAD_WIDTH, c, ours);
    }
    let s = &c.strings[0];
    read_back(c, at, &plain(width, flags, s), ours, |r| prefix_string::decode(width as u8 + 1, r).is_ok_and(|x| x == *s))
}

fn write_integer(c: &Command, ours: &str) -> Judged {
    let [kind, at, value] = c.numbers[..] else { unreachable!() };
    if value >= 1 << 63 {
        return refused(&listed::COUNT_TOO_LARGE, c, ours);
    }
    let mut out = Vec::new();
    match kind {
        0 => Duplicate(value as usize).encode(&mut out),
        1 => DynamicTableSizeUpdate(value as usize).encode(&mut out),
        // the crate's increment holds a byte
        4 => InsertCountIncrement(value as u8).encode(&mut out),
        5 => StreamCancel(value).encode(&mut out),
        _ => HeaderAck(value).encode(&mut out),
    }
    placed(c, at, &out, ours)
}

fn write_indexed(c: &Command, ours: &str) -> Judged {
    let [reference, at, index] = c.numbers[..] else { unreachable!() };
    if index >= 1 << 63 {
        return refused(&listed::COUNT_TOO_LARGE, c, ours);
    }
    let mut out = Vec::new();
    match reference {
        0 => Indexed::Static(index as usize).encode(&mut out),
        1 => Indexed::Dynamic(index as usize).encode(&mut out),
        _ => IndexedWithPostBase(index as usize).encode(&mut out),
    }
    placed(c, at, &out, ours)
}

fn write_name_ref(c: &Command, ours: &str) -> Judged {
    let [at, fixed, index] = c.numbers[..] else { unreachable!() };
    if index >= 1 << 63 {
        return refused(&listed::COUNT_TOO_LARGE, c, ours);
    }
    let (i, v) = (index as usize, c.strings[0].clone());
    let bytes = named(6, 2 | fixed & 1, index, &v);
    let x = if fixed & 1 == 1 { InsertWithNameRef::Static { index: i, value: v } } else { InsertWithNameRef::Dynamic { index: i, value: v } };
    read_back(c, at, &bytes, ours, |r| InsertWithNameRef::decode(r).is_ok_and(|y| y.is_some_and(|y| y == x)))
}

fn write_literal(c: &Command, ours: &str) -> Judged {
    let (at, name, value) = (c.numbers[0], &c.strings[0], &c.strings[1]);
    if c.op == op::STREAM_WRITE_LITERAL {
        let bytes = [plain(5, 1, name), plain(7, 0, value)].concat();
        let is = |x: InsertWithoutNameRef| x.name == *name && x.value == *value;
        return read_back(c, at, &bytes, ours, |r| InsertWithoutNameRef::decode(r).is_ok_and(|x| x.is_some_and(is)));
    }
    let bytes = [plain(3, 2, name), plain(7, 0, value)].concat();
    read_back(c, at, &bytes, ours, |r| Literal::decode(r).is_ok_and(|x| x.name == *name && x.value == *value))
}

fn write_named(c: &Command, ours: &str) -> Judged {
    let [reference, at, index] = c.numbers[..] else { unreachable!() };
    if index >= 1 << 63 {
        return refused(&listed::COUNT_TOO_LARGE, c, ours);
    }
    let (i, v) = (index as usize, &c.strings[0]);
    if reference == 2 {
        let is = |x: LiteralWithPostBaseNameRef| x.index == i && x.value == *v;
        return read_back(c, at, &named(3, 0, index, v), ours, |r| LiteralWithPostBaseNameRef::decode(r).is_ok_and(is));
    }
    let (flags, x) = match reference {
        0 => (5, LiteralWithNameRef::new_static(i, &v[..])),
        _ => (4, LiteralWithNameRef::new_dynamic(i, &v[..])),
    };
    read_back(c, at, &named(4, flags, index, v), ours, |r| LiteralWithNameRef::decode(r).is_ok_and(|y| y == x))
}

pub fn judge(c: &Command, ours: &str) -> Judged {
    match c.op {
        op::INT_WRITE => int_write(c, ours),
        op::TEXT_WRITE => text_write(c, ours),
        op::STREAM_WRITE_INTEGER => write_integer(c, ours),
        op::STREAM_WRITE_NAME_REF => write_name_ref(c, ours),
        op::BLOCK_WRITE_INDEXED => write_indexed(c, ours),
        op::BLOCK_WRITE_NAMED => write_named(c, ours),
        op::STREAM_WRITE_LITERAL | op::BLOCK_WRITE_LITERAL => write_literal(c, ours),
        _ => crate::stop("no call of the leaves"),
    }
}
