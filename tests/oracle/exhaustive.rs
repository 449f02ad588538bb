//! Short inputs, all of them.
use crate::bounds::bounds;
use crate::inputs::integer;
use crate::leaves::laid_before;
use crate::pair::{Fault, Pair};
use crate::script::{op, Command};

type List = fn(&mut Pair) -> Result<(), Fault>;

pub const LISTS: &[(&str, List)] = &[
    ("integers", integers),
    ("bytes", bytes),
    ("prefixes", prefixes),
    ("bounds", bounds),
    ("encoder-streams", encoder_streams),
    ("decoder-streams", decoder_streams),
    ("encoder-streams-3", encoder_streams_3),
    ("decoder-streams-3", decoder_streams_3),
    ("sections", sections),
    ("stateless", stateless),
    ("lines", lines),
    ("rooms", rooms),
];

/// All strings of bytes up to a length whose first byte lies in a part, shortest first; the empty one is in the part of 0.
fn strings(longest: usize, part: (u8, u8), mut each: impl FnMut(&[u8]) -> Result<(), Fault>) -> Result<(), Fault> {
    if part.0 == 0 {
        each(&[])?;
    }
    for len in 1..=longest as u32 {
        let one = 256u64.pow(len - 1);
        for n in part.0 as u64 * one..(part.1 as u64 + 1) * one {
            let b = n.to_be_bytes();
            each(&b[8 - len as usize..])?;
        }
    }
    Ok(())
}

fn around(width: u64) -> Vec<u64> {
    let top = (1u64 << width) - 1;
    let mut values = vec![0, 1, 2, 10, 1337, u64::MAX, u64::MAX - 1];
    for k in 0..64 {
        let edge = 1u64 << k;
        values.extend([edge - 1, edge, edge + 1, top.wrapping_add(edge - 1), top.wrapping_add(edge), top.wrapping_add(edge + 1)]);
    }
    values.push(top);
    values.sort();
    values.dedup();
    values
}

/// Every width and value around each boundary: size, written into every buffer that matters, read back whole and cut everywhere.
fn integers(p: &mut Pair) -> Result<(), Fault> {
    p.reset()?;
    for width in 0..=9 {
        for value in around(width.min(8)) {
            p.step(Command::new(op::INT_SIZE, 0, &[value, width], &[]))?;
            for flags in [0, 1, 2, 127, 255] {
                for room in [0, 1, 2, 9, 10, 11, 12] {
                    p.step(Command::new(op::INT_WRITE, 0, &[0, width, flags, value], &[]).buffer(room, 0xee))?;
                }
            }
            p.step(Command::new(op::INT_WRITE, 0, &[3, width, 0, value], &[]).buffer(13, 0))?;
            p.step(Command::new(op::INT_WRITE, 0, &[u64::MAX, width, 0, value], &[]).buffer(13, 0))?;
            if (1..=8).contains(&width) {
                let s = integer(width as u8, 0, value);
                for end in 0..=s.len() {
                    p.step(Command::new(op::INT_READ, 0, &[0, width], &[&s[..end]]))?;
                }
            }
        }
    }
    Ok(())
}

/// Every first byte and kind, every static entry, and the single readers on all strings of two bytes.
fn bytes(p: &mut Pair) -> Result<(), Fault> {
    p.reset()?;
    for first in 0..256 {
        for o in [op::ENCODER_KIND, op::DECODER_KIND, op::LINE_KIND] {
            p.step(Command::new(o, 0, &[first], &[]))?;
        }
    }
    for index in 0..300 {
        p.step(Command::new(op::STATIC_GET, 0, &[index], &[]))?;
    }
    for index in 0..99 {
        let (start, end) = (laid_before(index) as u64, laid_before(index + 1) as u64);
        p.step(Command::new(op::STATIC_COPY, 0, &[1, start, end - start], &[]).buffer(150, 0xee))?;
    }
    calls(p, 2, |s, out| {
        for kind in [0, 1, 4, 5, 6] {
            out.push(Command::new(op::STREAM_READ_INTEGER, 0, &[kind, 0], &[s]));
        }
        for width in 1..=8 {
            out.push(Command::new(op::INT_READ, 0, &[0, width], &[s]));
            out.push(Command::new(op::TEXT_READ, 0, &[0, width], &[s]));
        }
        for o in [op::STREAM_READ_NAME_REF, op::STREAM_READ_LITERAL, op::BLOCK_READ_LINE] {
            out.push(Command::new(o, 0, &[0], &[s]));
        }
    })
}

/// Every prefix for small capacities and counts.
fn prefixes(p: &mut Pair) -> Result<(), Fault> {
    p.reset()?;
    for capacity in [0, 1, 31, 32, 63, 64, 96, 128, 220] {
        for total in 0..20 {
            for count in 0..20 {
                for sign in [0, 1] {
                    for delta in 0..8 {
                        let mut s = integer(8, 0, count);
                        s.extend(integer(7, sign, delta));
                        p.step(Command::new(op::READ_PREFIX, 0, &[0, total, capacity], &[&s]))?;
                    }
                }
            }
        }
    }
    Ok(())
}

/// Tables to try things on: 1 empty at capacity 0, 2 with B.2's two entries, 3 after drops, with a section committed and entries in use.
fn tables(p: &mut Pair) -> Result<(), Fault> {
    p.reset()?;
    p.step(Command::new(op::SET_CAPACITY, 2, &[220], &[]))?;
    p.step(Command::new(op::PUT, 2, &[], &[b":authority", b"www.example.com"]))?;
    p.step(Command::new(op::PUT, 2, &[], &[b":path", b"/sample/path"]))?;
    p.step(Command::new(op::SET_CAPACITY, 3, &[106], &[]))?;
    p.step(Command::new(op::SET_MAX_BLOCKED, 3, &[2], &[]))?;
    for value in [b"a", b"b", b"c", b"d"] {
        p.step(Command::new(op::PUT, 3, &[], &[b"x", value]))?;
    }
    for stream in [1, 1, 2] {
        p.step(Command::new(op::BEGIN, 3, &[stream], &[]))?;
        p.step(Command::new(op::FIND, 3, &[], &[b"x", b"d"]))?;
        p.step(Command::new(op::COMMIT, 3, &[stream], &[]))?;
    }
    Ok(())
}

/// How many short inputs go together: what is sent fits a pipe.
const TOGETHER: usize = 256;

/// All strings up to a length, each made into calls that are sent many at a time.
fn calls(p: &mut Pair, longest: usize, mut make: impl FnMut(&[u8], &mut Vec<Command>)) -> Result<(), Fault> {
    let made = p.log.len();
    let mut waiting = Vec::new();
    strings(longest, p.part, |s| {
        make(s, &mut waiting);
        if waiting.len() < TOGETHER {
            return Ok(());
        }
        p.log.truncate(made);
        p.batch(std::mem::take(&mut waiting))
    })?;
    p.batch(waiting)
}

/// All slices up to a length, each on a copy of a table.
fn on_copies(p: &mut Pair, from: u64, longest: usize, call: fn(&[u8]) -> Command) -> Result<(), Fault> {
    calls(p, longest, |s, out| out.extend([Command::new(op::COPY, 0, &[from], &[]), call(s)]))
}

/// Up to a length, on each table; with three bytes about three quarters of an hour.
fn on_each(p: &mut Pair, longest: usize, call: fn(&[u8]) -> Command) -> Result<(), Fault> {
    tables(p)?;
    (1..=3).try_for_each(|from| on_copies(p, from, longest, call))
}

fn to_encoder_stream(s: &[u8]) -> Command {
    Command::new(op::ON_ENCODER_RECV, 0, &[], &[s]).buffer(4, 0xaa)
}

fn to_decoder_stream(s: &[u8]) -> Command {
    Command::new(op::ON_DECODER_RECV, 0, &[], &[s])
}

fn encoder_streams(p: &mut Pair) -> Result<(), Fault> {
    on_each(p, 2, to_encoder_stream)
}

fn decoder_streams(p: &mut Pair) -> Result<(), Fault> {
    on_each(p, 2, to_decoder_stream)
}

fn encoder_streams_3(p: &mut Pair) -> Result<(), Fault> {
    on_each(p, 3, to_encoder_stream)
}

fn decoder_streams_3(p: &mut Pair) -> Result<(), Fault> {
    on_each(p, 3, to_decoder_stream)
}

fn sections(p: &mut Pair) -> Result<(), Fault> {
    tables(p)?;
    for (table, longest) in [(1, 2), (2, 3), (3, 3)] {
        calls(p, longest, |s, out| out.push(Command::new(op::SECTION_ON, table, &[8], &[s]).buffer(600, 0xaa)))?;
    }
    Ok(())
}

fn stateless(p: &mut Pair) -> Result<(), Fault> {
    p.reset()?;
    calls(p, 3, |s, out| out.push(Command::new(op::SECTION_STATELESS, 0, &[8, 100], &[s]).buffer(600, 0xaa)))
}

/// Prefixes: count 0 with base 0, 1, 2 and 300; on the table of B.2 two entries with base 2, 1 and 0; on the one after drops four with base 4, 2 and 5.
const PREFIXES: &[&[u8]] = &[
    b"\x00\x00", b"\x00\x01", b"\x00\x02", b"\x00\x7f\xad\x01", b"\x03\x00", b"\x03\x80", b"\x03\x81", b"\x05\x00", b"\x05\x81", b"\x05\x01",
];

/// All slices up to two bytes after each prefix.
fn lines(p: &mut Pair) -> Result<(), Fault> {
    tables(p)?;
    for start in PREFIXES {
        calls(p, 2, |s, out| {
            let s = [start, s].concat();
            for (o, table) in [(op::SECTION_ON, 2), (op::SECTION_ON, 3), (op::DECODE_HEADER, 3)] {
                out.push(Command::new(o, table, &[8], &[&s]).buffer(100, 0xaa));
            }
            out.push(Command::new(op::SECTION_STATELESS, 0, &[8, 100], &[&s]).buffer(100, 0xaa));
        })?;
    }
    Ok(())
}

/// Lines that are good on the table of B.2 or on none, that name no entry, have H set, or are cut.
const LINES: &[&[u8]] = &[
    b"\xd1", b"\xc0", b"\xff\x24", b"\x80", b"\x81", b"\x84", b"\x10", b"\x11", b"\x50\x01a", b"\x51\x81\x1f", b"\x40\x00", b"\x00\x02bc", b"\x02\x00",
    b"\x21a\x03xyz", b"\x20\x00", b"\x29a\x00", b"\x23a",
];

/// Sections of two lines, with every small list and buffer, on the table of B.2 and with none.
fn rooms(p: &mut Pair) -> Result<(), Fault> {
    tables(p)?;
    let made = p.log.len();
    for start in [&b"\x00\x00"[..], b"\x03\x00", b"\x03\x81", b"\x00\x02", b"\x00\x01"] {
        for first in LINES {
            for second in LINES {
                let s = [start, first, second].concat();
                p.log.truncate(made);
                p.batch(in_rooms(&s))?;
            }
        }
    }
    Ok(())
}

/// Up to two records, and as many bytes as two fields have at the most.
fn in_rooms(s: &[u8]) -> Vec<Command> {
    let mut calls = Vec::new();
    for records in 0..=2 {
        for room in 0..=52 {
            for o in [op::SECTION_ON, op::DECODE_HEADER] {
                calls.push(Command::new(o, 2, &[records], &[s]).buffer(room, 0xaa));
            }
            for o in [op::SECTION_STATELESS, op::DECODE_STATELESS] {
                calls.push(Command::new(o, 0, &[records, 70 + room % 8], &[s]).buffer(room, 0xaa));
            }
        }
    }
    calls
}
