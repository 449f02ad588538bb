//! The calls without a table: integers, strings, the static table, indexes, kinds and prefixes. The writers are in writers.rs, the readers
//! of a single instruction or field line in singles.rs.
use crate::listed::{self, Listed};
use crate::numbers;
use crate::script::{op, shape, Command};
use crate::singles::{read_integer, read_line, read_literal, read_name_ref};
use crate::streams::{buffer, Judged};
use crate::table::field;
use crate::writers::{self, encoded, placed};
use h3::qpack::block::{HeaderBlockField, HeaderPrefix};
use h3::qpack::static_::StaticTable;
use h3::qpack::stream::{DecoderInstruction, EncoderInstruction};
use h3::qpack::vas::VirtualAddressSpace;
use h3::qpack::{prefix_int, prefix_string};
use std::io::Cursor;
use std::panic::{catch_unwind, AssertUnwindSafe};

pub fn same(expected: String, ours: &str) -> Judged {
    if expected == ours { Ok(None) } else { Err(expected) }
}

/// A refused call as replay writes it: the number, and the untouched buffer where the call has one.
pub fn refused(l: &'static Listed, c: &Command, ours: &str) -> Judged {
    let number = l.number.unwrap();
    let has_buffer = shape(c.op).is_some_and(|s| s.buffer);
    let line = if has_buffer { format!("{number} {}", buffer(&[], c.room, c.fill)) } else { number.to_string() };
    same(line, ours).map(|_| Some(l))
}

fn int_read(c: &Command, ours: &str) -> Judged {
    let (at, width, s) = (c.numbers[0] as usize, c.numbers[1], &c.strings[0]);
    if !(1..=8).contains(&width) {
        return refused(&listed::BAD_WIDTH, c, ours);
    }
    let mut r = Cursor::new(&s[at..]);
    same(
        match prefix_int::decode(width as u8, &mut r) {
            Ok((flags, value)) => format!("0 {flags} {value} {}", at as u64 + r.position()),
            Err(e) => numbers::of_int(&e).to_string(),
        },
        ours,
    )
}

fn int_size(c: &Command, ours: &str) -> Judged {
    let (value, width) = (c.numbers[0], c.numbers[1]);
    if !(1..=8).contains(&width) {
        return refused(&listed::BAD_WIDTH, c, ours);
    }
    if value >= 1 << 63 {
        return refused(&listed::COUNT_TOO_LARGE, c, ours);
    }
    same(format!("0 {}", encoded(width, 0, value).len()), ours)
}

fn text_read(c: &Command, ours: &str) -> Judged {
    let (at, width, s) = (c.numbers[0] as usize, c.numbers[1], &c.strings[0]);
    if !(1..=7).contains(&width) {
        return refused(&listed::BAD_WIDTH, c, ours);
    }
    if s.get(at).is_some_and(|b| b >> width & 1 == 1) {
        return refused(&listed::HUFFMAN, c, ours);
    }
    let mut r = Cursor::new(&s[at..]);
    same(
        match prefix_string::decode(width as u8 + 1, &mut r) {
            Ok(x) => {
                let next = at + r.position() as usize;
                // a plain string is the bytes before the end
                assert_eq!(x, s[next - x.len()..next]);
                format!("0 {} {} {} {next}", s[at] as u32 >> (width + 1), next - x.len(), x.len())
            }
            Err(e) => numbers::of_string(&e).to_string(),
        },
        ours,
    )
}

/// The crate's static table, its names and values laid end to end.
fn laid() -> Vec<u8> {
    (0..).map_while(|k| StaticTable::get(k).ok()).flat_map(|f| [&f.name[..], &f.value[..]].concat()).collect()
}

/// Where an entry's bytes start in it.
pub fn laid_before(index: u64) -> usize {
    (0..index as usize).map(|k| StaticTable::get(k).map_or(0, |f| f.name.len() + f.value.len())).sum()
}

fn static_copy(c: &Command, ours: &str) -> Judged {
    let [at, start, len] = c.numbers[..] else { unreachable!() };
    let all = laid();
    let end = start.saturating_add(len);
    if end > all.len() as u64 {
        crate::stop("the crate has no such bytes in its static table");
    }
    placed(c, at, &all[start as usize..end as usize], ours)
}

fn statics(c: &Command, ours: &str) -> Judged {
    let found = |i: Option<usize>| i.map_or("0 not-found".into(), |i| format!("0 found {i}"));
    let line = match c.op {
        op::STATIC_FIND => found(StaticTable::find(&field(&c.strings[0], &c.strings[1]))),
        op::STATIC_FIND_NAME => found(StaticTable::find_name(&c.strings[0])),
        _ => match StaticTable::get(c.numbers[0] as usize) {
            Ok(f) => format!("0 {} {} {}", laid_before(c.numbers[0]), f.name.len(), f.value.len()),
            Err(_) => "4".into(),
        },
    };
    same(line, ours)
}

fn address(c: &Command, ours: &str) -> Judged {
    let n: Vec<usize> = c.numbers.iter().map(|n| *n as usize).collect();
    let (inserted, dropped) = (n[0], n[1]);
    let v = VirtualAddressSpace { inserted, dropped, delta: inserted.wrapping_sub(dropped) };
    if c.op == op::VAS_LARGEST_REF {
        return same(format!("0 {}", v.largest_ref()), ours);
    }
    if c.op == op::VAS_POST_BASE && n[2].checked_add(n[3]).is_none() {
        return refused(&listed::POST_BASE_SUM, c, ours);
    }
    let r = match c.op {
        op::VAS_RELATIVE => v.relative(n[2]),
        op::VAS_RELATIVE_BASE => v.relative_base(n[2], n[3]),
        op::VAS_POST_BASE => v.post_base(n[2], n[3]),
        _ => v.index(n[2]),
    };
    same(
        match r {
            // as the table's get: a position past the live count is BadIndex
            Ok(p) if c.op != op::VAS_INDEX && p >= inserted - dropped => "7".into(),
            Ok(p) => format!("0 {p}"),
            Err(e) => numbers::of_vas(&e).to_string(),
        },
        ours,
    )
}

fn kinds(c: &Command, ours: &str) -> Judged {
    let first = c.numbers[0] as u8;
    // as docs/REPLAY.md numbers them
    let kind = match c.op {
        op::ENCODER_KIND => match EncoderInstruction::decode(first) {
            EncoderInstruction::Duplicate => 0,
            EncoderInstruction::DynamicTableSizeUpdate => 1,
            EncoderInstruction::InsertWithoutNameRef => 2,
            EncoderInstruction::InsertWithNameRef => 3,
            EncoderInstruction::Unknown => crate::stop("a byte with no kind"),
        },
        op::DECODER_KIND => match DecoderInstruction::decode(first) {
            DecoderInstruction::InsertCountIncrement => 4,
            DecoderInstruction::StreamCancel => 5,
            DecoderInstruction::HeaderAck => 6,
            DecoderInstruction::Unknown => crate::stop("a byte with no kind"),
        },
        _ => match HeaderBlockField::decode(first) {
            HeaderBlockField::LiteralWithPostBaseNameRef => 7,
            HeaderBlockField::IndexedWithPostBase => 8,
            HeaderBlockField::Literal => 9,
            HeaderBlockField::LiteralWithNameRef => 10,
            HeaderBlockField::Indexed => 11,
            HeaderBlockField::Unknown => crate::stop("a byte with no kind"),
        },
    };
    same(format!("0 {kind}"), ours)
}

/// The crate's answer to a prefix, as replay writes it.
fn prefix_line(s: &[u8], at: u64, total: u64, capacity: u64) -> String {
    let mut r = Cursor::new(s);
    let got = catch_unwind(AssertUnwindSafe(|| HeaderPrefix::decode(&mut r)?.get(total as usize, capacity as usize)));
    match got {
        Ok(Ok((required, _))) if required as u64 > total => "13".into(),
        Ok(Ok((required, base))) => format!("0 {required} {base} {}", at + r.position()),
        Ok(Err(e)) => numbers::of_parse(&e).to_string(),
        Err(_) => "panic".into(),
    }
}

fn read_prefix(c: &Command, ours: &str) -> Judged {
    let [at, total, capacity] = c.numbers[..] else { unreachable!() };
    let s = &c.strings[0][at as usize..];
    let Some((p, l)) = listed::prefix(s).and_then(|p| listed::of_prefix(&p, total, capacity).map(|l| (p, l))) else {
        return same(prefix_line(s, at, total, capacity), ours);
    };
    if l.number.is_some() {
        return refused(l, c, ours);
    }
    // the base is the delta, and the crate's is 0
    same(format!("0 0 {} {}", p.delta, at + p.end as u64), ours)?;
    let rust = prefix_line(s, at, total, capacity);
    if rust == format!("0 0 0 {}", at + p.end as u64) { Ok(Some(l)) } else { Err(rust) }
}

pub fn judge(c: &Command, ours: &str) -> Judged {
    match c.op {
        op::INT_READ => int_read(c, ours),
        op::INT_SIZE => int_size(c, ours),
        op::TEXT_READ => text_read(c, ours),
        op::STATIC_GET | op::STATIC_FIND | op::STATIC_FIND_NAME => statics(c, ours),
        op::STATIC_COPY => static_copy(c, ours),
        op::VAS_RELATIVE | op::VAS_RELATIVE_BASE | op::VAS_POST_BASE | op::VAS_INDEX | op::VAS_LARGEST_REF => address(c, ours),
        op::STREAM_READ_INTEGER => read_integer(c, ours),
        op::STREAM_READ_NAME_REF => read_name_ref(c, ours),
        op::STREAM_READ_LITERAL => read_literal(c, ours),
        op::BLOCK_READ_LINE => read_line(c, ours),
        op::ENCODER_KIND | op::DECODER_KIND | op::LINE_KIND => kinds(c, ours),
        op::READ_PREFIX => read_prefix(c, ours),
        _ => writers::judge(c, ours),
    }
}
