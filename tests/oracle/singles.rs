//! The readers of a single instruction or field line.
use crate::leaves::{refused, same};
use crate::listed;
use crate::numbers;
use crate::script::Command;
use crate::streams::Judged;
use h3::qpack::block::*;
use h3::qpack::parse_error::ParseError;
use h3::qpack::prefix_string;
use h3::qpack::stream::*;
use std::io::Cursor;

/// An instruction that is one integer, by its kind as docs/REPLAY.md numbers them.
fn integer(kind: u64, r: &mut Cursor<&[u8]>) -> Result<Option<u64>, ParseError> {
    match kind {
        0 => Duplicate::decode(r).map(|x| x.map(|x| x.0 as u64)),
        1 => DynamicTableSizeUpdate::decode(r).map(|x| x.map(|x| x.0 as u64)),
        4 => InsertCountIncrement::decode(r).map(|x| x.map(|x| x.0 as u64)),
        5 => StreamCancel::decode(r).map(|x| x.map(|x| x.0)),
        6 => HeaderAck::decode(r).map(|x| x.map(|x| x.0)),
        _ => crate::stop("no integer instruction"),
    }
}

pub fn read_integer(c: &Command, ours: &str) -> Judged {
    let at = c.numbers[1] as usize;
    let mut r = Cursor::new(&c.strings[0][at..]);
    let line = match integer(c.numbers[0], &mut r) {
        Ok(Some(x)) => format!("0 {x} {}", at as u64 + r.position()),
        Ok(None) => "0 cut".into(),
        Err(e) => numbers::of_parse(&e).to_string(),
    };
    same(line, ours)
}

/// What the crate reads of an instruction or a line with strings: its kind and index as replay writes them, and its strings.
type Parts = (String, Vec<Vec<u8>>);

/// Where each string stands, as replay writes it. The last one ends where the instruction or the line does; a name before it is read again.
fn places(s: &[u8], at: usize, end: usize, name_width: u8, strings: &[Vec<u8>]) -> String {
    let mut ends = vec![end];
    if strings.len() == 2 {
        let mut r = Cursor::new(&s[at..]);
        let name = prefix_string::decode(name_width + 1, &mut r);
        assert_eq!(name.as_ref(), Ok(&strings[0]));
        ends.insert(0, at + r.position() as usize);
    }
    let place = |(end, x): (&usize, &Vec<u8>)| {
        // a plain string is the bytes before its end
        assert_eq!(*x, s[end - x.len()..*end]);
        format!(" {} {}", end - x.len(), x.len())
    };
    ends.iter().zip(strings).map(place).collect()
}

/// The crate's answer as replay writes it; the end is counted from the position.
fn with_strings(c: &Command, name_width: u8, rust: Result<Option<Parts>, ParseError>, end: u64) -> String {
    let at = c.numbers[0] as usize;
    let end = at + end as usize;
    match rust {
        Err(e) => numbers::of_parse(&e).to_string(),
        Ok(None) => "0 cut".into(),
        Ok(Some((head, strings))) => format!("{head}{} {end}", places(&c.strings[0], at, end, name_width, &strings)),
    }
}

pub fn read_name_ref(c: &Command, ours: &str) -> Judged {
    let s = &c.strings[0][c.numbers[0] as usize..];
    if s.first().is_some_and(|b| b & 0x80 != 0) && listed::is_huffman_instruction(s) {
        return refused(&listed::HUFFMAN, c, ours);
    }
    let mut r = Cursor::new(s);
    let rust = InsertWithNameRef::decode(&mut r).map(|x| {
        x.map(|x| match x {
            InsertWithNameRef::Static { index, value } => (format!("0 1 {index}"), vec![value]),
            InsertWithNameRef::Dynamic { index, value } => (format!("0 0 {index}"), vec![value]),
        })
    });
    same(with_strings(c, 0, rust, r.position()), ours)
}

pub fn read_literal(c: &Command, ours: &str) -> Judged {
    let s = &c.strings[0][c.numbers[0] as usize..];
    // the literal insert's reader tests no kind, so its bytes are read as if they were one
    let mut kind = s.to_vec();
    kind.first_mut().map(|b| *b = *b & 0x3f | 0x40);
    if listed::is_huffman_instruction(&kind) {
        return refused(&listed::HUFFMAN, c, ours);
    }
    let mut r = Cursor::new(s);
    let rust = InsertWithoutNameRef::decode(&mut r).map(|x| x.map(|x| ("0".into(), vec![x.name, x.value])));
    same(with_strings(c, 5, rust, r.position()), ours)
}

/// A field line by the crate's reader of its kind.
fn parts(first: u8, r: &mut Cursor<&[u8]>) -> Result<Parts, ParseError> {
    let indexed = |r: &str, i: usize| (format!("0 indexed {r} {i}"), vec![]);
    let named = |r: &str, i: usize, value: Vec<u8>| (format!("0 named {r} {i}"), vec![value]);
    match HeaderBlockField::decode(first) {
        HeaderBlockField::Indexed => Indexed::decode(r).map(|x| match x {
            Indexed::Static(i) => indexed("static", i),
            Indexed::Dynamic(i) => indexed("relative", i),
        }),
        HeaderBlockField::IndexedWithPostBase => IndexedWithPostBase::decode(r).map(|x| indexed("post-base", x.0)),
        HeaderBlockField::LiteralWithNameRef => LiteralWithNameRef::decode(r).map(|x| match x {
            LiteralWithNameRef::Static { index, value } => named("static", index, value),
            LiteralWithNameRef::Dynamic { index, value } => named("relative", index, value),
        }),
        HeaderBlockField::LiteralWithPostBaseNameRef => LiteralWithPostBaseNameRef::decode(r).map(|x| named("post-base", x.index, x.value)),
        HeaderBlockField::Literal => Literal::decode(r).map(|x| ("0 literal".into(), vec![x.name, x.value])),
        HeaderBlockField::Unknown => crate::stop("a byte with no kind"),
    }
}

pub fn read_line(c: &Command, ours: &str) -> Judged {
    let s = &c.strings[0][c.numbers[0] as usize..];
    let Some(first) = s.first() else { return same("1".into(), ours) };
    if listed::is_huffman_line(s) {
        return refused(&listed::HUFFMAN, c, ours);
    }
    let mut r = Cursor::new(s);
    let rust = parts(*first, &mut r).map(Some);
    same(with_strings(c, 3, rust, r.position()), ours)
}
