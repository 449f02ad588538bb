//! Sections: what the specification says of each, line by line with the crate's reader of one line, and what the crate says of the whole.
use crate::listed::{self, Listed};
use crate::numbers::{self, PANIC};
use crate::script::{is_section_on, is_stateless, Command};
use crate::streams::{buffer, Judged};
use crate::table::Table;
use h3::qpack::block::HeaderPrefix;
use h3::qpack::decoder::{decode_stateless, Decoded, Decoder, DecoderError};
use h3::qpack::dynamic::DynamicTable;
use h3::qpack::field::HeaderField;
use std::io::Cursor;
use std::panic::{catch_unwind, AssertUnwindSafe};

/// What reading a section came to: the answer, whether the required count was above 0, the fields that were kept, and their size sum.
#[derive(Default, PartialEq)]
struct Reading {
    number: u32,
    dynamic: bool,
    fields: Vec<HeaderField>,
    size: u64,
}

/// A section that is refused before its first line: nothing is kept.
fn refused(number: u32) -> Reading {
    Reading { number, ..Reading::default() }
}

/// A section that is refused before its first line, as replay writes it.
pub fn refused_line(number: u32, c: &Command) -> String {
    refused(number).line(c)
}

/// How many bytes a field has.
fn length(f: &HeaderField) -> usize {
    f.name.len() + f.value.len()
}

impl Reading {
    fn used(&self) -> usize {
        self.fields.iter().map(length).sum()
    }

    /// As replay writes it: a lent record that still is the fill byte three times is not told from one that was not written.
    fn line(&self, c: &Command) -> String {
        let (mut records, mut bytes, mut kept) = (String::new(), Vec::new(), 0);
        let mut passed = String::new();
        let fill = c.fill as usize;
        for (k, f) in self.fields.iter().enumerate() {
            passed.push_str(&format!(" {}:{}:{}", bytes.len(), f.name.len(), f.value.len()));
            if (bytes.len(), f.name.len(), f.value.len()) != (fill, fill, fill) {
                records.push_str(&std::mem::take(&mut passed));
                kept = k + 1;
            }
            bytes.extend_from_slice(&f.name);
            bytes.extend_from_slice(&f.value);
        }
        let more = (c.numbers[0] as usize).saturating_sub(kept);
        let rest = if more > 0 { format!(" +{more}") } else { String::new() };
        let head = format!("{} {} {} {} {}", self.number, self.dynamic as u8, self.fields.len(), bytes.len(), self.size);
        format!("{head} records{records}{rest} {}", buffer(&bytes, c.room, c.fill))
    }

    /// Whether the crate's answer says the same: of a refused section it gives the number alone.
    fn is_told_by(&self, whole: &Reading) -> bool {
        self.number == whole.number && (self.number != 0 || self == whole)
    }
}

/// The crate's answer to a whole section.
fn whole(t: &mut Table, c: &Command) -> Reading {
    let mut s = Cursor::new(&c.strings[0][..]);
    let answer = if is_stateless(c.op) {
        catch_unwind(AssertUnwindSafe(|| decode_stateless(&mut s, c.numbers[1])))
    } else {
        let d = Decoder { table: std::mem::take(&mut t.rust) };
        let answer = catch_unwind(AssertUnwindSafe(|| d.decode_header(&mut s)));
        t.rust = d.table;
        answer
    };
    match answer {
        Ok(Ok(Decoded { fields, dyn_ref, mem_size })) => Reading { number: 0, dynamic: dyn_ref, fields, size: mem_size },
        Ok(Err(e)) => refused(numbers::of_decoder(&e)),
        Err(_) => refused(PANIC),
    }
}

/// The field of the line at the front of a slice, and where the line ends, by the crate's own reader on a table.
fn line_on(t: &DynamicTable, base: usize, s: &[u8]) -> Result<(HeaderField, usize), DecoderError> {
    let mut r = Cursor::new(s);
    let f = Decoder::parse_header_field(&t.decoder(base), &mut r)?;
    Ok((f, r.position() as usize))
}

/// The same with no table: the crate's stateless reader has none for a line, so it is given a section of this one line.
fn line_stateless(s: &[u8]) -> Result<(HeaderField, usize), DecoderError> {
    let end = line_on(&DynamicTable::new(), 0, s).map_or(s.len(), |(_, end)| end);
    let one = [&[0, 0], &s[..end]].concat();
    let mut d = decode_stateless(&mut Cursor::new(&one[..]), u64::MAX)?;
    Ok((d.fields.remove(0), end))
}

/// A line's field and end, or a number.
fn line(t: &Table, c: &Command, base: usize, s: &[u8]) -> Result<(HeaderField, usize), u32> {
    let read = catch_unwind(AssertUnwindSafe(|| if is_stateless(c.op) { line_stateless(s) } else { line_on(&t.rust, base, s) }));
    read.map_err(|_| PANIC)?.map_err(|e| numbers::of_decoder(&e))
}

/// The difference that stands at the front of a slice, where a line begins.
fn listed_line(c: &Command, base: u64, s: &[u8]) -> Option<&'static Listed> {
    // "post-base in the stateless reader is 13 at its first byte"
    let post_base = s[0] & 0xe0 == 0;
    if is_stateless(c.op) {
        return (!post_base && listed::is_huffman_line(s)).then_some(&listed::HUFFMAN);
    }
    if listed::is_huffman_line(s) {
        return Some(&listed::HUFFMAN);
    }
    listed::is_post_base_past(s, base).then_some(&listed::POST_BASE_SUM)
}

/// Whose rules a section is read by.
#[derive(PartialEq)]
enum By {
    Document,
    Crate,
}

/// The lines of a section from a position on, each by the crate; by the specification with its listed differences.
fn lines(t: &Table, c: &Command, by: By, mut at: usize, base: u64, r: &mut Reading) -> Option<&'static Listed> {
    let s = &c.strings[0];
    let mut used = 0;
    while at < s.len() {
        if let Some(l) = listed_line(c, base, &s[at..]).filter(|_| by == By::Document) {
            r.number = l.number.unwrap();
            return Some(l);
        }
        let (f, len) = match line(t, c, base as usize, &s[at..]) {
            Ok(x) => x,
            Err(n) => {
                r.number = n;
                return None;
            }
        };
        let size = r.size + f.mem_size() as u64;
        if is_stateless(c.op) && size > c.numbers[1] {
            r.number = 25;
            return None;
        }
        used += length(&f);
        let full = r.fields.len() as u64 == c.numbers[0] || used as u64 > c.room;
        if full && by == By::Document {
            r.number = 24;
            return Some(&listed::OUTPUT_FULL);
        }
        r.size = size;
        r.fields.push(f);
        at += len;
    }
    None
}

/// The counts that a prefix is read with.
fn counts(t: &Table, c: &Command) -> (u64, u64) {
    if is_section_on(c.op) { (t.rust.vas.inserted as u64, t.rust.max_size as u64) } else { (0, 0) }
}

/// By the specification: RFC 9204 4.5.1 for the prefix, and then the lines.
fn by_document(t: &Table, c: &Command) -> (Reading, Option<&'static Listed>) {
    let s = &c.strings[0];
    let (total, capacity) = counts(t, c);
    let Some(p) = listed::prefix(s) else {
        let cut = HeaderPrefix::decode(&mut Cursor::new(&s[..])).map_or_else(|e| numbers::of_parse(&e), |_| PANIC);
        return (refused(cut), None);
    };
    let l = listed::of_prefix(&p, total, capacity);
    if let Some(number) = l.and_then(|l| l.number) {
        return (refused(number), l);
    }
    let required = listed::required(p.count, total, capacity).unwrap();
    if p.sign && p.delta >= required {
        return (refused(14), None);
    }
    if required > total {
        return (refused(13), None);
    }
    let base = if p.sign { required - p.delta - 1 } else { required + p.delta };
    let from = |base| {
        let mut r = Reading { dynamic: required > 0, ..Reading::default() };
        let at_line = lines(t, c, By::Document, p.end, base, &mut r);
        (r, at_line)
    };
    let (r, at_line) = from(base);
    // the crate's base is met where it comes to something else
    let is_base_met = l.is_some() && from(0).0 != r;
    (r, if is_base_met { l } else { at_line })
}

/// By the crate: its own prefix, and then its own lines one after the other.
fn by_crate(t: &Table, c: &Command) -> Reading {
    let (total, capacity) = counts(t, c);
    let mut r = Cursor::new(&c.strings[0][..]);
    let got = catch_unwind(AssertUnwindSafe(|| HeaderPrefix::decode(&mut r)?.get(total as usize, capacity as usize)));
    let (required, base) = match got {
        Ok(Ok(x)) => x,
        Ok(Err(e)) => return refused(numbers::of_decoder(&e.into())),
        Err(_) => return refused(PANIC),
    };
    if required as u64 > total {
        return refused(13);
    }
    let mut read = Reading { dynamic: required > 0, ..Reading::default() };
    lines(t, c, By::Crate, r.position() as usize, base as u64, &mut read);
    if read.number == 0 { read } else { refused(read.number) }
}

/// A section on a table, or with none: ours is what the specification says, and so is the crate's, but for a listed difference.
pub fn section(t: &mut Table, c: &Command, ours: &str) -> Judged {
    let (expected, listed) = by_document(t, c);
    let line = expected.line(c);
    if line != ours {
        return Err(line);
    }
    let whole = whole(t, c);
    if expected.is_told_by(&whole) {
        return Ok(None);
    }
    if listed.is_some() && whole == by_crate(t, c) {
        return Ok(listed);
    }
    Err(whole.line(c))
}
