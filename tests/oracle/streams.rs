//! Calls on the two streams: what the specification says of each, one instruction after the other with the crate's own functions, and what
//! the crate says of the whole call.
use crate::listed::{self, Listed};
use crate::numbers::{self, PANIC};
use crate::script::Command;
use crate::table::Table;
use h3::qpack::decoder::Decoder;
use h3::qpack::encoder::Encoder;
use h3::qpack::parse_error::ParseError;
use h3::qpack::stream::*;
use std::io::Cursor;
use std::panic::{catch_unwind, AssertUnwindSafe};

/// The listed difference that was met, if one was; or what ours should have answered.
pub type Judged = Result<Option<&'static Listed>, String>;

/// A buffer as replay writes it: up to the last byte that is not the fill, and how many more follow.
pub fn buffer(bytes: &[u8], room: u64, fill: u8) -> String {
    let mut all = bytes.to_vec();
    all.resize(room as usize, fill);
    let kept = all.iter().rposition(|b| *b != fill).map_or(0, |k| k + 1);
    let mut text = String::from("0x");
    all[..kept].iter().for_each(|b| text.push_str(&format!("{b:02x}")));
    if kept < all.len() {
        text.push_str(&format!(" +{}", all.len() - kept));
    }
    text
}

/// What a call on the encoder stream came to.
struct Received {
    number: u32,
    consumed: usize,
    written: Vec<u8>,
}

impl Received {
    fn line(&self, t: &Table, c: &Command) -> String {
        let inserted = t.rust.vas.inserted;
        format!("{} {} {inserted} {} {}", self.number, self.consumed, self.written.len(), buffer(&self.written, c.room, c.fill))
    }
}

/// A call that is refused before its first instruction: nothing is consumed, and nothing is written.
fn stopped(number: u32, consumed: usize) -> Received {
    Received { number, consumed, written: Vec::new() }
}

/// Such a call, as replay writes it.
pub fn refused_line(number: u32, t: &Table, c: &Command) -> String {
    stopped(number, 0).line(t, c)
}

/// The crate's answer to a slice of the encoder stream.
fn receive(t: &mut Table, s: &[u8]) -> Received {
    let mut d = Decoder { table: std::mem::take(&mut t.rust) };
    let mut read = Cursor::new(s);
    let mut written = Vec::new();
    let answer = catch_unwind(AssertUnwindSafe(|| d.on_encoder_recv(&mut read, &mut written)));
    t.rust = d.table;
    let number = match answer {
        Ok(Ok(_)) => 0,
        Ok(Err(e)) => numbers::of_decoder(&e),
        Err(_) => PANIC,
    };
    Received { number, consumed: read.position() as usize, written }
}

/// How long the instruction at the front of a slice is, by the crate's own readers; none where it is cut.
fn instruction(s: &[u8]) -> Result<Option<usize>, u32> {
    let Some(first) = s.first() else { return Ok(None) };
    let mut r = Cursor::new(s);
    let is_whole: Result<bool, ParseError> = match EncoderInstruction::decode(*first) {
        EncoderInstruction::Duplicate => Duplicate::decode(&mut r).map(|x| x.is_some()),
        EncoderInstruction::DynamicTableSizeUpdate => DynamicTableSizeUpdate::decode(&mut r).map(|x| x.is_some()),
        EncoderInstruction::InsertWithoutNameRef => InsertWithoutNameRef::decode(&mut r).map(|x| x.is_some()),
        EncoderInstruction::InsertWithNameRef => InsertWithNameRef::decode(&mut r).map(|x| x.is_some()),
        EncoderInstruction::Unknown => crate::stop("a byte with no kind"),
    };
    match is_whole {
        Ok(is_whole) => Ok(is_whole.then_some(r.position() as usize)),
        Err(e) => Err(numbers::of_parse(&e)),
    }
}

/// The difference that the instruction at the front of a slice is, on the table before it.
fn listed_instruction(t: &Table, s: &[u8]) -> Option<&'static Listed> {
    if listed::is_huffman_instruction(s) {
        return Some(&listed::HUFFMAN);
    }
    let capacity = listed::capacity_set(s)?;
    if listed::is_above_room(capacity) {
        return Some(&listed::ABOVE_ROOM);
    }
    listed::is_shrink_blocked(t, capacity).then_some(&listed::SHRINK_BLOCKED)
}

/// Applies one whole instruction; 23 where the total would pass 2^62-1.
fn apply(t: &mut Table, s: &[u8]) -> u32 {
    let kept = (t.rust.vas.inserted as u64 >= listed::LARGEST_COUNT).then(|| t.clone());
    let number = receive(t, s).number;
    match kept {
        Some(before) if t.rust.vas.inserted > before.rust.vas.inserted => {
            *t = before;
            23
        }
        _ => number,
    }
}

/// By the specification: what the call comes to, the difference at which it stops, and how long a refused instruction read whole is.
struct Stream {
    received: Received,
    listed: Option<&'static Listed>,
    unread: usize,
}

/// One instruction after the other, each by the crate; a bad one stays unread.
fn instructions(t: &mut Table, s: &[u8]) -> Stream {
    let before = t.rust.vas.inserted;
    let mut at = 0;
    let ended = |received, listed, unread| Stream { received, listed, unread };
    loop {
        let rest = &s[at..];
        if let Some(l) = listed_instruction(t, rest) {
            return ended(stopped(l.number.unwrap(), at), Some(l), 0);
        }
        let len = match instruction(rest) {
            Ok(Some(len)) => len,
            Ok(None) => break,
            Err(n) => return ended(stopped(n, at), None, 0),
        };
        match apply(t, &rest[..len]) {
            0 => at += len,
            23 => return ended(stopped(23, at), Some(&listed::COUNT_TOO_LARGE), 0),
            n => return ended(stopped(n, at), None, len),
        }
    }
    let mut received = stopped(0, at);
    match t.rust.vas.inserted - before {
        0 => (),
        n if n <= 255 => InsertCountIncrement(n as u8).encode(&mut received.written),
        _ => received.number = 16,
    }
    ended(received, None, 0)
}

/// A call on the encoder stream. The crate's table becomes what the call leaves by the specification.
pub fn on_encoder(t: &mut Table, c: &Command, ours: &str) -> Judged {
    let s = &c.strings[0];
    let mut after = t.clone();
    let whole = receive(&mut after, s);
    let stream = instructions(t, s);
    let line = stream.received.line(t, c);
    if line != ours {
        return Err(line);
    }
    if whole.line(&after, c) == line {
        // the table is the one that the crate's own call left
        *t = after;
        return Ok(None);
    }
    let Received { number, consumed, .. } = stream.received;
    let is_consumed = matches!(number, 8 | 9) && whole.number == number && whole.consumed == consumed + stream.unread;
    if is_consumed && t.is_same(&after) {
        return Ok(Some(&listed::UNREAD_8_9));
    }
    stream.listed.map(Some).ok_or_else(|| whole.line(&after, c))
}

/// A report at the front of a slice.
enum Report {
    Acknowledge(u64),
    Cancel(u64),
    Increment(u64),
}

/// By the crate's own readers, with its length; Ok(None) where it is cut.
fn report(s: &[u8]) -> Result<Option<(Report, usize)>, u32> {
    let mut c = Cursor::new(s);
    if s.is_empty() {
        return Ok(None);
    }
    let read = match DecoderInstruction::decode(s[0]) {
        DecoderInstruction::HeaderAck => HeaderAck::decode(&mut c).map(|x| x.map(|x| Report::Acknowledge(x.0))),
        DecoderInstruction::StreamCancel => StreamCancel::decode(&mut c).map(|x| x.map(|x| Report::Cancel(x.0))),
        _ => InsertCountIncrement::decode(&mut c).map(|x| x.map(|x| Report::Increment(x.0 as u64))),
    };
    match read {
        Ok(x) => Ok(x.map(|x| (x, c.position() as usize))),
        Err(e) => Err(numbers::of_parse(&e)),
    }
}

/// What a call on the decoder stream comes to, how long a refused report is that was read whole, and whether a stream was cancelled that
/// had not just one section queued.
#[derive(Clone, Copy, PartialEq)]
struct Told {
    number: u32,
    consumed: usize,
    unread: usize,
    cancelled: bool,
}

/// A report by the specification: "a cancellation releasing one section by `untrack_block`", and no count past 2^62-1.
fn by_document(t: &mut Table, r: &Report) -> u32 {
    let released = match r {
        Report::Acknowledge(stream) | Report::Cancel(stream) => t.rust.untrack_block(*stream),
        Report::Increment(n) if *n > listed::LARGEST_COUNT - t.rust.largest_known_received as u64 => return 23,
        Report::Increment(n) => {
            t.rust.update_largest_received(*n as usize);
            Ok(())
        }
    };
    released.map_or_else(|e| numbers::of_table(&e), |()| 0)
}

/// A report as the crate takes it: a cancellation releases two sections where there are two, and is never refused (D1).
fn by_crate(t: &mut Table, r: &Report) -> u32 {
    match r {
        Report::Acknowledge(stream) => t.rust.untrack_block(*stream).map_or_else(|e| numbers::of_table(&e), |()| 0),
        Report::Cancel(stream) => {
            let _ = t.rust.untrack_block(*stream).and_then(|()| t.rust.untrack_block(*stream));
            0
        }
        Report::Increment(n) => {
            t.rust.update_largest_received(*n as usize);
            0
        }
    }
}

/// Reports one after the other; a refused one stays unread.
fn reports(t: &mut Table, s: &[u8], take: fn(&mut Table, &Report) -> u32) -> Told {
    let mut told = Told { number: 0, consumed: 0, unread: 0, cancelled: false };
    loop {
        let (r, len) = match report(&s[told.consumed..]) {
            Ok(Some(x)) => x,
            Ok(None) => return told,
            Err(number) => return Told { number, ..told },
        };
        told.cancelled |= matches!(r, Report::Cancel(stream) if t.queued_on(stream) != 1);
        match take(t, &r) {
            0 => told.consumed += len,
            number => return Told { number, unread: len, ..told },
        }
    }
}

/// The crate's answer to a slice of the decoder stream: its number, and what it consumed.
fn whole_reports(t: &mut Table, s: &[u8]) -> (u32, usize) {
    let mut e = Encoder { table: std::mem::take(&mut t.rust) };
    let mut read = Cursor::new(s);
    let answer = catch_unwind(AssertUnwindSafe(|| e.on_decoder_recv(&mut read)));
    t.rust = e.table;
    let number = match answer {
        Ok(Ok(())) => 0,
        Ok(Err(e)) => numbers::of_encoder(&e),
        Err(_) => PANIC,
    };
    (number, read.position() as usize)
}

/// A call on the decoder stream: ours is what the specification says, and the crate's what its own reports come to.
pub fn on_decoder(t: &mut Table, c: &Command, ours: &str) -> Judged {
    let s = &c.strings[0];
    let (mut after, mut walked) = (t.clone(), t.clone());
    let told = reports(&mut walked, s, by_document);
    let line = format!("{} {}", told.number, told.consumed);
    if line != ours {
        return Err(line);
    }
    let whole = whole_reports(&mut after, s);
    if whole == (told.number, told.consumed) && walked.is_same(&after) {
        *t = after;
        return Ok(None);
    }
    let stepped = reports(t, s, by_crate);
    // a refused report is consumed by the crate (D2)
    let as_listed = whole == (stepped.number, stepped.consumed + stepped.unread) && t.is_same(&after);
    *t = walked;
    let listed = match told.number {
        _ if told.cancelled => Some(&listed::CANCEL_ONCE),
        12 => Some(&listed::UNREAD_12),
        23 => Some(&listed::COUNT_TOO_LARGE),
        _ => None,
    };
    listed.filter(|_| as_listed).map(Some).ok_or_else(|| format!("{} {}", whole.0, whole.1))
}
