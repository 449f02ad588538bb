//! That the structs of this crate lie in memory as the C header's do, and as the archive's functions read and write them.
use crate::{ffi, Error, Table, ARENA, INCREMENT};
use std::fmt::Write;
use std::mem::{align_of, size_of, MaybeUninit};

fn size_behind<T>(_: *const T) -> usize {
    size_of::<T>()
}

/// Writes a struct's size and alignment, and each field's place and size, under the header's name.
macro_rules! shape {
    ($text:ident, $name:literal, $struct:ty, $($field:ident)*) => {{
        writeln!($text, "{} size {} align {}", $name, size_of::<$struct>(), align_of::<$struct>()).unwrap();
        let at = MaybeUninit::<$struct>::uninit();
        let from = at.as_ptr();
        $(
            // SAFETY: only addresses are taken, inside of `at`.
            let field = unsafe { std::ptr::addr_of!((*from).$field) };
            let place = field as usize - from as usize;
            writeln!($text, "{}.{} at {} size {}", $name, stringify!($field), place, size_behind(field)).unwrap();
        )*
    }};
}

/// A name in capitals, as the header has it.
fn capitals(name: &str) -> String {
    let mut out = String::from("QPACK");
    for c in name.chars() {
        if c.is_ascii_uppercase() {
            out.push('_');
        }
        out.push(c.to_ascii_uppercase());
    }
    out
}

fn ours() -> String {
    let mut text = String::new();
    shape!(text, "qpack_ring", ffi::Ring, inserted dropped size capacity tail head starts names values);
    shape!(text, "qpack_held", ffi::Held, offset count);
    shape!(text, "qpack_section", ffi::Section, stream from used uses);
    shape!(text, "qpack_queue", ffi::Queue, queued places);
    shape!(text, "qpack_value", ffi::Value, largest sections);
    shape!(text, "qpack_waiting", ffi::Waiting, total distinct values);
    shape!(text, "qpack_table", ffi::Table, ring known most waiting queue active base section);
    shape!(text, "qpack_outcome", ffi::Outcome, table answer);
    shape!(text, "qpack_named", ffi::Named, index postbase absolute kind);
    shape!(text, "qpack_named_outcome", ffi::NamedOutcome, table named answer);
    shape!(text, "qpack_encoder_outcome", ffi::EncoderOutcome, table consumed inserted written answer);
    shape!(text, "qpack_decoder_outcome", ffi::DecoderOutcome, table consumed answer);
    shape!(text, "qpack_section_outcome", ffi::SectionOutcome, count used size dynamic answer);
    writeln!(
        text,
        "qpack_field size {} align {}",
        size_of::<crate::Record>(),
        align_of::<crate::Record>()
    )
    .unwrap();
    writeln!(text, "lent {ARENA} {INCREMENT}").unwrap();
    for number in 1..=26 {
        let error = Error::from_number(number).unwrap();
        writeln!(text, "{} {number}", capitals(&format!("{error:?}"))).unwrap();
    }
    text
}

#[test]
fn as_the_header_has_it() {
    let file = std::env::var_os("QPACK_LAYOUT")
        .expect("QPACK_LAYOUT names what tests/embed/layout.c wrote: tests/embed.sh sets it");
    assert_eq!(ours(), std::fs::read_to_string(file).unwrap());
}

#[test]
fn a_fresh_record_is_zero() {
    let t = Table::new();
    let r = t.record();
    let numbers = [
        r.ring.inserted,
        r.ring.dropped,
        r.ring.size,
        r.ring.capacity,
        r.ring.tail,
        r.ring.head,
        r.known,
        r.most,
        r.base,
    ];
    assert_eq!(numbers, [0; 9]);
    for slots in [&r.ring.starts, &r.ring.names, &r.ring.values] {
        assert!(slots.iter().all(|&x| x == 0));
    }
    assert!(!r.active);
    assert_eq!(
        (r.waiting.total, r.waiting.distinct, r.queue.queued),
        (0, 0, 0)
    );
    assert!(r
        .waiting
        .values
        .iter()
        .all(|v| v.largest == 0 && v.sections == 0));
    for s in r.queue.places.iter().chain([&r.section]) {
        assert_eq!((s.stream, s.from, s.used), (0, 0, 0));
        assert!(s.uses.iter().all(|h| h.offset == 0 && h.count == 0));
    }
}

// The numbers of the record, told apart by calls: a field in another place would show another one's number.

/// Five entries of sizes 38, 43, 49, 51 and 38 at capacity 200: the fifth drops the first.
fn filled() -> Table {
    let mut t = Table::new();
    t.set_capacity(200).unwrap();
    t.set_max_blocked(77).unwrap();
    t.put(b"a", b"bcdef").unwrap();
    t.put(b"gh", b"ijklmnopq").unwrap();
    t.put(b"rst", b"uvwxyzabcdefgh").unwrap();
    t.put(b"ijkl", b"mnopqrstuvwxyza").unwrap();
    t.put(b"bcdef", b"g").unwrap();
    t.increment(3).unwrap();
    t
}

#[test]
fn entries_by_calls() {
    let t = filled();
    let r = &t.record().ring;
    let numbers = [r.inserted, r.dropped, r.size, r.capacity, r.tail, r.head];
    assert_eq!(numbers, [5, 1, 181, 200, 6, 59]);
    assert_eq!(r.starts[..6], [0, 6, 17, 34, 53, 0]);
    assert_eq!(r.names[..6], [1, 2, 3, 4, 5, 0]);
    assert_eq!(r.values[..6], [5, 9, 14, 15, 1, 0]);
    assert_eq!((t.record().known, t.record().most), (3, 77));
}

fn uses(s: &ffi::Section) -> Vec<(u16, u16)> {
    let all = s.uses.iter().map(|h| (h.offset, h.count));
    all.take_while(|h| *h != (0, 0)).collect()
}

#[test]
fn an_open_section_by_calls() {
    let mut t = filled();
    t.begin(1001).unwrap();
    t.find(b"gh", b"ijklmnopq").unwrap();
    t.find(b"bcdef", b"g").unwrap();
    t.find(b"bcdef", b"g").unwrap();
    let r = t.record();
    let s = &r.section;
    assert_eq!((r.active, r.base), (true, 4));
    assert_eq!((s.stream, s.from, s.used), (1001, 1, 2));
    assert_eq!(uses(s), [(1, 1), (4, 2)]);
}

#[test]
fn queued_and_blocked_by_calls() {
    let mut t = filled();
    for (stream, largest) in [(1001, 5), (1002, 4), (1003, 5)] {
        t.begin(stream).unwrap();
        t.find(b"rst", b"uvwxyzabcdefgh").unwrap();
        t.commit(largest).unwrap();
    }
    let r = t.record();
    assert_eq!((r.active, r.queue.queued), (false, 3));
    let streams: Vec<u64> = r.queue.places.iter().map(|s| s.stream).collect();
    assert_eq!(streams[..4], [1001, 1002, 1003, 0]);
    let second = &r.queue.places[1];
    assert_eq!((second.from, second.used), (1, 1));
    assert_eq!(uses(second), [(2, 1)]);
    assert_eq!((r.waiting.total, r.waiting.distinct), (3, 2));
    let values = r.waiting.values.iter().map(|v| (v.largest, v.sections));
    let mut blocked: Vec<(usize, usize)> = values.take(2).collect();
    blocked.sort_unstable();
    assert_eq!(blocked, [(4, 1), (5, 2)]);
}
