//! The listed differences: each has a name, what it is, and a test that recognises it. docs/DIFFERENCES.md says the same in words.
//! What no test recognises is a fault.
use crate::script::{op, shape, Command, WHOLE_ARENA};
use crate::table::Table;

pub struct Listed {
    pub name: &'static str,
    /// The answer that the specification gives there; none where the answer is the crate's and something else differs.
    pub number: Option<u32>,
    pub what: &'static str,
}

macro_rules! listed {
    ($($id:ident $name:literal $number:expr, $what:literal;)*) => {
        $(pub const $id: Listed = Listed { name: $name, number: $number, what: $what };)*
        pub const ALL: &[Listed] = &[$($id),*];
    };
}

listed! {
    SHORT_ARENA "short-arena" Some(22), "an arena under 16,384 bytes: the crate has no arena";
    SHORT_BUFFER "short-increment-buffer" Some(22), "under 3 bytes for the increment: the crate's buffer grows";
    BAD_WIDTH "bad-width" Some(22), "a width outside 1 to 8, or flags past 8-N bits: the crate panics or cuts them off";
    SECTION_OPEN "section-open" Some(18), "a table call, a report or a section while a section is open: the crate's types forbid it";
    NO_SECTION "no-section" Some(19), "a section's call while none is open: the crate's types forbid it";
    ABOVE_ROOM "above-lent-room" Some(10), "a capacity from 16,385 to 1,073,741,823: the crate takes it";
    SHRINK_BLOCKED "shrink-blocked" Some(17), "a cut that needs a referenced entry dropped: the crate sets the smaller capacity and drops nothing (D9)";
    TRACKING_FULL "tracking-full" Some(20), "a bound of references, sections or blocked values: the crate's maps grow";
    BAD_LARGEST "bad-largest" Some(21), "a commit's largest above the inserted count: the crate takes it";
    COUNT_TOO_LARGE "count-too-large" Some(23), "a count past 2^62-1, or 2^63 or more to be written: the crate goes on";
    OUTPUT_FULL "output-full" Some(24), "a list or a buffer that is too small: the crate's grow";
    HUFFMAN "huffman" Some(3), "a string with H set: the crate decodes it, or says that it ends early (D11)";
    NO_COUNT "no-insert-count" Some(15), "RFC 9204 4.5.1.1 gives no count: the crate takes one, wraps, or panics (D6, D7)";
    SIGN_AT_ZERO "sign-at-count-0" Some(14), "the sign set with required count 0: the crate takes it (D4)";
    DELTA_AT_ZERO "delta-at-count-0" None, "a delta above 0 with required count 0: the crate's base is 0 (D5)";
    BASE_PAST "base-past-2^63-1" Some(14), "a base past 2^63-1: the crate takes it (D8)";
    POST_BASE_SUM "post-base-sum" Some(6), "a post-base sum past 2^64-1: the crate wraps or panics (D10)";
    UNREAD_8_9 "unread-after-8-or-9" None, "after 8 or 9 the crate has consumed the bad instruction (D3)";
    UNREAD_12 "unread-after-12" None, "after 12 the crate has consumed the report (D2)";
    CANCEL_ONCE "cancel-once" None, "a cancellation on the decoder stream: the crate releases two sections, and takes one with nothing queued (D1)";
    PLAIN_STRINGS "plain-strings" None, "strings are written plain: the crate writes them with Huffman, and reads ours back";
}

pub const LARGEST_COUNT: u64 = (1 << 62) - 1;
const LARGEST_CAPACITY: u64 = 1_073_741_823;

fn takes_arena(c: &Command) -> bool {
    shape(c.op).is_some_and(|s| s.arena)
}

fn while_closed(o: u8) -> bool {
    matches!(
        o,
        op::SET_CAPACITY | op::SET_MAX_BLOCKED | op::PUT | op::BEGIN | op::ACKNOWLEDGE | op::CANCEL | op::INCREMENT
            | op::ON_ENCODER_RECV | op::ON_DECODER_RECV | op::SECTION_ON | op::DECODE_HEADER
    )
}

fn while_open(o: u8) -> bool {
    matches!(o, op::FIND | op::INSERT | op::COMMIT | op::ABANDON)
}

/// Whether a cut to a capacity needs a referenced entry dropped.
pub fn is_shrink_blocked(t: &Table, capacity: u64) -> bool {
    let r = &t.rust;
    let mut size = r.curr_size as u64;
    for (k, f) in r.fields.iter().enumerate() {
        if size <= capacity {
            return false;
        }
        if r.track_map.contains_key(&(r.vas.dropped + k + 1)) {
            return true;
        }
        size -= f.mem_size() as u64;
    }
    false
}

/// Why a commit passes a bound, if it does.
fn is_commit_full(t: &Table, largest: usize) -> bool {
    let r = &t.rust;
    if t.queued() >= 32 {
        return true;
    }
    if largest <= r.largest_known_received {
        return false;
    }
    r.blocked_count >= 65_535 || (r.blocked_streams.len() >= 64 && !r.blocked_streams.contains_key(&largest))
}

/// A difference that the input and the table before it tell, in the specification's order. Such a call is not made on the crate.
pub fn before(t: &Table, c: &Command) -> Option<&'static Listed> {
    let first = c.numbers.first().copied().unwrap_or(0);
    if takes_arena(c) && c.arena < WHOLE_ARENA {
        return Some(&SHORT_ARENA);
    }
    if c.op == op::ON_ENCODER_RECV && c.room < 3 {
        return Some(&SHORT_BUFFER);
    }
    if while_closed(c.op) && t.open.is_some() {
        return Some(&SECTION_OPEN);
    }
    if while_open(c.op) && t.open.is_none() {
        return Some(&NO_SECTION);
    }
    match c.op {
        op::SET_CAPACITY if WHOLE_ARENA < first && first <= LARGEST_CAPACITY => Some(&ABOVE_ROOM),
        op::SET_CAPACITY if is_shrink_blocked(t, first) => Some(&SHRINK_BLOCKED),
        op::COMMIT if first > t.rust.vas.inserted as u64 => Some(&BAD_LARGEST),
        op::COMMIT if is_commit_full(t, first as usize) => Some(&TRACKING_FULL),
        op::INCREMENT if first > LARGEST_COUNT - t.rust.largest_known_received as u64 => Some(&COUNT_TOO_LARGE),
        _ => None,
    }
}

/// Whether a section's references pass a bound.
pub fn is_section_full(t: &Table) -> bool {
    t.open.as_ref().is_some_and(|o| o.refs.len() > 32 || o.refs.values().any(|n| *n > 255))
}

/// The value of a prefix integer, and where it ends: for the tests below alone.
fn integer(s: &[u8], width: u32) -> Option<(u64, usize)> {
    let mask = (1u64 << width) - 1;
    let first = *s.first()? as u64 & mask;
    if first < mask {
        return Some((first, 1));
    }
    let mut value = mask;
    for (k, b) in s[1..].iter().take(9).enumerate() {
        value += (*b as u64 & 127) << (7 * k);
        if b & 128 == 0 {
            return Some((value, k + 2));
        }
    }
    None
}

/// Whether a string whose length has a width stands there with H set; where it ends if not.
fn string(s: &[u8], width: u32) -> Result<usize, bool> {
    let first = *s.first().ok_or(false)?;
    if first >> width & 1 == 1 {
        return Err(true);
    }
    let (len, at) = integer(s, width).ok_or(false)?;
    let end = at as u64 + len;
    if end > s.len() as u64 { Err(false) } else { Ok(end as usize) }
}

/// Whether an encoder instruction stands there whose string has H set.
pub fn is_huffman_instruction(s: &[u8]) -> bool {
    let value_after = |at: usize| string(&s[at..], 7) == Err(true);
    match s.first() {
        Some(b) if b & 0x80 != 0 => integer(s, 6).is_some_and(|(_, at)| value_after(at)),
        Some(b) if b & 0x40 != 0 => match string(s, 5) {
            Ok(at) => value_after(at),
            Err(h) => h,
        },
        _ => false,
    }
}

/// Whether a field line stands there whose string has H set.
pub fn is_huffman_line(s: &[u8]) -> bool {
    let value_after = |at: usize| string(&s[at..], 7) == Err(true);
    match s.first() {
        Some(b) if b & 0x80 != 0 => false,
        Some(b) if b & 0xc0 == 0x40 => integer(s, 4).is_some_and(|(_, at)| value_after(at)),
        Some(b) if b & 0xe0 == 0x20 => match string(s, 3) {
            Ok(at) => value_after(at),
            Err(h) => h,
        },
        Some(b) if b & 0xf0 == 0 => integer(s, 3).is_some_and(|(_, at)| value_after(at)),
        _ => false,
    }
}

/// The capacity that an instruction there sets.
pub fn capacity_set(s: &[u8]) -> Option<u64> {
    s.first().filter(|b| **b & 0xe0 == 0x20)?;
    integer(s, 5).map(|(value, _)| value)
}

pub fn is_above_room(capacity: u64) -> bool {
    WHOLE_ARENA < capacity && capacity <= LARGEST_CAPACITY
}

/// A section prefix, and where it ends.
pub struct Prefix {
    pub count: u64,
    pub sign: bool,
    pub delta: u64,
    pub end: usize,
}

pub fn prefix(s: &[u8]) -> Option<Prefix> {
    let (count, at) = integer(s, 8)?;
    let (delta, len) = integer(&s[at..], 7)?;
    Some(Prefix { count, sign: s[at] & 0x80 != 0, delta, end: at + len })
}

/// RFC 9204 4.5.1.1: the required insert count.
pub fn required(count: u64, total: u64, capacity: u64) -> Option<u64> {
    if count == 0 {
        return Some(0);
    }
    let entries = capacity as u128 / 32;
    let full = 2 * entries;
    if count as u128 > full {
        return None;
    }
    let most = total as u128 + entries;
    let wrapped = most / full * full;
    let mut required = wrapped + count as u128 - 1;
    if required > most {
        if required <= full {
            return None;
        }
        required -= full;
    }
    if required == 0 { None } else { Some(required as u64) }
}

/// The difference that a prefix is, if it is one.
pub fn of_prefix(p: &Prefix, total: u64, capacity: u64) -> Option<&'static Listed> {
    let Some(required) = required(p.count, total, capacity) else { return Some(&NO_COUNT) };
    if required == 0 && p.sign {
        return Some(&SIGN_AT_ZERO);
    }
    if !p.sign && required as u128 + p.delta as u128 > i64::MAX as u128 {
        return Some(&BASE_PAST);
    }
    (required == 0 && p.delta > 0).then_some(&DELTA_AT_ZERO)
}

/// Whether a post-base line stands there whose sum with a base passes 2^64-1; its string is read first.
pub fn is_post_base_past(s: &[u8], base: u64) -> bool {
    let index = match s.first() {
        Some(b) if b & 0xf0 == 0x10 => integer(s, 4),
        Some(b) if b & 0xf0 == 0 => integer(s, 3).filter(|(_, at)| string(&s[*at..], 7).is_ok()),
        _ => None,
    };
    index.is_some_and(|(i, _)| base.checked_add(i).is_none())
}
