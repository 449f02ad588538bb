//! The table's calls on the crate: what each answers, as replay writes it.
use crate::listed::{self, Listed};
use crate::numbers;
use crate::script::{op, Command};
use crate::table::{field, Open, Table};
use h3::qpack::dynamic::{DynamicInsertionResult, DynamicLookupResult, Error};
use std::panic::{catch_unwind, AssertUnwindSafe};

/// What the crate's side says of a call.
pub enum Expect {
    /// This very line.
    Line(String),
    /// A listed difference: the specification's number, and nothing changed.
    Refused(&'static Listed),
}

fn reply(r: Result<(), Error>) -> String {
    match r {
        Ok(()) => "0".into(),
        Err(e) => numbers::of_table(&e).to_string(),
    }
}

pub fn lookup(r: &DynamicLookupResult) -> String {
    match r {
        DynamicLookupResult::Static(i) => format!("static {i}"),
        DynamicLookupResult::Relative { index, absolute } => format!("relative {index} {absolute}"),
        DynamicLookupResult::PostBase { index, absolute } => format!("post-base {index} {absolute}"),
        DynamicLookupResult::NotFound => "not-found".into(),
    }
}

fn insertion(r: &DynamicInsertionResult) -> String {
    use DynamicInsertionResult::*;
    match r {
        Inserted { postbase, absolute } => format!("0 inserted {postbase} {absolute}"),
        Duplicated { relative, postbase, absolute } => format!("0 duplicated {relative} {postbase} {absolute}"),
        InsertedWithNameRef { postbase, relative, absolute } => format!("0 with-name {postbase} {relative} {absolute}"),
        InsertedWithStaticNameRef { postbase, index, absolute } => format!("0 with-static-name {postbase} {index} {absolute}"),
        NotInserted(l) => format!("0 not-inserted {}", lookup(l)),
    }
}

fn insert(t: &mut Table, c: &Command) -> String {
    let f = field(&c.strings[0], &c.strings[1]);
    match t.in_section(|e| e.insert(&f)) {
        Ok(r) => insertion(&r),
        Err(e) => numbers::of_table(&e).to_string(),
    }
}

fn made(t: &mut Table, c: &Command) -> String {
    let n = c.numbers.first().copied().unwrap_or(0);
    let f = || field(&c.strings[0], &c.strings[1]);
    match c.op {
        op::FRESH => {
            *t = Table::default();
            "0".into()
        }
        op::SET_CAPACITY => reply(t.rust.set_max_size(n as usize)),
        op::SET_MAX_BLOCKED => reply(t.rust.set_max_blocked(n as usize)),
        op::PUT => reply(t.rust.put(f())),
        op::BEGIN => {
            let base = begin(t, n);
            t.open = Some(Open { stream: n, base, refs: Default::default() });
            "0".into()
        }
        op::FIND => format!("0 {}", lookup(&t.in_section(|e| e.find(&f())))),
        op::INSERT => insert(t, c),
        op::COMMIT => {
            t.in_section(|e| e.commit(n as usize));
            "0".into()
        }
        op::ABANDON => {
            abandon(t);
            "0".into()
        }
        // "a cancellation releasing one section by `untrack_block`"
        op::ACKNOWLEDGE | op::CANCEL => reply(t.rust.untrack_block(n)),
        op::INCREMENT => {
            t.rust.update_largest_received(n as usize);
            "0".into()
        }
        _ => crate::stop("no call of a table"),
    }
}

/// Opens a section and keeps its parts.
fn begin(t: &mut Table, stream: u64) -> usize {
    let mut e = t.rust.encoder(stream);
    let base = e.base();
    e.commited = true;
    base
}

/// Drops a section that was not committed.
fn abandon(t: &mut Table) {
    let open = t.open.take().expect("an open section");
    drop(h3::qpack::dynamic::DynamicTableEncoder {
        table: &mut t.rust,
        base: open.base,
        commited: false,
        stream_id: open.stream,
        block_refs: open.refs,
    });
}

/// Whether a call that the crate made passes a bound or a count of the specification.
fn past(before: &Table, after: &Table, c: &Command) -> Option<&'static Listed> {
    if matches!(c.op, op::FIND | op::INSERT) && listed::is_section_full(after) {
        return Some(&listed::TRACKING_FULL);
    }
    let grown = after.rust.vas.inserted > before.rust.vas.inserted;
    (grown && after.rust.vas.inserted as u64 > listed::LARGEST_COUNT).then_some(&listed::COUNT_TOO_LARGE)
}

/// Whether a call might pass a bound, so that the table before it is to be kept.
fn is_near(t: &Table, c: &Command) -> bool {
    matches!(c.op, op::FIND | op::INSERT | op::PUT)
        && (t.rust.vas.inserted as u64 >= listed::LARGEST_COUNT
            || t.open.as_ref().is_some_and(|o| o.refs.len() >= 31 || o.refs.values().any(|n| *n >= 254)))
}

pub fn call(t: &mut Table, c: &Command) -> Expect {
    if let Some(l) = listed::before(t, c) {
        return Expect::Refused(l);
    }
    let kept = is_near(t, c).then(|| t.clone());
    let line = catch_unwind(AssertUnwindSafe(|| made(t, c))).unwrap_or_else(|_| "panic".into());
    if let Some(before) = kept {
        if let Some(l) = past(&before, t, c) {
            *t = before;
            return Expect::Refused(l);
        }
    }
    Expect::Line(line)
}
