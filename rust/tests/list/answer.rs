//! Answers as a list shows them, docs/REPLAY.md, "An answer".
use qpack_table::{Error, Insertion, Lookup};

fn told<T>(r: Result<T, Error>, values: impl Fn(T) -> String) -> String {
    match r {
        Ok(x) => format!("0{}", values(x)),
        Err(e) => e.number().to_string(),
    }
}

pub fn done(r: Result<(), Error>) -> String {
    told(r, |()| String::new())
}

fn lookup(l: Lookup) -> String {
    match l {
        Lookup::Static(index) => format!(" static {index}"),
        Lookup::Relative { index, absolute } => format!(" relative {index} {absolute}"),
        Lookup::PostBase { index, absolute } => format!(" post-base {index} {absolute}"),
        Lookup::NotFound => " not-found".to_string(),
    }
}

pub fn find(r: Result<Lookup, Error>) -> String {
    told(r, lookup)
}

pub fn insert(r: Result<Insertion, Error>) -> String {
    told(r, |i| match i {
        Insertion::Inserted { postbase, absolute } => format!(" inserted {postbase} {absolute}"),
        Insertion::Duplicated {
            relative,
            postbase,
            absolute,
        } => format!(" duplicated {relative} {postbase} {absolute}"),
        Insertion::InsertedWithNameRef {
            postbase,
            relative,
            absolute,
        } => format!(" with-name {postbase} {relative} {absolute}"),
        Insertion::InsertedWithStaticNameRef {
            postbase,
            index,
            absolute,
        } => format!(" with-static-name {postbase} {index} {absolute}"),
        Insertion::NotInserted(l) => format!(" not-inserted{}", lookup(l)),
    })
}

/// Elements up to the last one that is not blank, and how many blank ones follow.
pub fn shown<T: PartialEq>(list: &[T], blank: &T, show: impl Fn(&T) -> String) -> String {
    let end = list.iter().rposition(|x| x != blank).map_or(0, |i| i + 1);
    let mut text: String = list[..end].iter().map(show).collect();
    if end < list.len() {
        text += &format!(" +{}", list.len() - end);
    }
    text
}

/// BUFFER: a whole output buffer after a call.
pub fn buffer(out: &[u8], fill: u8) -> String {
    format!(" 0x{}", shown(out, &fill, |b| format!("{b:02x}")))
}
