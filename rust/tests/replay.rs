//! Makes the calls of recorded lists (docs/REPLAY.md) through the crate, and compares each answer with the recorded one.
//! QPACK_LISTS names the files; without it, those of tests/lists.
mod list;

use list::{answer, Call};
use qpack_table::{read_stateless, Record, SectionError, Stored, Table, ARENA};
use std::{env, fs, path::PathBuf};

/// What is compared, and what is not: a call the crate has not, or one inside a block that was left.
#[derive(Default, Debug)]
struct Count {
    compared: usize,
    passed_over: usize,
}

/// The calls that change a table or its arena from outside the library: the crate has none of them.
const FROM_OUTSIDE: [&str; 3] = ["set", "write_arena", "copy"];

fn lists() -> Vec<PathBuf> {
    if let Some(named) = env::var_os("QPACK_LISTS") {
        return env::split_paths(&named).collect();
    }
    let folder = PathBuf::from(env!("CARGO_MANIFEST_DIR")).join("../tests/lists");
    let entries = fs::read_dir(&folder).unwrap_or_else(|e| panic!("{}: {e}", folder.display()));
    let mut files: Vec<PathBuf> = entries
        .map(|entry| entry.expect("an entry").path())
        .collect();
    files.retain(|file| file.extension().map_or(false, |e| e == "replay"));
    files.sort();
    files
}

/// The stored records and bytes as the list shows them.
fn section(
    c: &Call,
    read: impl Fn(&mut [Record], &mut [u8]) -> Result<Stored, SectionError>,
) -> String {
    let fill = c.number("fill") as usize;
    let blank = Record::new(fill & 255, fill & 255, fill & 255);
    let mut records = vec![blank; c.number("records") as usize];
    let mut out = c.buffer();
    let (number, s) = match read(&mut records, &mut out) {
        Ok(s) => (0, s),
        Err(e) => (e.error.number(), e.stored),
    };
    let listed = answer::shown(&records, &blank, |r| {
        format!(" {}:{}:{}", r.start(), r.name_len(), r.value_len())
    });
    let (flag, buffer) = (u8::from(s.dynamic), answer::buffer(&out, c.fill()));
    format!(
        "{number} {flag} {} {} {} records{listed}{buffer}",
        s.count, s.used, s.size
    )
}

fn on_encoder_recv(t: &mut Table, c: &Call) -> String {
    let mut out = c.buffer();
    let (number, consumed, written) = match t.on_encoder_recv(&c.bytes("bytes"), &mut out) {
        Ok(r) => (0, r.consumed, r.written),
        Err(e) => (e.error.number(), e.consumed, 0),
    };
    format!(
        "{number} {consumed} {} {written}{}",
        t.inserted(),
        answer::buffer(&out, c.fill())
    )
}

fn on_decoder_recv(t: &mut Table, c: &Call) -> String {
    match t.on_decoder_recv(&c.bytes("bytes")) {
        Ok(consumed) => format!("0 {consumed}"),
        Err(e) => format!("{} {}", e.error.number(), e.consumed),
    }
}

/// The answer of a call; none where the crate has no such call.
fn made(tables: &mut [Table; 4], c: &Call) -> Option<String> {
    let t = &mut tables[c.table];
    let field = |c: &Call| (c.bytes("name"), c.bytes("value"));
    Some(match c.word.as_str() {
        "fresh" => {
            *t = Table::new();
            "0".to_string()
        }
        "set_capacity" => answer::done(t.set_capacity(c.number("capacity") as usize)),
        "set_max_blocked" => answer::done(t.set_max_blocked(c.number("most") as usize)),
        "put" => answer::done(t.put(&field(c).0, &field(c).1)),
        "begin" => answer::done(t.begin(c.number("stream"))),
        "find" => answer::find(t.find(&field(c).0, &field(c).1)),
        "insert" => answer::insert(t.insert(&field(c).0, &field(c).1)),
        "commit" => answer::done(t.commit(c.number("largest") as usize)),
        "abandon" => answer::done(t.abandon()),
        "acknowledge" => answer::done(t.acknowledge(c.number("stream"))),
        "cancel" => answer::done(t.cancel(c.number("stream"))),
        "increment" => answer::done(t.increment(c.number("inserts") as usize)),
        "on_encoder_recv" => on_encoder_recv(t, c),
        "on_decoder_recv" => on_decoder_recv(t, c),
        "section_on" => section(c, |records, out| {
            t.read_section(&c.bytes("bytes"), records, out)
        }),
        "section_stateless" => {
            let most = c.number("max") as usize;
            section(c, |records, out| {
                read_stateless(&c.bytes("bytes"), most, records, out)
            })
        }
        _ => return None,
    })
}

/// A crate's table always has its whole arena, so a call with a short one, which is 22 and changes nothing, is passed over.
fn short_arena(c: &Call) -> bool {
    c.has("arena") && c.number("arena") < ARENA as u64
}

fn replay(text: &str, file: &str, count: &mut Count) {
    let mut tables = [Table::new(), Table::new(), Table::new(), Table::new()];
    let mut left = false;
    let mut lines = text
        .lines()
        .enumerate()
        .filter(|(_, l)| !l.trim().is_empty() && !l.starts_with('#'));
    while let Some((at, line)) = lines.next() {
        let recorded = lines
            .next()
            .and_then(|(_, l)| l.strip_prefix("= "))
            .unwrap_or_else(|| panic!("{file}:{}: no answer follows", at + 1));
        let c = Call::read(line);
        left = (left || FROM_OUTSIDE.contains(&c.word.as_str())) && c.word != "fresh";
        let ours = if left || short_arena(&c) {
            None
        } else {
            made(&mut tables, &c)
        };
        match ours {
            None => count.passed_over += 1,
            Some(ours) => {
                count.compared += 1;
                assert_eq!(ours, recorded, "{file}:{}: {line}", at + 1);
            }
        }
    }
}

#[test]
fn recorded_answers() {
    let files = lists();
    assert!(!files.is_empty(), "there is no list");
    for file in files {
        let name = file.display().to_string();
        let text = fs::read_to_string(&file).unwrap_or_else(|e| panic!("{name}: {e}"));
        let mut count = Count::default();
        replay(&text, &name, &mut count);
        println!("{name}: {count:?}");
        assert!(count.compared > 0, "{name}: no call was compared");
    }
}
