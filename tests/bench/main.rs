//! What a call costs, here and in the Rust, from the same inputs in one run. docs/BENCHMARKS.md has the table and the inputs.
mod meter;
#[path = "../oracle/table.rs"]
mod rust_table;

use h3::qpack::decoder::{decode_stateless, Decoder};
use h3::qpack::field::HeaderField;
use h3::qpack::prefix_int;
use meter::Meter;
use qpack_table::{Record, Table};
use rust_table::Table as RustTable;
use std::hint::black_box;
use std::io::Cursor;

/// Bytes of name and value of every entry, so that 400 live ones take 16,000.
const ENTRY: usize = 40;
/// Instructions in a call, fields in a section, calls in an open section.
const INSTRUCTIONS: usize = 100;
const FIELDS: usize = 20;
const CALLS: usize = 10;

fn name(k: usize) -> Vec<u8> {
    format!("n{:03}", k % 1000).into_bytes()
}

fn value(k: usize) -> Vec<u8> {
    format!("v{:03}", k % 1000).into_bytes()
}

fn field(k: usize) -> HeaderField {
    HeaderField::new(name(k), value(k))
}

/// Both tables with so many live entries, and a capacity with room for some more.
struct Both {
    ours: Table,
    rust: RustTable,
}

impl Both {
    fn new(live: usize, more: usize) -> Both {
        let capacity = ENTRY * (live + more);
        let mut b = Both { ours: Table::new(), rust: RustTable::default() };
        b.ours.set_capacity(capacity).unwrap();
        b.ours.set_max_blocked(100).unwrap();
        b.rust.rust.set_max_size(capacity).unwrap();
        b.rust.rust.set_max_blocked(100).unwrap();
        for k in 0..live {
            b.ours.put(&name(k), &value(k)).unwrap();
            b.rust.rust.put(field(k)).unwrap();
        }
        b
    }
}

fn row(what: &str, live: usize, per: usize, ours: f64, rust: f64) {
    let (ours, rust) = (ours / per as f64, rust / per as f64);
    println!("| {what} | {live} | {ours:.0} | {rust:.0} | {:.2} |", ours / rust);
}

fn integer(width: u8, flags: u8, value: u64) -> Vec<u8> {
    let mut out = Vec::new();
    prefix_int::encode(width, flags, value, &mut out);
    out
}

fn string(width: u8, flags: u8, s: &[u8]) -> Vec<u8> {
    let mut out = integer(width, flags << 1, s.len() as u64);
    out.extend(s);
    out
}

/// A stream of one kind of instruction.
fn instructions(kind: &str, live: usize) -> Vec<u8> {
    let one = |k: usize| match kind {
        "literal insert" => [string(5, 1, &name(500 + k)), string(7, 0, &value(k))].concat(),
        "insert, static name" => [integer(6, 3, 1), string(7, 0, &value(k)[..3])].concat(),
        "insert, dynamic name" => [integer(6, 2, (live / 2) as u64), string(7, 0, &value(k))].concat(),
        "duplicate" => integer(5, 0, (live / 2) as u64),
        _ => integer(5, 1, (ENTRY * live) as u64),
    };
    (0..INSTRUCTIONS).flat_map(one).collect()
}

fn encoder_streams(meter: &Meter, live: usize) {
    for kind in ["literal insert", "insert, static name", "insert, dynamic name", "duplicate", "set capacity"] {
        let s = instructions(kind, live);
        let b = Both::new(live, 0);
        let ours = meter.cost(|| (b.ours.clone(), [0u8; 8]), |(t, out)| drop(black_box(t.on_encoder_recv(&s, out).unwrap())));
        let rust = meter.cost(
            || (Decoder { table: b.rust.clone().rust }, Vec::with_capacity(8)),
            |(d, out): &mut (Decoder, Vec<u8>)| drop(black_box(d.on_encoder_recv(&mut Cursor::new(&s[..]), out).unwrap())),
        );
        row(&format!("encoder stream, {kind}"), live, INSTRUCTIONS, ours, rust);
    }
}

/// A section of one kind of line; its required count is the inserted count, and so is its base.
fn section(kind: &str, live: usize) -> Vec<u8> {
    let prefix = match kind {
        "indexed, static" | "literal" => vec![0, 0],
        _ => [integer(8, 0, (live % (2 * (ENTRY * live / 32))) as u64 + 1), vec![0]].concat(),
    };
    let one = |k: usize| match kind {
        "indexed, dynamic" => integer(6, 2, (k * 7 % live) as u64),
        "indexed, static" => integer(6, 3, (k * 7 % 99) as u64),
        "literal, dynamic name" => [integer(4, 4, (k * 7 % live) as u64), string(7, 0, &value(k))].concat(),
        _ => [string(3, 2, &name(k)), string(7, 0, &value(k))].concat(),
    };
    prefix.into_iter().chain((0..FIELDS).flat_map(one)).collect()
}

fn sections(meter: &Meter, live: usize) {
    for kind in ["indexed, dynamic", "indexed, static", "literal, dynamic name", "literal"] {
        let s = section(kind, live);
        let b = Both::new(live, 0);
        let d = Decoder { table: b.rust.rust };
        let blank = || ([Record::new(0, 0, 0); 32], [0u8; 2048]);
        let ours = meter.cost(blank, |(records, out)| drop(black_box(b.ours.read_section(&s, records, out).unwrap())));
        let rust = meter.cost(|| (), |_| drop(black_box(d.decode_header(&mut Cursor::new(&s[..])).unwrap())));
        row(&format!("section, {kind}"), live, FIELDS, ours, rust);
    }
}

fn stateless(meter: &Meter) {
    let s = section("indexed, static", 10);
    let blank = || ([Record::new(0, 0, 0); 32], [0u8; 2048]);
    let ours = meter.cost(blank, |(records, out)| drop(black_box(qpack_table::read_stateless(&s, 1 << 20, records, out).unwrap())));
    let rust = meter.cost(|| (), |_| drop(black_box(decode_stateless(&mut Cursor::new(&s[..]), 1 << 20).unwrap())));
    row("stateless section, indexed, static", 0, FIELDS, ours, rust);
}

/// Ten calls in an open section.
fn in_a_section(meter: &Meter, live: usize) {
    let kinds: [(&str, usize, &dyn Fn(usize) -> usize); 4] = [
        ("find, hit", 0, &|k| k * 37 % live),
        ("find, miss", 0, &|k| 600 + k),
        ("insert, no drop", CALLS, &|k| 600 + k),
        ("insert, with a drop", 0, &|k| 600 + k),
    ];
    for (what, more, pick) in kinds {
        let b = Both::new(live, more.min(409 - live));
        let fields: Vec<HeaderField> = (0..CALLS).map(|k| field(pick(k))).collect();
        let is_find = what.starts_with("find");
        let open = || {
            let mut t = b.ours.clone();
            t.begin(4).unwrap();
            t
        };
        let ours = meter.cost(open, |t| {
            for f in &fields {
                if is_find {
                    drop(black_box(t.find(&f.name, &f.value).unwrap()));
                } else {
                    drop(black_box(t.insert(&f.name, &f.value).unwrap()));
                }
            }
        });
        let rust = meter.cost(|| rust_open(&b.rust), |t| {
            t.in_section(|e| {
                for f in &fields {
                    if is_find {
                        drop(black_box(e.find(f)));
                    } else {
                        drop(black_box(e.insert(f).unwrap()));
                    }
                }
            })
        });
        row(what, live, CALLS, ours, rust);
    }
}

/// A copy with a section open: its parts are kept, as the crate's guard holds the table.
fn rust_open(t: &RustTable) -> RustTable {
    let mut t = t.clone();
    let mut e = t.rust.encoder(4);
    let base = e.base();
    e.commited = true;
    drop(e);
    t.open = Some(rust_table::Open { stream: 4, base, refs: Default::default() });
    t
}

fn begin_commit_acknowledge(meter: &Meter, live: usize) {
    let b = Both::new(live, 0);
    let ours = meter.cost(|| b.ours.clone(), |t| t.begin(4).unwrap());
    let rust = meter.cost(|| b.rust.clone(), |t| {
        let mut e = t.rust.encoder(4);
        e.commited = true;
    });
    row("begin", live, 1, ours, rust);
    let used = |t: &mut Table| {
        t.begin(4).unwrap();
        (0..CALLS).for_each(|k| drop(t.find(&name(k), &value(k)).unwrap()));
    };
    let rust_used = || {
        let mut t = rust_open(&b.rust);
        t.in_section(|e| (0..CALLS).for_each(|k| drop(e.find(&field(k)))));
        t
    };
    let mut open = b.ours.clone();
    used(&mut open);
    let ours = meter.cost(|| open.clone(), |t| t.commit(live).unwrap());
    let rust = meter.cost(rust_used, |t| t.in_section(|e| e.commit(live)));
    row("commit", live, 1, ours, rust);
    let mut committed = open.clone();
    committed.commit(live).unwrap();
    let ours = meter.cost(|| committed.clone(), |t| t.acknowledge(4).unwrap());
    let rust_committed = || {
        let mut t = rust_used();
        t.in_section(|e| e.commit(live));
        t
    };
    let rust = meter.cost(rust_committed, |t| t.rust.untrack_block(4).unwrap());
    row("acknowledgement", live, 1, ours, rust);
}

/// What a sender does for a section whose fields are all there.
fn whole_section(meter: &Meter, live: usize) {
    let b = Both::new(live, 0);
    let fields: Vec<HeaderField> = (0..CALLS).map(|k| field(k * 37 % live)).collect();
    let ours = meter.cost(|| b.ours.clone(), |t| {
        t.begin(4).unwrap();
        for f in &fields {
            drop(black_box(t.find(&f.name, &f.value).unwrap()));
        }
        t.commit(live).unwrap();
    });
    let rust = meter.cost(|| b.rust.clone(), |t| {
        let mut e = t.rust.encoder(4);
        for f in &fields {
            drop(black_box(e.find(f)));
        }
        e.commit(live);
    });
    row("begin, ten finds, commit", live, 1, ours, rust);
}

/// Ends with one line.
fn fail(why: &str) -> ! {
    eprintln!("bench: {why}");
    std::process::exit(2)
}

fn main() {
    let meter = match std::env::args().nth(1).as_deref() {
        None => Meter::Clock,
        Some("count") => Meter::counter().unwrap_or_else(|_| fail("it counts under qemu-x86_64 with the plugin of count.c alone")),
        Some(word) => fail(&format!("its one word is count, and not {word}")),
    };
    println!("| Call | Live entries | Ours, {0} | The Rust, {0} | Ratio |\n|---|---|---|---|---|", meter.unit());
    for live in [10, 100, 400] {
        encoder_streams(&meter, live);
        sections(&meter, live);
        in_a_section(&meter, live);
        begin_commit_acknowledge(&meter, live);
        whole_section(&meter, live);
    }
    stateless(&meter);
}
