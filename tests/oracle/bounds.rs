//! Every bound from both sides.
use crate::pair::{Fault, Pair};
use crate::script::{op, Command};

/// A section of some finds, committed.
fn section_of(p: &mut Pair, stream: u64, finds: u64, largest: u64) -> Result<(), Fault> {
    p.step(Command::new(op::BEGIN, 0, &[stream], &[]))?;
    for k in 0..finds {
        p.step(Command::new(op::FIND, 0, &[], &[b"x", k.to_string().as_bytes()]))?;
    }
    p.step(Command::new(op::COMMIT, 0, &[largest], &[]))
}

fn entries(p: &mut Pair, count: u64) -> Result<(), Fault> {
    p.reset()?;
    p.step(Command::new(op::SET_CAPACITY, 0, &[16_384], &[]))?;
    p.step(Command::new(op::SET_MAX_BLOCKED, 0, &[65_534], &[]))?;
    (0..count).try_for_each(|k| p.step(Command::new(op::PUT, 0, &[], &[b"x", k.to_string().as_bytes()])))
}

/// Every bound from both sides: entries and uses of a section, queued sections, blocked values and sections, inserts in a call, counts.
pub fn bounds(p: &mut Pair) -> Result<(), Fault> {
    // 33 entries, in finds and in inserts that refer to one more
    entries(p, 40)?;
    section_of(p, 1, 34, 40)?;
    for finds in 29..33 {
        p.step(Command::new(op::BEGIN, 0, &[2], &[]))?;
        for k in 0..finds as u64 {
            p.step(Command::new(op::FIND, 0, &[], &[b"x", k.to_string().as_bytes()]))?;
        }
        for (name, value) in [(&b"x"[..], &b"39"[..]), (b"x", b"new"), (b"y", b"new"), (b":path", b"new")] {
            p.step(Command::new(op::INSERT, 0, &[], &[name, value]))?;
        }
        p.step(Command::new(op::ABANDON, 0, &[], &[]))?;
    }
    // 256 uses of one entry
    p.step(Command::new(op::BEGIN, 0, &[3], &[]))?;
    for _ in 0..257 {
        p.step(Command::new(op::FIND, 0, &[], &[b"x", b"7"]))?;
    }
    p.step(Command::new(op::INSERT, 0, &[], &[b"x", b"7"]))?;
    p.step(Command::new(op::COMMIT, 0, &[0], &[]))?;
    // 33 sections, 65 blocked values
    entries(p, 80)?;
    for k in 0..34 {
        section_of(p, k % 5, 1, 0)?;
        p.step(Command::new(op::ABANDON, 0, &[], &[]))?;
    }
    entries(p, 80)?;
    for k in 0..70 {
        section_of(p, 9, 1, k + 1)?;
        p.step(Command::new(op::ABANDON, 0, &[], &[]))?;
        p.step(Command::new(op::ACKNOWLEDGE, 0, &[9], &[]))?;
    }
    p.step(Command::new(op::INCREMENT, 0, &[40], &[]))?;
    section_of(p, 9, 1, 70)?;
    many_blocked(p)?;
    many_inserts(p)?;
    high_counts(p)
}

/// 65,535 blocked sections, and one more.
fn many_blocked(p: &mut Pair) -> Result<(), Fault> {
    entries(p, 3)?;
    let made = p.log.len();
    for k in 0..65_537u64 {
        p.step(Command::new(op::BEGIN, 0, &[1], &[]))?;
        p.step(Command::new(op::COMMIT, 0, &[1 + k % 3], &[]))?;
        p.step(Command::new(op::ABANDON, 0, &[], &[]))?;
        p.step(Command::new(op::ACKNOWLEDGE, 0, &[1], &[]))?;
        if p.log.len() > 100_000 {
            p.log.truncate(made);
        }
    }
    p.step(Command::new(op::INCREMENT, 0, &[2], &[]))?;
    section_of(p, 1, 3, 3)
}

/// 254 to 257 inserts in one call, of each kind.
fn many_inserts(p: &mut Pair) -> Result<(), Fault> {
    for n in 254..258 {
        for one in [&b"\x41a\x01b"[..], b"\xc1\x01b", b"\x00", b"\x80\x01c"] {
            entries(p, 2)?;
            let s = one.repeat(n);
            p.step(Command::new(op::ON_ENCODER_RECV, 0, &[], &[&s]).buffer(5, 1))?;
            let mut bad = s.clone();
            bad.extend(b"\xff\x24\x00");
            p.step(Command::new(op::ON_ENCODER_RECV, 0, &[], &[&bad]).buffer(5, 1))?;
        }
    }
    Ok(())
}

/// Counts at 2^62-1.
fn high_counts(p: &mut Pair) -> Result<(), Fault> {
    for below in 0..4u64 {
        let count = (1 << 62) - 1 - below;
        p.reset()?;
        for field in [0, 1, 9] {
            p.step(Command::new(op::SET, 0, &[field, 0, count], &[]))?;
        }
        p.step(Command::new(op::SET_CAPACITY, 0, &[200], &[]))?;
        p.step(Command::new(op::SET_MAX_BLOCKED, 0, &[2], &[]))?;
        p.step(Command::new(op::PUT, 0, &[], &[b"a", b"b"]))?;
        p.step(Command::new(op::BEGIN, 0, &[1], &[]))?;
        for _ in 0..2 {
            p.step(Command::new(op::INSERT, 0, &[], &[b"a", b"b"]))?;
        }
        p.step(Command::new(op::COMMIT, 0, &[count], &[]))?;
        p.step(Command::new(op::ON_ENCODER_RECV, 0, &[], &[b"\x41a\x01b\x00\x00"]).buffer(3, 0))?;
        for n in 0..5 {
            p.step(Command::new(op::INCREMENT, 0, &[n], &[]))?;
            p.step(Command::new(op::ON_DECODER_RECV, 0, &[], &[&[n as u8, 1]]))?;
        }
    }
    Ok(())
}
