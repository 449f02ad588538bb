//! What a call costs: in nanoseconds, or in instructions where the program runs under the emulator with count.c.
use std::hint::black_box;
use std::io::{Read, Result};
use std::os::raw::c_long;
use std::os::unix::io::AsRawFd;
use std::os::unix::net::UnixStream;
use std::time::Instant;

/// Rounds of a timed case, whose median counts.
const ROUNDS: usize = 301;
/// Rounds of a counted case: what the second number has more than the first one is divided among its calls.
const FEW: usize = 1;
const MANY: usize = 21;
/// The system call that asks for the count. The same number is in count.c.
const ASK: c_long = 100_000;

pub enum Meter {
    Clock,
    Counter { asked: UnixStream, told: UnixStream },
}

extern "C" {
    fn syscall(number: c_long, ...) -> c_long;
}

impl Meter {
    /// An error where no plugin answers.
    pub fn counter() -> Result<Meter> {
        let (asked, told) = UnixStream::pair()?;
        // with no plugin there is nothing to read, and no reason to wait
        told.set_nonblocking(true)?;
        executed(&asked, &told)?;
        Ok(Meter::Counter { asked, told })
    }

    pub fn unit(&self) -> &str {
        match self {
            Meter::Clock => "ns",
            Meter::Counter { .. } => "instructions",
        }
    }

    /// What one round costs. Each begins from the same start, which costs nothing.
    pub fn cost<S>(&self, start: impl FnMut() -> S, work: impl FnMut(&mut S)) -> f64 {
        match self {
            Meter::Clock => timed(start, work),
            Meter::Counter { asked, told } => counted(|| executed(asked, told).expect("the count"), start, work),
        }
    }
}

/// The instructions executed so far.
fn executed(asked: &UnixStream, mut told: &UnixStream) -> Result<u64> {
    // SAFETY: no kernel has this call, and the emulator's plugin writes to the socket alone.
    unsafe { syscall(ASK, asked.as_raw_fd()) };
    let mut count = [0; 8];
    told.read_exact(&mut count)?;
    Ok(u64::from_le_bytes(count))
}

/// The median of some rounds.
fn timed<S>(mut start: impl FnMut() -> S, mut work: impl FnMut(&mut S)) -> f64 {
    let mut times: Vec<u128> = (0..ROUNDS)
        .map(|_| {
            let mut s = start();
            let t = Instant::now();
            work(&mut s);
            let n = t.elapsed().as_nanos();
            black_box(&s);
            n
        })
        .collect();
    times.sort();
    times[ROUNDS / 2] as f64
}

/// From the counts of two numbers of rounds, so that what it costs to ask falls out. Every start is made before.
fn counted<S>(executed: impl Fn() -> u64, mut start: impl FnMut() -> S, mut work: impl FnMut(&mut S)) -> f64 {
    let mut starts: Vec<S> = (0..FEW + FEW + MANY).map(|_| start()).collect();
    let mut next = 0;
    let mut rounds = |number: usize| {
        let before = executed();
        starts[next..next + number].iter_mut().for_each(&mut work);
        next += number;
        executed() - before
    };
    // the first rounds make what is made once in a program
    rounds(FEW);
    let (few, many) = (rounds(FEW), rounds(MANY));
    black_box(&starts);
    (many as f64 - few as f64) / (MANY - FEW) as f64
}
