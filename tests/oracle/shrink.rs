//! The shortest script that still shows a difference.
use crate::pair::{Fault, Pair};
use crate::script::Command;

/// The first difference of a script from fresh tables.
pub fn run(program: &str, script: &[Command]) -> Option<Fault> {
    let mut p = Pair::start(program);
    script.iter().find_map(|c| p.step(c.clone()).err())
}

fn without(script: &[Command], from: usize, len: usize) -> Vec<Command> {
    script[..from].iter().chain(&script[from + len..]).cloned().collect()
}

/// The shortest script that still shows a difference.
pub fn shortest(program: &str, log: &[Command]) -> Vec<Command> {
    least(log, |script| run(program, script).is_some())
}

/// Leaves out runs of commands, long ones first, as long as a script still shows what it is to show.
pub fn least(log: &[Command], mut shows: impl FnMut(&[Command]) -> bool) -> Vec<Command> {
    let mut script = log.to_vec();
    if !shows(&script) {
        return script;
    }
    let mut len = script.len() / 2;
    while len > 0 {
        let mut from = 0;
        while from + len <= script.len() {
            let shorter = without(&script, from, len);
            if shows(&shorter) {
                script = shorter;
            } else {
                from += len;
            }
        }
        len /= 2;
    }
    script
}
