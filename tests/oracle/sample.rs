//! A fixed list for the gate: for every call, answer and listed difference that a run meets, the shortest script that shows it.
use crate::ours::Ours;
use crate::pair::{is_on_table, Met, Pair};
use crate::random::{episode, Random};
use crate::script::{op, Command};
use crate::{listed, shrink};
use std::collections::BTreeMap;
use std::io::Write;
use std::process::{Command as Process, Stdio};

/// How many commands a script has at the most before it is made short.
const LONGEST: usize = 60;

type Key = (u8, u32, &'static str);

fn key(m: &Met) -> Key {
    (m.op, m.number, m.listed)
}

/// Whether the last command of a script, from fresh tables, still comes to the same.
fn still(program: &str, script: &[Command], wanted: Key) -> bool {
    let mut p = Pair::start(program);
    script.iter().all(|c| p.step(c.clone()).is_ok()) && p.last.as_ref().map(key) == Some(wanted)
}

/// The first script that comes to each, over a run.
fn met(program: &str, seed: u64, steps: u64) -> BTreeMap<Key, Vec<Command>> {
    let mut scripts: BTreeMap<Key, Vec<Command>> = BTreeMap::new();
    let mut p = Pair::start(program);
    let mut r = Random::new(seed);
    while p.steps < steps {
        if episode_watched(&mut p, &mut r, &mut scripts).is_err() {
            crate::stop("a difference that is on no list");
        }
    }
    scripts
}

/// An episode, whose steps are kept where they come to something new.
fn episode_watched(p: &mut Pair, r: &mut Random, scripts: &mut BTreeMap<Key, Vec<Command>>) -> Result<(), crate::pair::Fault> {
    episode(p, r, |p| {
        let Some(m) = &p.last else { return };
        let shorter = scripts.get(&key(m)).is_none_or(|s| p.log.len() < s.len());
        if shorter && p.log.len() <= LONGEST {
            scripts.insert(key(m), p.log.clone());
        }
    })
}

/// The readable lines of commands, by the project's own script.
fn readable(commands: &[Command]) -> Vec<String> {
    let mut bytes = Vec::new();
    commands.iter().for_each(|c| c.write(&mut bytes));
    let mut python = Process::new("python3")
        .args(["tests/replay.py", "--show"])
        .stdin(Stdio::piped())
        .stdout(Stdio::piped())
        .spawn()
        .unwrap_or_else(|e| crate::stop(&format!("python3 cannot be started: {e}")));
    python.stdin.take().unwrap().write_all(&bytes).unwrap_or_else(|e| crate::stop(&e.to_string()));
    let out = python.wait_with_output().unwrap_or_else(|e| crate::stop(&e.to_string()));
    String::from_utf8_lossy(&out.stdout).lines().map(String::from).collect()
}

/// One script of the list, with the answers that both sides gave or that the list of differences allows.
fn print(program: &str, seed: u64, k: Key, script: &[Command]) {
    let what = listed::ALL.iter().find(|l| l.name == k.2).map_or("both sides answer the same".into(), |l| format!("{}: {}", l.name, l.what));
    println!("# seed {seed}, answer {}; {what}", k.1);
    let mut commands = vec![Command::new(op::FRESH, 0, &[], &[])];
    commands.extend(script.iter().filter(|c| c.op != op::FRESH).cloned());
    if is_on_table(k.0) && k.0 != op::SET {
        commands.push(Command::new(op::SHOW, 0, &[], &[]));
    }
    let mut ours = Ours::start(program);
    for (line, c) in readable(&commands).iter().zip(&commands) {
        println!("{line}\n= {}", ours.ask(c));
    }
}

pub fn sample(program: &str, seed: u64, steps: u64) {
    for (k, script) in met(program, seed, steps) {
        let least = shrink::least(&script, |s| still(program, s, k));
        print(program, seed, k, &least);
    }
}
