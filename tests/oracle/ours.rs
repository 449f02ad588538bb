//! The proved side: the program replay as a child process, and what its `show` says of a table.
use crate::script::{op, Command};
use std::collections::BTreeMap;
use std::io::{BufRead, BufReader, Write};
use std::process::{Child, ChildStdin, ChildStdout, Command as Process, Stdio};

pub struct Ours {
    child: Child,
    input: ChildStdin,
    output: BufReader<ChildStdout>,
    script: Vec<u8>,
}

impl Ours {
    pub fn start(program: &str) -> Ours {
        let mut child = Process::new(program)
            .stdin(Stdio::piped())
            .stdout(Stdio::piped())
            .spawn()
            .unwrap_or_else(|e| crate::stop(&format!("{program} cannot be started: {e}")));
        let input = child.stdin.take().unwrap();
        let output = BufReader::with_capacity(1 << 20, child.stdout.take().unwrap());
        Ours { child, input, output, script: Vec::new() }
    }

    /// Puts a command into the script that is sent next.
    pub fn say(&mut self, c: &Command) {
        c.write(&mut self.script);
    }

    pub fn send(&mut self) {
        if self.input.write_all(&self.script).is_err() {
            let last = self.hear();
            crate::stop(&format!("replay takes no more: {last}"));
        }
        self.script.clear();
    }

    /// The next answer.
    pub fn hear(&mut self) -> String {
        let mut line = String::new();
        self.output.read_line(&mut line).unwrap_or_else(|e| crate::stop(&format!("replay cannot be read: {e}")));
        if !line.ends_with('\n') {
            crate::stop("replay has ended");
        }
        line.pop();
        if line.starts_with("bad input") {
            crate::stop(&format!("replay: {line}"));
        }
        line
    }

    pub fn ask(&mut self, c: &Command) -> String {
        self.say(c);
        self.send();
        self.hear()
    }

    /// A call's answer, and the table after it.
    pub fn ask_and_show(&mut self, c: &Command) -> (String, String) {
        self.say(c);
        self.say(&Command::new(op::SHOW, c.table, &[], &[]));
        self.send();
        (self.hear(), self.hear())
    }
}

impl Drop for Ours {
    fn drop(&mut self) {
        let _ = self.child.kill();
        let _ = self.child.wait();
    }
}

/// A section that uses entries, each by its absolute index, with how often.
#[derive(Clone, PartialEq, Debug, Default)]
pub struct Uses {
    pub stream: u64,
    pub uses: BTreeMap<usize, usize>,
}

/// A table as `show` has it.
#[derive(Clone, PartialEq, Debug, Default)]
pub struct Seen {
    pub inserted: usize,
    pub dropped: usize,
    pub size: usize,
    pub capacity: usize,
    pub known: usize,
    pub most: usize,
    pub total: usize,
    pub blocked: BTreeMap<usize, usize>,
    pub open: Option<(usize, Uses)>,
    pub queue: Vec<Uses>,
    pub live: Vec<(Vec<u8>, Vec<u8>)>,
}

struct Words<'a>(std::str::SplitAsciiWhitespace<'a>, Option<&'a str>);

impl<'a> Words<'a> {
    fn next(&mut self) -> &'a str {
        self.1.take().or_else(|| self.0.next()).unwrap_or("")
    }

    fn named(&mut self, name: &str) {
        let word = self.next();
        if word != name {
            crate::stop(&format!("show: {name} is wanted, and {word} stands there"));
        }
    }

    fn number(&mut self) -> usize {
        let word = self.next();
        word.parse().unwrap_or_else(|_| crate::stop(&format!("show: {word} is no number")))
    }

    fn field(&mut self, name: &str) -> usize {
        self.named(name);
        self.number()
    }

    /// The elements of a list, up to its end or the count of zeros that follow.
    fn list(&mut self, name: &str, mut each: impl FnMut(&'a str)) {
        self.named(name);
        self.elements(&mut each);
    }

    fn elements(&mut self, each: &mut impl FnMut(&'a str)) {
        while let Some(word) = self.0.next() {
            if word.starts_with('+') {
                return;
            }
            if !word.as_bytes()[0].is_ascii_digit() {
                self.1 = Some(word);
                return;
            }
            each(word);
        }
    }

    fn section(&mut self, name: &str) -> Uses {
        self.named(name);
        let stream = self.next().parse().unwrap();
        let from = self.number();
        let used = self.number();
        let mut pairs = Vec::new();
        self.elements(&mut |word| pairs.push(pair(word)));
        let uses = pairs.iter().take(used).map(|(offset, count)| (from + offset, *count)).collect();
        Uses { stream, uses }
    }
}

fn pair(word: &str) -> (usize, usize) {
    let (a, b) = word.split_once(':').unwrap();
    (a.parse().unwrap(), b.parse().unwrap())
}

pub fn unhex(word: &str) -> Vec<u8> {
    let digits = word.strip_prefix("0x").unwrap_or_else(|| crate::stop(&format!("{word} is no string of bytes"))).as_bytes();
    let value = |d: u8| if d <= b'9' { d - b'0' } else { d - b'a' + 10 };
    digits.chunks(2).map(|d| value(d[0]) * 16 + value(d[1])).collect()
}

/// None where the ring does not keep its rules.
pub fn seen(line: &str) -> Option<Seen> {
    let mut w = Words(line.split_ascii_whitespace(), None);
    w.named("0");
    let mut s = Seen { inserted: w.field("inserted"), dropped: w.field("dropped"), size: w.field("size"), ..Seen::default() };
    s.capacity = w.field("capacity");
    w.field("tail");
    w.field("head");
    for name in ["starts", "names", "values"] {
        w.list(name, |_| ());
    }
    s.known = w.field("known");
    s.most = w.field("most");
    s.total = w.field("total");
    let distinct = w.field("distinct");
    let mut values = Vec::new();
    w.list("blocked", |word| values.push(pair(word)));
    s.blocked = values.into_iter().take(distinct).collect();
    let active = w.field("active");
    let base = w.field("base");
    let open = w.section("open");
    s.open = (active == 1).then_some((base, open));
    let queued = w.field("queued");
    for k in 0..32 {
        let section = w.section("place");
        if k < queued {
            s.queue.push(section);
        }
    }
    s.live = live(&mut w)?;
    Some(s)
}

/// The live strings that end a record; none where the ring does not keep its rules.
fn live(w: &mut Words) -> Option<Vec<(Vec<u8>, Vec<u8>)>> {
    let word = w.next();
    if word == "unsound" {
        return None;
    }
    if word != "live" {
        crate::stop(&format!("show: live is wanted, and {word} stands there"));
    }
    let mut strings = Vec::new();
    loop {
        let name = w.next();
        if name.is_empty() {
            return Some(strings);
        }
        strings.push((unhex(name), unhex(w.next())));
    }
}
