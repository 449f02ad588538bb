//! Both sides, step by step: a call on each, and the answers and the tables compared.
use crate::calls::{self, Expect};
use crate::leaves;
use crate::listed::Listed;
use crate::ours::{seen, Ours, Seen};
use crate::script::{is_section_on, is_stateless, op, Command};
use crate::sections;
use crate::streams::{self, Judged};
use crate::table::Table;
use std::collections::BTreeMap;
use std::time::{Duration, Instant};

/// A difference that is on no list.
pub struct Fault {
    pub command: Command,
    /// What ours should have answered by the crate and the specification, or what the crate answers where nothing is listed.
    pub expected: String,
    pub ours: String,
}

pub struct Pair {
    ours: Ours,
    pub tables: Vec<Table>,
    /// How often each listed difference was met, and each answer given by ours.
    pub listed: BTreeMap<&'static str, u64>,
    pub answers: BTreeMap<(u8, u32), u64>,
    pub steps: u64,
    /// The commands since the tables were last fresh.
    pub log: Vec<Command>,
    /// What the last step came to.
    pub last: Option<Met>,
    /// The first bytes that the lists of all strings take.
    pub part: (u8, u8),
    /// When the number of steps was last told.
    told: Instant,
}

/// How often a run tells how far it is.
const TELLS: Duration = Duration::from_secs(20);

/// A call, the number of its answer, and the listed difference that it is, if it is one; and our answer whole.
#[derive(Clone, PartialEq)]
pub struct Met {
    pub op: u8,
    pub number: u32,
    pub listed: &'static str,
    pub line: String,
}

pub fn is_on_table(o: u8) -> bool {
    o <= op::COPY || is_section_on(o)
}

/// A call after which the whole table is compared. A section takes a table by value and hands none back; a copy is compared with the call after it.
fn is_shown(o: u8) -> bool {
    is_on_table(o) && !is_section_on(o) && o != op::COPY
}

impl Pair {
    pub fn start(program: &str) -> Pair {
        Pair {
            ours: Ours::start(program),
            tables: (0..4).map(|_| Table::default()).collect(),
            listed: BTreeMap::new(),
            answers: BTreeMap::new(),
            steps: 0,
            log: Vec::new(),
            last: None,
            part: (0, 255),
            told: Instant::now(),
        }
    }

    /// All tables fresh again, on both sides.
    pub fn reset(&mut self) -> Result<(), Fault> {
        self.log.clear();
        for k in 0..4 {
            self.step(Command::new(op::FRESH, k, &[], &[]))?;
        }
        Ok(())
    }

    fn count(&mut self, c: &Command, ours: &str, l: Option<&'static Listed>) {
        self.steps += 1;
        if self.steps % 4096 == 0 && self.told.elapsed() > TELLS {
            eprintln!("{} steps", self.steps);
            self.told = Instant::now();
        }
        let number = ours.split(' ').next().unwrap_or("").parse().unwrap_or(99);
        *self.answers.entry((c.op, number)).or_insert(0) += 1;
        if let Some(l) = l {
            *self.listed.entry(l.name).or_insert(0) += 1;
        }
        self.last = Some(Met { op: c.op, number, listed: l.map_or("", |l| l.name), line: ours.into() });
    }

    /// Calls that do not hang on each other's answers, sent together.
    pub fn batch(&mut self, commands: Vec<Command>) -> Result<(), Fault> {
        for c in &commands {
            self.ours.say(c);
            if is_shown(c.op) {
                self.ours.say(&Command::new(op::SHOW, c.table, &[], &[]));
            }
        }
        self.ours.send();
        for c in commands {
            let line = self.ours.hear();
            let judged = if is_shown(c.op) {
                let show = self.ours.hear();
                self.judge_shown(&c, &line, &show)
            } else {
                self.alone(&c, &line)
            };
            self.log.push(c.clone());
            self.settle(&c, &line, judged)?;
        }
        Ok(())
    }

    /// A call that leaves every table as it is.
    fn alone(&mut self, c: &Command, ours: &str) -> Judged {
        match c.op {
            op::COPY => self.copied(c, ours),
            o if is_section_on(o) => stream_call(&mut self.tables[c.table as usize], c, ours),
            o if is_stateless(o) => sections::section(&mut self.tables[0], c, ours),
            _ => leaves::judge(c, ours),
        }
    }

    /// A call on both sides.
    pub fn step(&mut self, c: Command) -> Result<(), Fault> {
        self.log.push(c.clone());
        if !is_on_table(c.op) {
            let line = self.ours.ask(&c);
            let judged = self.alone(&c, &line);
            return self.settle(&c, &line, judged);
        }
        // a record that is being set field by field keeps no rules yet
        if c.op == op::SET {
            let line = self.ours.ask(&c);
            let judged = self.set(&c, &line);
            return self.settle(&c, &line, judged);
        }
        let (line, show) = self.ours.ask_and_show(&c);
        let judged = self.judge_shown(&c, &line, &show);
        self.settle(&c, &line, judged)
    }

    fn settle(&mut self, c: &Command, ours: &str, judged: Judged) -> Result<(), Fault> {
        match judged {
            Ok(l) => {
                self.count(c, ours, l);
                Ok(())
            }
            Err(expected) => Err(Fault { command: c.clone(), expected, ours: ours.into() }),
        }
    }

    fn judge_shown(&mut self, c: &Command, ours: &str, show: &str) -> Judged {
        match seen(show) {
            Some(after) => self.judge(c, ours, &after),
            None => Err("a record that keeps its rules".into()),
        }
    }

    /// A call on a table: the answers, and then the whole tables.
    fn judge(&mut self, c: &Command, ours: &str, after: &Seen) -> Judged {
        if c.op == op::COPY {
            self.copied(c, ours)?;
            return self.tables_equal(c, after, None);
        }
        if c.op == op::SHOW {
            return self.tables_equal(c, after, None);
        }
        let t = &mut self.tables[c.table as usize];
        let listed = if matches!(c.op, op::ON_ENCODER_RECV | op::ON_DECODER_RECV) || is_section_on(c.op) {
            stream_call(t, c, ours)?
        } else {
            match calls::call(t, c) {
                Expect::Line(line) if line == ours => None,
                Expect::Line(line) => return Err(line),
                Expect::Refused(l) => leaves::refused(l, c, ours)?,
            }
        };
        self.tables_equal(c, after, listed)
    }

    fn copied(&mut self, c: &Command, ours: &str) -> Judged {
        self.tables[c.table as usize] = self.tables[c.numbers[0] as usize].clone();
        if ours == "0" { Ok(None) } else { Err("0".into()) }
    }

    fn tables_equal(&self, c: &Command, after: &Seen, l: Option<&'static Listed>) -> Judged {
        match self.tables[c.table as usize].differs(after) {
            None => Ok(l),
            Some(what) => Err(format!("the same answer and another table: {what}")),
        }
    }

    /// Sets a count of both tables, so that large counts are met: the fields that both sides have.
    fn set(&mut self, c: &Command, ours: &str) -> Judged {
        let r = &mut self.tables[c.table as usize].rust;
        let value = c.numbers[2] as usize;
        match c.numbers[0] {
            0 => r.vas.inserted = value,
            1 => r.vas.dropped = value,
            9 => r.largest_known_received = value,
            n => crate::stop(&format!("the crate has no field {n}")),
        }
        if ours == "0" { Ok(None) } else { Err("0".into()) }
    }
}

/// A call that is refused before it reads anything, as replay writes it.
fn refused_line(t: &Table, c: &Command, number: u32) -> String {
    match c.op {
        op::ON_ENCODER_RECV => streams::refused_line(number, t, c),
        op::ON_DECODER_RECV => format!("{number} 0"),
        _ => sections::refused_line(number, c),
    }
}

fn stream_call(t: &mut Table, c: &Command, ours: &str) -> Judged {
    if let Some(l) = crate::listed::before(t, c) {
        let line = refused_line(t, c, l.number.unwrap());
        return if line == ours { Ok(Some(l)) } else { Err(line) };
    }
    match c.op {
        op::ON_ENCODER_RECV => streams::on_encoder(t, c, ours),
        op::ON_DECODER_RECV => streams::on_decoder(t, c, ours),
        _ => sections::section(t, c, ours),
    }
}
