//! A line of a recorded list, docs/REPLAY.md, "Readable lines".
pub mod answer;

/// One call: its word, its table, and its numbers and strings by name.
pub struct Call {
    pub word: String,
    pub table: usize,
    given: Vec<(String, String)>,
}

/// The line's words; a quoted text is one word, with its quotes.
fn words(line: &str) -> Vec<String> {
    let (mut words, mut word, mut quoted, mut escaped) = (Vec::new(), String::new(), false, false);
    for c in line.chars() {
        if c == ' ' && !quoted {
            if !word.is_empty() {
                words.push(std::mem::take(&mut word));
            }
            continue;
        }
        quoted ^= c == '"' && !escaped;
        escaped = c == '\\' && !escaped;
        word.push(c);
    }
    if !word.is_empty() {
        words.push(word);
    }
    words
}

impl Call {
    pub fn read(line: &str) -> Call {
        let mut words = words(line).into_iter();
        let word = words.next().expect("a line has a word");
        let (mut table, mut given) = (0, Vec::new());
        for w in words {
            match w.split_once('=') {
                None => {
                    table = w
                        .parse()
                        .unwrap_or_else(|_| panic!("{line}: {w} is no table"))
                }
                Some((name, value)) => given.push((name.to_string(), value.to_string())),
            }
        }
        Call { word, table, given }
    }

    pub fn has(&self, name: &str) -> bool {
        self.given.iter().any(|(n, _)| n == name)
    }

    fn text(&self, name: &str) -> &str {
        let found = self.given.iter().find(|(n, _)| n == name);
        &found
            .unwrap_or_else(|| panic!("{} has no {name}=", self.word))
            .1
    }

    pub fn number(&self, name: &str) -> u64 {
        let text = self.text(name);
        let read = match text.strip_prefix("0x") {
            Some(hex) => u64::from_str_radix(hex, 16),
            None => text.parse(),
        };
        read.unwrap_or_else(|_| panic!("{name}={text} is no number"))
    }

    pub fn bytes(&self, name: &str) -> Vec<u8> {
        let text = self.text(name);
        let end = if text.starts_with('"') {
            text.rfind('"').expect("a quote") + 1
        } else {
            text.find('*').unwrap_or(text.len())
        };
        let times = match text[end..].strip_prefix('*') {
            Some(times) => times.parse().expect("a count"),
            None => 1,
        };
        body(&text[..end]).repeat(times)
    }

    pub fn fill(&self) -> u8 {
        self.number("fill") as u8
    }

    /// The output buffer before the call.
    pub fn buffer(&self) -> Vec<u8> {
        vec![self.fill(); self.number("room") as usize]
    }
}

/// A string with no repeat count.
fn body(text: &str) -> Vec<u8> {
    if let Some(hex) = text.strip_prefix("0x") {
        let pair = |i| u8::from_str_radix(&hex[i..i + 2], 16).expect("two digits");
        return (0..hex.len()).step_by(2).map(pair).collect();
    }
    let (mut out, mut escaped) = (Vec::new(), false);
    for &b in &text.as_bytes()[1..text.len() - 1] {
        escaped = b == b'\\' && !escaped;
        if !escaped {
            out.push(b);
        }
    }
    out
}
