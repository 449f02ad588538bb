//! The Rust's table beside ours.
use crate::ours::{Seen, Uses};
use crate::table::Table;
use h3::qpack::field::HeaderField;
use std::borrow::Cow;
use std::collections::{BTreeMap, HashMap};

impl Table {
    /// What differs from ours, if anything does.
    pub fn differs(&self, s: &Seen) -> Option<String> {
        let r = &self.rust;
        let numbers = [
            ("inserted", r.vas.inserted, s.inserted),
            ("dropped", r.vas.dropped, s.dropped),
            ("delta", r.vas.delta, s.inserted - s.dropped),
            ("size", r.curr_size, s.size),
            ("capacity", r.max_size, s.capacity),
            ("known", r.largest_known_received, s.known),
            ("most", r.blocked_max, s.most),
            ("blocked", r.blocked_count, s.total),
            ("live entries", r.fields.len(), s.live.len()),
            ("queued sections", self.queued(), s.queue.len()),
        ];
        for (name, rust, ours) in numbers {
            if rust != ours {
                return Some(format!("{name}: the Rust has {rust}, ours {ours}"));
            }
        }
        if r.blocked_streams != s.blocked {
            return Some(format!("blocked values: the Rust has {:?}, ours {:?}", r.blocked_streams, s.blocked));
        }
        let same = |f: &HeaderField, g: &(Vec<u8>, Vec<u8>)| f.name == Cow::from(&g.0[..]) && f.value == Cow::from(&g.1[..]);
        if !r.fields.iter().zip(&s.live).all(|(f, g)| same(f, g)) {
            return Some("the live strings".into());
        }
        self.sections_differ(s)
    }

    fn sections_differ(&self, s: &Seen) -> Option<String> {
        let mut streams: BTreeMap<u64, Vec<&Uses>> = BTreeMap::new();
        let mut references: BTreeMap<usize, usize> = BTreeMap::new();
        for u in &s.queue {
            streams.entry(u.stream).or_default().push(u);
        }
        for u in s.queue.iter().chain(s.open.iter().map(|o| &o.1)) {
            for (k, n) in &u.uses {
                *references.entry(*k).or_insert(0) += n;
            }
        }
        if references != self.rust.track_map {
            return Some(format!("references: the Rust has {:?}, ours {references:?}", self.rust.track_map));
        }
        let same = |a: &HashMap<usize, usize>, b: &BTreeMap<usize, usize>| a.len() == b.len() && b.iter().all(|(k, n)| a.get(k) == Some(n));
        for (stream, sections) in &streams {
            let q = self.rust.track_blocks.get(stream);
            let equal = q.is_some_and(|q| q.len() == sections.len() && q.iter().zip(sections).all(|(a, b)| same(a, &b.uses)));
            if !equal {
                return Some(format!("the queue of stream {stream}"));
            }
        }
        match (&self.open, &s.open) {
            (None, None) => None,
            (Some(a), Some((base, b))) if a.stream == b.stream && a.base == *base && same(&a.refs, &b.uses) => None,
            _ => Some("the open section".into()),
        }
    }
}
