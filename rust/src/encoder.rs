use crate::{Error, Insertion, Lookup, Table};

/// An open section (h3: `DynamicTableEncoder`). Dropped without a commit, it gives its references back.
#[derive(Debug)]
pub struct Encoder<'a> {
    table: &'a mut Table,
}

impl<'a> Encoder<'a> {
    /// The guard of a section that was just opened.
    pub(crate) fn opened(table: &'a mut Table) -> Encoder<'a> {
        Encoder { table }
    }

    /// What relative and post-base indexes of the section count from.
    pub fn base(&self) -> usize {
        self.table
            .base()
            .expect("the section is open while its guard stands")
    }

    pub fn total_inserted(&self) -> usize {
        self.table.inserted()
    }

    pub fn find(&mut self, name: &[u8], value: &[u8]) -> Result<Lookup, Error> {
        self.table.find(name, value)
    }

    pub fn insert(&mut self, name: &[u8], value: &[u8]) -> Result<Insertion, Error> {
        self.table.insert(name, value)
    }

    /// Queues the section. After a refusal it is abandoned.
    pub fn commit(self, largest: usize) -> Result<(), Error> {
        self.table.commit(largest)
    }
}

impl Drop for Encoder<'_> {
    fn drop(&mut self) {
        if self.table.base().is_some() {
            // no section is open after a commit, and an open one can always be abandoned
            let _ = self.table.abandon();
        }
    }
}
