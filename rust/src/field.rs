/// A field: a name and a value.
#[derive(Debug, Clone, PartialEq, Eq, Hash)]
pub struct Field {
    pub name: Vec<u8>,
    pub value: Vec<u8>,
}

impl Field {
    pub fn new(name: impl Into<Vec<u8>>, value: impl Into<Vec<u8>>) -> Field {
        Field {
            name: name.into(),
            value: value.into(),
        }
    }

    /// Its size in a table, RFC 9204 3.2.1.
    pub fn mem_size(&self) -> usize {
        self.name.len() + self.value.len() + 32
    }
}

/// Where a search found a name or a field (h3: `DynamicLookupResult`).
#[derive(Debug, Clone, Copy, PartialEq, Eq)]
pub enum Lookup {
    Static(usize),
    Relative { index: usize, absolute: usize },
    PostBase { index: usize, absolute: usize },
    NotFound,
}

/// What an insertion did: how the new entry is written, or what names it where it was not made (h3: `DynamicInsertionResult`).
#[derive(Debug, Clone, Copy, PartialEq, Eq)]
pub enum Insertion {
    Inserted {
        postbase: usize,
        absolute: usize,
    },
    Duplicated {
        relative: usize,
        postbase: usize,
        absolute: usize,
    },
    InsertedWithNameRef {
        postbase: usize,
        relative: usize,
        absolute: usize,
    },
    InsertedWithStaticNameRef {
        postbase: usize,
        index: usize,
        absolute: usize,
    },
    NotInserted(Lookup),
}

impl crate::ffi::Named {
    pub(crate) fn lookup(self) -> Lookup {
        let (index, absolute) = (self.index, self.absolute);
        match self.kind {
            0 => Lookup::NotFound,
            1 => Lookup::Static(index),
            2 => Lookup::Relative { index, absolute },
            3 => Lookup::PostBase { index, absolute },
            kind => panic!("the archive gave the kind {kind} for a find"),
        }
    }

    pub(crate) fn insertion(self) -> Insertion {
        let (index, postbase, absolute) = (self.index, self.postbase, self.absolute);
        match self.kind {
            4 => Insertion::Inserted { postbase, absolute },
            5 => Insertion::Duplicated {
                relative: index,
                postbase,
                absolute,
            },
            6 => Insertion::InsertedWithNameRef {
                postbase,
                relative: index,
                absolute,
            },
            7 => Insertion::InsertedWithStaticNameRef {
                postbase,
                index,
                absolute,
            },
            _ => Insertion::NotInserted(self.lookup()),
        }
    }
}
