//! The database of an ordinary program: one `BTreeMap`, whose entries have the newest value and, only where there are any,
//! older ones behind it.

use super::bytes::Bytes;
use super::elements::put_string;
use std::collections::btree_map::{BTreeMap, Entry};
use std::mem;

pub const KEY_LIMIT: usize = 10_000;
pub const VALUE_LIMIT: usize = 100_000;

/// A client's keys are less than this one.
pub const TOP: &[u8] = b"\xFF";

/// One key, or those from the first that are less than the second, which is greater.
pub enum Keys {
    One(Bytes),
    Range(Bytes, Bytes),
}

/// What a key has had since a version, a value or none.
struct Older {
    since: u64,
    value: Option<Bytes>,
}

/// What a key has since a version, a value or none, and what it had before, the oldest first: most keys had nothing,
/// which takes 8 bytes.
pub struct Value {
    since: u64,
    pub newest: Option<Bytes>,
    older: Option<Box<Vec<Older>>>,
}

impl Value {
    /// The first version is the one that was loaded.
    pub fn loaded(value: Bytes) -> Value {
        Value { since: 1, newest: Some(value), older: None }
    }

    pub fn at(&self, version: u64) -> Option<&Bytes> {
        if self.since <= version {
            return self.newest.as_ref();
        }
        let mut older = self.older.as_ref()?.iter().rev();
        older.find(|older| older.since <= version)?.value.as_ref()
    }

    fn set(&mut self, version: u64, value: Option<Bytes>) {
        let before = Older { since: self.since, value: mem::replace(&mut self.newest, value) };
        self.older.get_or_insert_default().push(before);
        self.since = version;
    }
}

/// The keys with their values, and the version of the last commit that wrote a key, where one did.
pub struct Database {
    pub entries: BTreeMap<Bytes, Value>,
    writers: BTreeMap<Bytes, u64>,
    pub last: u64,
}

impl Database {
    /// Of two pairs of one key the later stays.
    pub fn load(pairs: Vec<(Bytes, Value)>) -> Database {
        Database { entries: pairs.into_iter().collect(), writers: BTreeMap::new(), last: 1 }
    }

    pub fn get_at(&self, key: &Bytes, version: u64) -> Option<&Bytes> {
        self.entries.get(key)?.at(version)
    }

    // The program `gen` has commits of its own, by the calls below.
    #[allow(dead_code)]
    pub fn commit(&mut self, writes: BTreeMap<Bytes, Option<Bytes>>) {
        self.last += 1;
        for (key, value) in writes {
            self.writers.insert(key.clone(), self.last);
            self.put(key, value);
        }
    }

    /// A key has a value, or none, from the last version on.
    pub fn put(&mut self, key: Bytes, value: Option<Bytes>) {
        match self.entries.entry(key) {
            Entry::Occupied(entry) => entry.into_mut().set(self.last, value),
            Entry::Vacant(entry) => {
                entry.insert(Value { since: self.last, newest: value, older: None });
            }
        }
    }

    /// The last version writes a key, as checks see it.
    #[allow(dead_code)]
    pub fn declare(&mut self, key: Bytes) {
        self.writers.insert(key, self.last);
    }

    /// The keys of a range have no value from the last version on.
    #[allow(dead_code)]
    pub fn clear_range(&mut self, begin: &Bytes, end: &Bytes) {
        let stored = self.entries.range_mut::<Bytes, _>(begin..end);
        for (_, value) in stored.filter(|(_, value)| value.newest.is_some()) {
            value.set(self.last, None);
        }
    }

    /// Whether a commit after a version wrote one of these keys.
    pub fn is_written_after(&self, version: u64, keys: &Keys) -> bool {
        match keys {
            Keys::One(key) => self.writers.get(key).is_some_and(|writer| *writer > version),
            Keys::Range(begin, end) => {
                let mut writers = self.writers.range::<Bytes, _>(begin..end);
                writers.any(|(_, writer)| *writer > version)
            }
        }
    }

    /// The values in the range of the tuples that begin with the prefix.
    pub fn instructions(&self, prefix: &[u8]) -> Vec<Bytes> {
        let mut begin = Vec::new();
        put_string(&mut begin, 0x01, prefix);
        let mut end = begin.clone();
        begin.push(0x00);
        end.push(0xFF);
        let range = Bytes::from(begin.as_slice())..Bytes::from(end.as_slice());
        let pairs = self.entries.range(range);
        pairs.filter_map(|(_, value)| value.newest.clone()).collect()
    }
}
