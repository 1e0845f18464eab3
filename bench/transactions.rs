//! Transactions: their writes, the keys that they rest on, and their commits, each of which is refused where a commit
//! after the version of its reads wrote a key that it rests on.

use super::bytes::Bytes;
use super::database::{Database, Keys, KEY_LIMIT, TOP, VALUE_LIMIT};
use std::collections::BTreeMap;
use std::mem;

const SIZE_LIMIT: usize = 10_000_000;

const NOT_COMMITTED: u16 = 1020;
const KEY_OUTSIDE_LEGAL_RANGE: u16 = 2004;
const USED_DURING_COMMIT: u16 = 2017;
const TRANSACTION_TOO_LARGE: u16 = 2101;
const KEY_TOO_LARGE: u16 = 2102;
const VALUE_TOO_LARGE: u16 = 2103;

/// A transaction: a key has its value, or none where it was cleared, as the last write of it says.
#[derive(Default)]
pub struct Transaction {
    pub version: Option<u64>,
    pub writes: BTreeMap<Bytes, Option<Bytes>>,
    rests_on: Vec<Keys>,
    size: usize,
    is_tried: bool,
}

impl Transaction {
    fn check(&self, key: &[u8]) -> Result<(), u16> {
        self.check_lawful(*key < *TOP)
    }

    /// Whether there is nothing to refuse about a call whose keys are lawful, or aren't.
    pub fn check_lawful(&self, is_lawful: bool) -> Result<(), u16> {
        if self.is_tried {
            return Err(USED_DURING_COMMIT);
        }
        if !is_lawful {
            return Err(KEY_OUTSIDE_LEGAL_RANGE);
        }
        Ok(())
    }

    pub fn get(&mut self, database: &Database, key: Bytes) -> Result<Option<Bytes>, u16> {
        self.check(&key)?;
        let version = *self.version.get_or_insert(database.last);
        if let Some(written) = self.writes.get(&key) {
            return Ok(written.clone());
        }
        let value = database.get_at(&key, version).cloned();
        self.rests_on.push(Keys::One(key));
        Ok(value)
    }

    /// Lets it rest on the keys of a range that it hasn't written.
    pub fn rest_on_unwritten(&mut self, begin: Bytes, end: Bytes) {
        if begin >= end {
            return;
        }
        let mut from = begin.clone();
        for key in self.writes.range(begin..end.clone()).map(|(key, _)| key) {
            if from < *key {
                self.rests_on.push(Keys::Range(from, key.clone()));
            }
            from = key.after();
        }
        if from < end {
            self.rests_on.push(Keys::Range(from, end));
        }
    }

    pub fn set(&mut self, key: Bytes, value: Bytes) -> Result<(), u16> {
        self.check(&key)?;
        if key.len() > KEY_LIMIT {
            return Err(KEY_TOO_LARGE);
        }
        if value.len() > VALUE_LIMIT {
            return Err(VALUE_TOO_LARGE);
        }
        self.size += key.len() + value.len();
        self.writes.insert(key, Some(value));
        Ok(())
    }

    pub fn clear(&mut self, key: Bytes) -> Result<(), u16> {
        self.check(&key)?;
        self.size += 2 * key.len() + 1;
        self.writes.insert(key, None);
        Ok(())
    }

    pub fn commit(&mut self, database: &mut Database) -> Result<(), u16> {
        if mem::replace(&mut self.is_tried, true) {
            return Err(USED_DURING_COMMIT);
        }
        if self.writes.is_empty() {
            return Ok(());
        }
        if self.size > SIZE_LIMIT {
            return Err(TRANSACTION_TOO_LARGE);
        }
        let version = self.version.unwrap_or(database.last);
        if self.rests_on.iter().any(|keys| database.is_written_after(version, keys)) {
            return Err(NOT_COMMITTED);
        }
        database.commit(mem::take(&mut self.writes));
        Ok(())
    }
}
