//! Transactions with the calls that `gen` makes, those of the directories among them: a key is set, cleared or added to, ranges are
//! cleared, a write may declare nothing, a key is declared without a write, and a read may be by snapshot.

use super::bytes::Bytes;
use super::database::{Database, Keys, KEY_LIMIT, TOP, VALUE_LIMIT};
use std::collections::btree_map::{BTreeMap, Entry};
use std::mem;

const SIZE_LIMIT: usize = 10_000_000;

const NOT_COMMITTED: u16 = 1020;
const KEY_OUTSIDE_LEGAL_RANGE: u16 = 2004;
const INVERTED_RANGE: u16 = 2005;
const USED_DURING_COMMIT: u16 = 2017;
const TRANSACTION_TOO_LARGE: u16 = 2101;
const KEY_TOO_LARGE: u16 = 2102;
const VALUE_TOO_LARGE: u16 = 2103;

// ---- the store

/// The database, and the ranges that commits declared, with their versions; single keys are declared in the database.
pub struct Store {
    pub database: Database,
    ranges: Vec<(u64, Bytes, Bytes)>,
}

impl Store {
    pub fn new(database: Database) -> Store {
        Store { database, ranges: Vec::new() }
    }

    fn is_declared_after(&self, version: u64, keys: &Keys) -> bool {
        let meets = |begin: &Bytes, end: &Bytes| match keys {
            Keys::One(key) => begin <= key && key < end,
            Keys::Range(from, to) => begin < to && from < end,
        };
        let mut ranges = self.ranges.iter().rev().take_while(|(declared, ..)| *declared > version);
        self.database.is_written_after(version, keys) || ranges.any(|(_, begin, end)| meets(begin, end))
    }

    fn commit(&mut self, transaction: &mut Transaction) {
        let database = &mut self.database;
        database.last += 1;
        for (begin, end) in mem::take(&mut transaction.clears) {
            database.clear_range(&begin, &end);
        }
        for (key, write) in mem::take(&mut transaction.writes) {
            let value = match write {
                Write::Set(value) => Some(value),
                Write::Clear => None,
                Write::Adds(operands) => Some(summed(database.get_at(&key, database.last), &operands)),
            };
            database.put(key, value);
        }
        for keys in mem::take(&mut transaction.declares) {
            match keys {
                Keys::One(key) => database.declare(key),
                Keys::Range(begin, end) => self.ranges.push((database.last, begin, end)),
            }
        }
    }
}

// ---- writes

/// The last write of a key; what is added waits for what the store has there.
enum Write {
    Set(Bytes),
    Clear,
    Adds(Vec<Bytes>),
}

impl Write {
    /// What it makes of what the store has.
    fn value(&self, stored: Option<&Bytes>) -> Option<Bytes> {
        match self {
            Write::Set(value) => Some(value.clone()),
            Write::Clear => None,
            Write::Adds(operands) => Some(summed(stored, operands)),
        }
    }

    fn is_decided(&self) -> bool {
        !matches!(self, Write::Adds(_))
    }
}

/// An old value and operands, of which there is one at least.
fn summed(old: Option<&Bytes>, operands: &[Bytes]) -> Bytes {
    let (first, others) = operands.split_first().expect("something is added");
    let begun = old.map_or_else(|| first.clone(), |old| added(old, first));
    others.iter().fold(begun, |sum, operand| added(&sum, operand))
}

/// A number and an operand, the lowest byte first, in as many bytes as the operand has.
fn added(old: &[u8], operand: &[u8]) -> Bytes {
    let mut sum = operand.to_vec();
    let mut carry = 0;
    for (place, byte) in sum.iter_mut().enumerate() {
        let digits = u16::from(*byte) + u16::from(*old.get(place).unwrap_or(&0)) + carry;
        *byte = digits as u8;
        carry = digits >> 8;
    }
    sum.as_slice().into()
}

// ---- ranges

/// The keys of a range, in order or reversed, up to a limit, or all where it is 0.
pub struct Range {
    pub begin: Bytes,
    pub end: Bytes,
    pub limit: usize,
    pub reverse: bool,
}

pub type Pairs = Vec<(Bytes, Bytes)>;

impl Range {
    /// The keys that a read of it looked at which found these pairs: all, or those up to the last pair of its limit.
    fn read_by(&self, pairs: &[(Bytes, Bytes)]) -> (Bytes, Bytes) {
        match pairs.last() {
            Some((last, _)) if pairs.len() == self.limit && self.reverse => (last.clone(), self.end.clone()),
            Some((last, _)) if pairs.len() == self.limit => (self.begin.clone(), last.after()),
            _ => (self.begin.clone(), self.end.clone()),
        }
    }
}

/// The least key above all that begin with a prefix, where there is one.
pub fn behind(prefix: &[u8]) -> Option<Bytes> {
    let len = prefix.iter().rposition(|byte| *byte != 0xFF)?;
    let mut end = prefix[..=len].to_vec();
    end[len] += 1;
    Some(end.as_slice().into())
}

/// What two walks meet, both in order or both reversed: where both have a key, what was written counts.
fn merged<'a>(
    stored: impl Iterator<Item = (&'a Bytes, &'a Bytes)>,
    written: impl Iterator<Item = (&'a Bytes, &'a Write)>,
    range: &Range,
) -> Pairs {
    let (mut stored, mut written) = (stored.peekable(), written.peekable());
    let mut pairs = Vec::new();
    while range.limit == 0 || pairs.len() < range.limit {
        let is_older_first = match (stored.peek(), written.peek()) {
            (_, None) => true,
            (None, Some(_)) => false,
            (Some((old, _)), Some((new, _))) if range.reverse => old > new,
            (Some((old, _)), Some((new, _))) => old < new,
        };
        if is_older_first {
            let Some((key, value)) = stored.next() else { break };
            pairs.push((key.clone(), value.clone()));
        } else if let Some((key, write)) = written.next() {
            let old = stored.next_if(|(old, _)| *old == key).map(|(_, value)| value);
            pairs.extend(write.value(old).map(|value| (key.clone(), value)));
        }
    }
    pairs
}

// ---- transactions

/// A transaction. Its ranges were cleared before the writes that it has there.
#[derive(Default)]
pub struct Transaction {
    version: Option<u64>,
    writes: BTreeMap<Bytes, Write>,
    clears: Vec<(Bytes, Bytes)>,
    rests_on: Vec<Keys>,
    declares: Vec<Keys>,
    size: usize,
    is_silent: bool,
    is_tried: bool,
}

impl Transaction {
    fn check(&self, is_lawful: bool) -> Result<(), u16> {
        if self.is_tried {
            return Err(USED_DURING_COMMIT);
        }
        if !is_lawful {
            return Err(KEY_OUTSIDE_LEGAL_RANGE);
        }
        Ok(())
    }

    fn check_write(&self, key: &[u8], value: &[u8]) -> Result<(), u16> {
        self.check(*key < *TOP)?;
        if key.len() > KEY_LIMIT {
            return Err(KEY_TOO_LARGE);
        }
        if value.len() > VALUE_LIMIT {
            return Err(VALUE_TOO_LARGE);
        }
        Ok(())
    }

    fn is_cleared(&self, key: &Bytes) -> bool {
        self.clears.iter().any(|(begin, end)| begin <= key && key < end)
    }

    // ---- reads

    pub fn get(&mut self, store: &Store, key: &Bytes, by_snapshot: bool) -> Result<Option<Bytes>, u16> {
        self.check(**key < *TOP)?;
        let version = *self.version.get_or_insert(store.database.last);
        let write = self.writes.get(key);
        let is_decided = write.map_or_else(|| self.is_cleared(key), Write::is_decided);
        let stored = if is_decided { None } else { store.database.get_at(key, version) };
        let value = write.map_or_else(|| stored.cloned(), |write| write.value(stored));
        if !by_snapshot && !is_decided {
            self.rests_on.push(Keys::One(key.clone()));
        }
        Ok(value)
    }

    pub fn get_range(&mut self, store: &Store, range: &Range, by_snapshot: bool) -> Result<Pairs, u16> {
        self.check(*range.begin <= *TOP && *range.end <= *TOP)?;
        let version = *self.version.get_or_insert(store.database.last);
        if range.begin >= range.end {
            return Ok(Vec::new());
        }
        let stored = store.database.entries.range::<Bytes, _>(&range.begin..&range.end);
        let stored = stored.filter_map(|(key, value)| Some((key, value.at(version)?)));
        let stored = stored.filter(|(key, _)| !self.is_cleared(key));
        let written = self.writes.range::<Bytes, _>(&range.begin..&range.end);
        let pairs = if range.reverse {
            merged(stored.rev(), written.rev(), range)
        } else {
            merged(stored, written, range)
        };
        if !by_snapshot {
            let (begin, end) = range.read_by(&pairs);
            self.rest_on_undecided(begin, end);
        }
        Ok(pairs)
    }

    /// Lets it rest on the keys of a range that no set and no clear of its own decides.
    fn rest_on_undecided(&mut self, begin: Bytes, end: Bytes) {
        let written = self.writes.range(&begin..&end).filter(|(_, write)| write.is_decided());
        let mut decided: Vec<_> = written.map(|(key, _)| (key.clone(), key.after())).collect();
        decided.extend(self.clears.iter().cloned());
        decided.sort_unstable();
        let mut from = begin;
        for (begin, after) in decided.into_iter().take_while(|(begin, _)| *begin < end) {
            if from < begin {
                self.rests_on.push(Keys::Range(from.clone(), begin));
            }
            from = from.max(after);
        }
        if from < end {
            self.rests_on.push(Keys::Range(from, end));
        }
    }

    // ---- writes

    /// The next write declares nothing.
    pub fn silence(&mut self) {
        self.is_silent = true;
    }

    /// A key is declared as if it were written.
    pub fn declare(&mut self, key: Bytes) -> Result<(), u16> {
        self.check(*key < *TOP)?;
        self.size += 2 * key.len() + 1;
        self.declares.push(Keys::One(key));
        Ok(())
    }

    /// A write has so many bytes, and declares its keys where it isn't silent.
    fn note(&mut self, size: usize, keys: impl FnOnce() -> Keys) {
        self.size += size;
        if !mem::take(&mut self.is_silent) {
            self.declares.push(keys());
        }
    }

    pub fn set(&mut self, key: Bytes, value: Bytes) -> Result<(), u16> {
        self.check_write(&key, &value)?;
        self.note(key.len() + value.len(), || Keys::One(key.clone()));
        self.writes.insert(key, Write::Set(value));
        Ok(())
    }

    pub fn clear(&mut self, key: Bytes) -> Result<(), u16> {
        self.check(*key < *TOP)?;
        self.note(2 * key.len() + 1, || Keys::One(key.clone()));
        self.writes.insert(key, Write::Clear);
        Ok(())
    }

    pub fn clear_range(&mut self, begin: Bytes, end: Bytes) -> Result<(), u16> {
        self.check(*begin <= *TOP && *end <= *TOP)?;
        if begin > end {
            return Err(INVERTED_RANGE);
        }
        self.note(begin.len() + end.len(), || Keys::Range(begin.clone(), end.clone()));
        self.writes.retain(|key, _| *key < begin || *key >= end);
        self.clears.push((begin, end));
        Ok(())
    }

    pub fn add(&mut self, key: Bytes, operand: Bytes) -> Result<(), u16> {
        self.check_write(&key, &operand)?;
        self.note(key.len() + operand.len(), || Keys::One(key.clone()));
        let is_cleared = self.is_cleared(&key);
        match self.writes.entry(key) {
            Entry::Vacant(entry) if is_cleared => drop(entry.insert(Write::Set(operand))),
            Entry::Vacant(entry) => drop(entry.insert(Write::Adds(vec![operand]))),
            Entry::Occupied(entry) => match entry.into_mut() {
                Write::Set(value) => *value = added(value, &operand),
                Write::Adds(operands) => operands.push(operand),
                write => *write = Write::Set(operand),
            },
        }
        Ok(())
    }

    pub fn commit(&mut self, store: &mut Store) -> Result<(), u16> {
        if mem::replace(&mut self.is_tried, true) {
            return Err(USED_DURING_COMMIT);
        }
        if self.writes.is_empty() && self.clears.is_empty() && self.declares.is_empty() {
            return Ok(());
        }
        if self.size > SIZE_LIMIT {
            return Err(TRANSACTION_TOO_LARGE);
        }
        let version = self.version.unwrap_or(store.database.last);
        if self.rests_on.iter().any(|keys| store.is_declared_after(version, keys)) {
            return Err(NOT_COMMITTED);
        }
        store.commit(self);
        Ok(())
    }
}
