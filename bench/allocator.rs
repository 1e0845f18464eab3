//! The grants that `allocator_bench` makes, as a lean Rust program makes them, which does nothing else: the same steps over
//! a database of its own, and the same number printed.
//!
//! The database is one `BTreeMap`, whose entries have the value of each version that wrote them, the newest last, one of the
//! version that last declared each key, and a list of the ranges that were declared. A transaction keeps its writes by key and
//! the ranges that it cleared.

use std::collections::BTreeMap;
use std::env;
use std::process::ExitCode;

mod bytes;
mod words;

use bytes::Bytes;
use words::Words;

/// Bytes that lie once, for all that have them.
type Shared = std::rc::Rc<[u8]>;

const SPACE: &[u8] = b"s";
const COUNTERS: &[u8] = b"s\x14";
const RECENT: &[u8] = b"s\x15\x01";
const RANDOM_TRIES: u32 = 32;
const FEW: u32 = 1_000;

fn main() -> ExitCode {
    let count = env::args().nth(1).map_or(Ok(FEW), |word| word.parse());
    let Ok(count) = count else {
        return ExitCode::FAILURE;
    };
    let Some(sum) = sum_of_grants(count) else {
        return ExitCode::FAILURE;
    };
    println!("{sum}");
    ExitCode::SUCCESS
}

/// Grants so many numbers on one subspace, each in a transaction that commits.
fn sum_of_grants(count: u32) -> Option<u64> {
    let mut database = Database::default();
    let mut words = Words::new(0);
    let mut sum: u64 = 0;
    for _ in 0..count {
        let mut transaction = Transaction::at(database.last);
        let number = allocate(&database, &mut transaction, &mut words)?;
        database.commit(transaction).then_some(())?;
        sum = sum.wrapping_mul(31).wrapping_add(number);
    }
    Some(sum)
}

// ---- the database

#[derive(Default)]
struct Database {
    last: u64,
    entries: BTreeMap<Bytes, Vec<(u64, Option<Bytes>)>>,
    declared: BTreeMap<Bytes, u64>,
    cleared: Vec<(u64, Bytes, Bytes)>,
}

fn at(values: &[(u64, Option<Bytes>)], version: u64) -> Option<&Bytes> {
    values.iter().rev().find(|(written, _)| *written <= version)?.1.as_ref()
}

impl Database {
    fn is_declared_after(&self, version: u64, key: &Bytes) -> bool {
        self.declared.get(key).is_some_and(|declared| *declared > version)
            || self.cleared.iter().rev().take_while(|(declared, ..)| *declared > version).any(|(_, begin, end)| begin <= key && key < end)
    }

    /// Commits a transaction, unless a commit after its version declared a key that it rests on.
    fn commit(&mut self, transaction: Transaction) -> bool {
        if transaction.rests_on.iter().any(|key| self.is_declared_after(transaction.version, key)) {
            return false;
        }
        self.last += 1;
        let version = self.last;
        for (begin, end, is_declared) in transaction.clears {
            for (_, values) in self.entries.range_mut(&begin..&end) {
                if values.last().is_some_and(|(_, value)| value.is_some()) {
                    values.push((version, None));
                }
            }
            if is_declared {
                self.cleared.push((version, begin, end));
            }
        }
        for (key, write) in transaction.writes {
            let values = self.entries.entry(key.clone()).or_default();
            let value = match write {
                Write::Set(value) => value,
                Write::Add => added(values.last().and_then(|(_, value)| value.as_ref())),
            };
            values.push((version, Some(value)));
        }
        for key in transaction.declares {
            self.declared.insert(key, version);
        }
        true
    }
}

/// 1 more than a number of 8 bytes, the lowest first.
fn added(old: Option<&Bytes>) -> Bytes {
    let mut room = [0; 8];
    for (place, byte) in room.iter_mut().zip(old.map_or(&[][..], |bytes| bytes)) {
        *place = *byte;
    }
    u64::from_le_bytes(room).wrapping_add(1).to_le_bytes().as_slice().into()
}

enum Write {
    Set(Bytes),
    Add,
}

/// A transaction; what it cleared was cleared before what it wrote there.
struct Transaction {
    version: u64,
    writes: BTreeMap<Bytes, Write>,
    clears: Vec<(Bytes, Bytes, bool)>,
    rests_on: Vec<Bytes>,
    declares: Vec<Bytes>,
}

impl Transaction {
    fn at(version: u64) -> Transaction {
        Transaction { version, writes: BTreeMap::new(), clears: Vec::new(), rests_on: Vec::new(), declares: Vec::new() }
    }

    fn stored<'a>(&self, database: &'a Database, key: &Bytes) -> Option<&'a Bytes> {
        if self.clears.iter().any(|(begin, end, _)| begin <= key && key < end) {
            return None;
        }
        at(database.entries.get(key)?, self.version)
    }

    fn get(&self, database: &Database, key: &Bytes) -> Option<Bytes> {
        match self.writes.get(key) {
            Some(Write::Set(value)) => Some(value.clone()),
            Some(Write::Add) => Some(added(self.stored(database, key))),
            None => self.stored(database, key).cloned(),
        }
    }

    /// The greatest key of a range. Counters are added to only after they are looked for.
    fn last_key(&self, database: &Database, begin: &Bytes, end: &Bytes) -> Option<Bytes> {
        let entries = database.entries.range(begin..end).rev();
        let found = entries.filter(|(_, values)| at(values, self.version).is_some()).map(|(key, _)| key).next();
        found.cloned()
    }

    fn clear_range(&mut self, begin: Bytes, end: Bytes, is_declared: bool) {
        self.writes.retain(|key, _| *key < begin || *key >= end);
        self.clears.push((begin, end, is_declared));
    }
}

// ---- the allocator

fn window(start: u64) -> u64 {
    match start {
        0..255 => 64,
        255..65_535 => 1_024,
        _ => 8_192,
    }
}

/// The key of a number behind a prefix.
fn key_of(prefix: &[u8], number: u64) -> Bytes {
    let digits = number.to_be_bytes();
    let len = digits.iter().position(|digit| *digit != 0).map_or(0, |place| 8 - place);
    let mut room = [0; 12];
    room[..prefix.len()].copy_from_slice(prefix);
    room[prefix.len()] = 0x14 + len as u8;
    room[prefix.len() + 1..][..len].copy_from_slice(&digits[8 - len..]);
    room[..prefix.len() + 1 + len].into()
}

/// The number of a counter's key.
fn number_in(key: &[u8]) -> Option<u64> {
    let digits = key.get(SPACE.len() + 2..)?;
    let number = digits.iter().take(8).fold(0, |number, digit| number << 8 | u64::from(*digit));
    (*key_of(COUNTERS, number) == *key && number <= 1 << 62).then_some(number)
}

fn count(database: &Database, transaction: &mut Transaction, start: u64) -> i64 {
    let key = key_of(COUNTERS, start);
    transaction.declares.push(key.clone());
    transaction.writes.insert(key.clone(), Write::Add);
    let value = transaction.get(database, &key).unwrap_or_else(|| [].as_slice().into());
    i64::from_le_bytes(value[..8].try_into().unwrap())
}

fn allocate(database: &Database, transaction: &mut Transaction, words: &mut Words) -> Option<u64> {
    let begin = Bytes::from([COUNTERS, &[0]].concat().as_slice());
    let end = Bytes::from([COUNTERS, &[255]].concat().as_slice());
    let mut start = match transaction.last_key(database, &begin, &end) {
        None => 0,
        Some(key) => number_in(&key)?,
    };
    if 2 * i128::from(count(database, transaction, start)) >= i128::from(window(start)) {
        start += window(start);
        transaction.clear_range(COUNTERS.into(), key_of(COUNTERS, start), true);
        transaction.clear_range(RECENT.into(), key_of(RECENT, start), false);
        count(database, transaction, start);
    }
    let size = window(start);
    let mut last = 0;
    let drawn = (0..RANDOM_TRIES).map(|_| u64::from(words.next()) % size);
    for number in drawn {
        last = number;
        if let Some(granted) = try_number(database, transaction, start + number) {
            return Some(granted);
        }
    }
    (1..=size).find_map(|distance| try_number(database, transaction, start + (last + distance) % size))
}

/// The number, where it was absent, which it is no more.
fn try_number(database: &Database, transaction: &mut Transaction, number: u64) -> Option<u64> {
    let key = key_of(RECENT, number);
    let is_absent = transaction.get(database, &key).is_none();
    transaction.rests_on.push(key.clone());
    transaction.writes.insert(key.clone(), Write::Set([].as_slice().into()));
    if is_absent {
        transaction.declares.push(key);
    }
    is_absent.then_some(number)
}
