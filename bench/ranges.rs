//! Reads of a range, as an ordinary program does them: two ordered maps are walked side by side.

use super::bytes::Bytes;
use super::database::{Database, TOP};
use super::elements::{put_string, Element};
use super::machines::{End, Machine, BAD_INSTRUCTION};
use super::transactions::Transaction;
use std::iter::Peekable;

/// What GET_RANGE pops; the mode is one with a limit.
pub struct Range {
    begin: Bytes,
    end: Bytes,
    limit: usize,
    reverse: bool,
}

impl Machine {
    pub fn pop_range(&mut self) -> Result<Range, End> {
        let (begin, end) = (self.pop_bytes()?, self.pop_bytes()?);
        let (limit, reverse, _mode) = (self.pop_number()?, self.pop_number()? != 0, self.pop_number()?);
        Ok(Range { begin, end, limit, reverse })
    }

    fn pop_number(&mut self) -> Result<usize, End> {
        match self.pop()? {
            Element::Int(number) => usize::try_from(number).map_err(|_| BAD_INSTRUCTION),
            _ => Err(BAD_INSTRUCTION),
        }
    }
}

impl Transaction {
    /// The packed keys and values of a range in turn.
    pub fn get_range(&mut self, database: &Database, range: &Range) -> Result<Bytes, u16> {
        self.check_lawful(*range.begin <= *TOP && *range.end <= *TOP)?;
        let version = *self.version.get_or_insert(database.last);
        let pairs = read(database, version, self, range);
        let (begin, end) = range.read_by(&pairs);
        self.rest_on_unwritten(begin, end);
        let mut packed = Vec::new();
        for (key, value) in pairs {
            put_string(&mut packed, 0x01, &key);
            put_string(&mut packed, 0x01, &value);
        }
        Ok(packed.as_slice().into())
    }
}

impl Range {
    /// The keys that a read of it looked at which found these pairs: all, or those up to the last pair of its limit.
    fn read_by(&self, pairs: &[(Bytes, Bytes)]) -> (Bytes, Bytes) {
        match pairs.last() {
            Some((last, _)) if pairs.len() == self.limit && self.reverse => (last.clone(), self.end.clone()),
            Some((last, _)) if pairs.len() == self.limit => (self.begin.clone(), last.after()),
            _ => (self.begin.clone(), self.end.clone()),
        }
    }
}

/// The pairs of a range that a transaction sees, up to its limit, or all where it is 0, in order or reversed.
fn read(database: &Database, version: u64, transaction: &Transaction, range: &Range) -> Vec<(Bytes, Bytes)> {
    let Range { begin, end, limit, reverse } = range;
    let (limit, reverse) = (*limit, *reverse);
    if begin >= end {
        return Vec::new();
    }
    let stored = database.entries.range::<Bytes, _>(begin..end);
    let stored = stored.filter_map(|(key, value)| Some((key, value.at(version)?)));
    let written = transaction.writes.range::<Bytes, _>(begin..end);
    let limit = if limit == 0 { usize::MAX } else { limit };
    let copied = |(key, value): (&Bytes, &Bytes)| (key.clone(), value.clone());
    if reverse {
        let merged = Merged { stored: stored.rev().peekable(), written: written.rev().peekable(), reverse };
        merged.take(limit).map(copied).collect()
    } else {
        let merged = Merged { stored: stored.peekable(), written: written.peekable(), reverse };
        merged.take(limit).map(copied).collect()
    }
}

/// What two walks meet: where both have a key, what was written counts.
struct Merged<S: Iterator, W: Iterator> {
    stored: Peekable<S>,
    written: Peekable<W>,
    reverse: bool,
}

impl<'a, S, W> Iterator for Merged<S, W>
where
    S: Iterator<Item = (&'a Bytes, &'a Bytes)>,
    W: Iterator<Item = (&'a Bytes, &'a Option<Bytes>)>,
{
    type Item = (&'a Bytes, &'a Bytes);

    fn next(&mut self) -> Option<Self::Item> {
        loop {
            let order = match (self.stored.peek(), self.written.peek()) {
                (_, None) => return self.stored.next(),
                (None, Some(_)) => std::cmp::Ordering::Greater,
                (Some((stored, _)), Some((written, _))) => stored.cmp(written),
            };
            let is_stored_first = if self.reverse { order.is_gt() } else { order.is_lt() };
            if is_stored_first && self.stored.peek().is_some() {
                return self.stored.next();
            }
            if order.is_eq() {
                self.stored.next();
            }
            if let Some((key, Some(value))) = self.written.next() {
                return Some((key, value));
            }
        }
    }
}
