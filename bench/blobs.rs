//! An ordinary program that answers `bwrite`, `bread` and `bsize` of one byte string as the shell does, over the same reads: each call
//! joins all chunks, from an ordered map of versions of keys. It knows letters and digits alone, and no refusals.

use std::collections::BTreeMap;
use std::io::{self, BufRead, Write};

const CHUNK: usize = 10_000;

/// The values of each key, with the version from which each is there.
struct Store {
    values: BTreeMap<Vec<u8>, Vec<(u64, Vec<u8>)>>,
    version: u64,
}

/// The key of a chunk.
fn chunk_key(name: &[u8], place: usize) -> Vec<u8> {
    let mut key = b"\x01blob\x00\x01".to_vec();
    key.extend_from_slice(name);
    key.push(0);
    let digits = place.to_be_bytes();
    let zeros = digits.iter().take_while(|byte| **byte == 0).count();
    key.push(0x14 + (digits.len() - zeros) as u8);
    key.extend_from_slice(&digits[zeros..]);
    key
}

impl Store {
    /// The bytes of a name at the last version: its chunks, which must have their places, joined.
    fn bytes(&self, name: &[u8]) -> Vec<u8> {
        let mut begin = b"\x01blob\x00\x01".to_vec();
        begin.extend_from_slice(name);
        begin.push(0);
        let mut end = begin.clone();
        begin.push(0);
        end.push(0xFF);
        let mut bytes = Vec::new();
        for (place, (key, versions)) in self.values.range(begin..end).enumerate() {
            assert!(*key == chunk_key(name, place));
            let newest = versions.iter().rev().find(|value| value.0 <= self.version);
            bytes.extend_from_slice(&newest.expect("a value").1);
        }
        bytes
    }

    /// Puts a piece over the bytes of a name, and sets each chunk that has a byte of it; returns the version.
    fn write(&mut self, name: &[u8], at: usize, piece: &[u8]) -> u64 {
        let old = self.bytes(name);
        let mut bytes = old[..at].to_vec();
        bytes.extend_from_slice(piece);
        bytes.extend_from_slice(old.get(at + piece.len()..).unwrap_or(&[]));
        self.version += 1;
        for place in at / CHUNK..(at + piece.len()).div_ceil(CHUNK) {
            let end = bytes.len().min(CHUNK * (place + 1));
            let chunk = bytes[CHUNK * place..end].to_vec();
            let versions = self.values.entry(chunk_key(name, place)).or_default();
            versions.push((self.version, chunk));
        }
        self.version
    }
}

fn main() -> io::Result<()> {
    let mut store = Store {
        values: BTreeMap::new(),
        version: 1,
    };
    let mut out = io::stdout().lock();
    for line in io::stdin().lock().lines() {
        let line = line?;
        let words: Vec<&str> = line.split(' ').collect();
        let number = |place: usize| words[place].parse::<usize>().expect("a number");
        let name = words[1].as_bytes();
        match words[0] {
            "bwrite" => {
                let version = store.write(name, number(2), words[3].as_bytes());
                writeln!(out, "Committed ({version})")?;
            }
            "bread" => {
                let bytes = store.bytes(name);
                let rest = bytes.get(number(2)..).unwrap_or(&[]);
                let part = &rest[..rest.len().min(number(3))];
                writeln!(out, "{}", String::from_utf8_lossy(part))?;
            }
            "bsize" => writeln!(out, "{}", store.bytes(name).len())?,
            other => panic!("{other}"),
        }
        out.flush()?;
    }
    Ok(())
}
