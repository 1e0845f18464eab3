//! Lines of an ordinary program's input and dump.

use super::bytes::Bytes;
use super::database::{Value, KEY_LIMIT, TOP, VALUE_LIMIT};
use std::fmt;
use std::io::Write;
use std::str;

const PAIRS_LIMIT: usize = 1_000_000;

/// The machines of the lines of an order, and the lines behind these, where they have no fault.
pub fn order_of(input: &[u8]) -> Option<(Vec<u16>, &[u8])> {
    let mut order = Vec::new();
    let mut left = input;
    while let Some(line) = left.strip_prefix(b"O ") {
        let end = line.iter().position(|byte| *byte == b'\n')?;
        order.push(str::from_utf8(&line[..end]).ok()?.parse().ok()?);
        left = &line[end + 1..];
    }
    Some((order, left))
}

/// The pairs of an input, where it has no fault.
pub fn pairs_of(input: &[u8]) -> Option<Vec<(Bytes, Value)>> {
    let mut pairs = Vec::new();
    let mut scratch = Vec::new();
    for line in input.split_inclusive(|byte| *byte == b'\n') {
        let line = line.strip_suffix(b"\n")?.strip_prefix(b"K ")?;
        let (key, rest) = read_text(line, &mut scratch)?;
        let (value, rest_of_value) = read_text(rest?, &mut scratch)?;
        let is_lawful = *key < *TOP && key.len() <= KEY_LIMIT && value.len() <= VALUE_LIMIT;
        if !is_lawful || rest_of_value.is_some() || pairs.len() == PAIRS_LIMIT {
            return None;
        }
        pairs.push((key, Value::loaded(value)));
    }
    Some(pairs)
}

fn is_plain(byte: u8) -> bool {
    matches!(byte, b' '..=b'~') && byte != b'\\'
}

/// How many plain bytes a text begins with.
fn plain_len(text: &[u8]) -> usize {
    text.iter().position(|byte| !is_plain(*byte)).unwrap_or(text.len())
}

/// The bytes that a text spells up to its separator or its end, and what stands behind the separator. Where they are
/// all plain they are taken as they stand.
fn read_text<'a>(text: &'a [u8], scratch: &mut Vec<u8>) -> Option<(Bytes, Option<&'a [u8]>)> {
    let (plain, rest) = text.split_at(plain_len(text));
    match rest {
        [] => return Some((Bytes::from(plain), None)),
        [b'\\', b'=', rest @ ..] => return Some((Bytes::from(plain), Some(rest))),
        _ => {}
    }
    scratch.clear();
    let mut left = text;
    loop {
        let (plain, rest) = left.split_at(plain_len(left));
        scratch.extend_from_slice(plain);
        left = match rest {
            [] => return Some((Bytes::from(scratch.as_slice()), None)),
            [b'\\', b'=', rest @ ..] => return Some((Bytes::from(scratch.as_slice()), Some(rest))),
            [b'\\', b'\\', rest @ ..] => {
                scratch.push(b'\\');
                rest
            }
            [b'\\', b'x', high, low, rest @ ..] => {
                scratch.push(escaped(*high, *low)?);
                rest
            }
            _ => return None,
        };
    }
}

/// The byte that two digits spell, where it has no shorter spelling.
fn escaped(high: u8, low: u8) -> Option<u8> {
    let byte = 16 * digit_of(high)? + digit_of(low)?;
    (!is_plain(byte) && byte != b'\\').then_some(byte)
}

fn digit_of(byte: u8) -> Option<u8> {
    match byte {
        b'0'..=b'9' => Some(byte - b'0'),
        b'a'..=b'f' => Some(byte - b'a' + 10),
        _ => None,
    }
}

pub fn add_printable(to: &mut Vec<u8>, bytes: &[u8]) {
    const DIGITS: &[u8; 16] = b"0123456789abcdef";
    let mut left = bytes;
    loop {
        let (plain, rest) = left.split_at(plain_len(left));
        to.extend_from_slice(plain);
        left = match rest {
            [] => return,
            [b'\\', rest @ ..] => {
                to.extend_from_slice(b"\\\\");
                rest
            }
            [byte, rest @ ..] => {
                let (high, low) = (usize::from(byte / 16), usize::from(byte % 16));
                to.extend_from_slice(&[b'\\', b'x', DIGITS[high], DIGITS[low]]);
                rest
            }
        };
    }
}

#[inline]
pub fn add_pair(out: &mut Vec<u8>, key: &[u8], value: &[u8]) {
    out.extend_from_slice(b"K ");
    add_printable(out, key);
    out.extend_from_slice(b"\\=");
    add_printable(out, value);
    out.push(b'\n');
}

#[inline]
pub fn add(out: &mut Vec<u8>, text: fmt::Arguments) {
    out.write_fmt(text).expect("a vector takes all that is written into it");
}
