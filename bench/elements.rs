//! Tuples of an ordinary program: their elements, packed and unpacked.

use super::bytes::Bytes;
use std::str;

const MAX_DEPTH: usize = 100;

pub enum Element {
    Null,
    Bytes(Bytes),
    Text(Bytes),
    Nested(Vec<Element>),
    Int(i128),
    Bool(bool),
    Uuid([u8; 16]),
    Stamp([u8; 12]),
}

pub fn put(out: &mut Vec<u8>, element: &Element, is_nested: bool) {
    match element {
        Element::Null if is_nested => out.extend_from_slice(&[0x00, 0xFF]),
        Element::Null => out.push(0x00),
        Element::Bytes(bytes) => put_string(out, 0x01, bytes),
        Element::Text(text) => put_string(out, 0x02, text),
        Element::Nested(inner) => {
            out.push(0x05);
            inner.iter().for_each(|element| put(out, element, true));
            out.push(0x00);
        }
        Element::Int(number) => put_int(out, *number),
        Element::Bool(value) => out.push(if *value { 0x27 } else { 0x26 }),
        Element::Uuid(bytes) => {
            out.push(0x30);
            out.extend_from_slice(bytes);
        }
        Element::Stamp(bytes) => {
            out.push(0x33);
            out.extend_from_slice(bytes);
        }
    }
}

pub fn put_string(out: &mut Vec<u8>, code: u8, bytes: &[u8]) {
    out.push(code);
    for part in bytes.split_inclusive(|byte| *byte == 0x00) {
        out.extend_from_slice(part);
        if part.ends_with(&[0x00]) {
            out.push(0xFF);
        }
    }
    out.push(0x00);
}

fn put_int(out: &mut Vec<u8>, number: i128) {
    let magnitude = number.unsigned_abs();
    let size = 16 - (magnitude.leading_zeros() / 8) as u8;
    match (number < 0, size) {
        (false, 0..=8) => out.push(0x14 + size),
        (true, 0..=8) => out.push(0x14 - size),
        (false, _) => out.extend_from_slice(&[0x1D, size]),
        (true, _) => out.extend_from_slice(&[0x0B, !size]),
    }
    let spelled = if number < 0 { !magnitude } else { magnitude };
    out.extend_from_slice(&spelled.to_be_bytes()[16 - usize::from(size)..]);
}

/// The elements of a packed tuple, or none where the bytes are no such tuple.
pub fn unpack(bytes: &[u8]) -> Option<Vec<Element>> {
    Reader { left: bytes }.elements(0)
}

struct Reader<'a> {
    left: &'a [u8],
}

impl<'a> Reader<'a> {
    /// The elements up to the end of the input, or of the tuple that they are in.
    fn elements(&mut self, depth: usize) -> Option<Vec<Element>> {
        let mut elements = Vec::new();
        while let Some((code, rest)) = self.left.split_first() {
            self.left = rest;
            if *code == 0x00 && depth > 0 && !self.is_escaped() {
                return Some(elements);
            }
            elements.push(self.element(*code, depth)?);
        }
        (depth == 0).then_some(elements)
    }

    fn element(&mut self, code: u8, depth: usize) -> Option<Element> {
        Some(match code {
            0x00 => Element::Null,
            0x01 => Element::Bytes(self.string()?),
            0x02 => {
                let text = self.string()?;
                str::from_utf8(&text).ok()?;
                Element::Text(text)
            }
            0x05 if depth < MAX_DEPTH => Element::Nested(self.elements(depth + 1)?),
            0x0B => {
                let size = !self.take(1)?[0];
                Element::Int(self.long_int(size, true)?)
            }
            0x0C..=0x13 => Element::Int(self.int(usize::from(0x14 - code), true)?),
            0x14..=0x1C => Element::Int(self.int(usize::from(code - 0x14), false)?),
            0x1D => {
                let size = self.take(1)?[0];
                Element::Int(self.long_int(size, false)?)
            }
            0x26 => Element::Bool(false),
            0x27 => Element::Bool(true),
            0x30 => Element::Uuid(self.take(16)?.try_into().ok()?),
            0x33 => Element::Stamp(self.take(12)?.try_into().ok()?),
            _ => return None,
        })
    }

    /// Whether an FF comes next, which is then taken.
    fn is_escaped(&mut self) -> bool {
        let rest = self.left.strip_prefix(&[0xFF]);
        self.left = rest.unwrap_or(self.left);
        rest.is_some()
    }

    fn take(&mut self, count: usize) -> Option<&'a [u8]> {
        let (taken, rest) = self.left.split_at_checked(count)?;
        self.left = rest;
        Some(taken)
    }

    /// The bytes up to a zero that no FF follows; most strings have no zero, and are taken in one piece.
    fn string(&mut self) -> Option<Bytes> {
        let first = self.up_to_zero()?;
        if !self.is_escaped() {
            return Some(Bytes::from(first));
        }
        let mut string = first.to_vec();
        loop {
            string.push(0x00);
            string.extend_from_slice(self.up_to_zero()?);
            if !self.is_escaped() {
                return Some(Bytes::from(string.as_slice()));
            }
        }
    }

    fn up_to_zero(&mut self) -> Option<&'a [u8]> {
        let taken = self.take(self.left.iter().position(|byte| *byte == 0x00)?)?;
        self.take(1)?;
        Some(taken)
    }

    fn long_int(&mut self, size: u8, is_negative: bool) -> Option<i128> {
        if size < 9 {
            return None;
        }
        self.int(usize::from(size), is_negative)
    }

    fn int(&mut self, size: usize, is_negative: bool) -> Option<i128> {
        let flip = if is_negative { 0xFF } else { 0x00 };
        let digits = self.take(size)?;
        if size > 16 || digits.first() == Some(&flip) {
            return None;
        }
        let magnitude = digits.iter().fold(0, |number, digit| number << 8 | u128::from(digit ^ flip));
        if is_negative {
            0i128.checked_sub_unsigned(magnitude)
        } else {
            i128::try_from(magnitude).ok()
        }
    }
}
