//! The commands `watch`, `asm` and `disasm`, as an ordinary Rust program does them: the same words, and the same output for an
//! input without a fault. Where an input has one it says so, and ends with status 2.

#![allow(dead_code)]

use std::collections::{BTreeMap, HashMap, HashSet};
use std::env;
use std::io::{self, Read, Write};
use std::process::ExitCode;
use std::str;

mod bytes;
mod database;
mod elements;
mod lines;

use bytes::Bytes;
use elements::{put, unpack, Element};
use lines::{add, add_pair, add_printable};

/// Bytes that lie once, for all that have them.
type Shared = std::rc::Rc<[u8]>;

const NAMES: &str = "\
    DUP EMPTY_STACK SWAP POP SUB CONCAT WAIT_FUTURE TUPLE_PACK TUPLE_PACK_WITH_VERSIONSTAMP TUPLE_UNPACK TUPLE_RANGE \
    TUPLE_SORT GET_APPROXIMATE_SIZE GET_ESTIMATED_RANGE_SIZE UNIT_TESTS USE_TRANSACTION LOG_STACK START_THREAD WAIT_EMPTY \
    NEW_TRANSACTION ON_ERROR RESET CANCEL COMMIT GET_READ_VERSION GET_READ_VERSION_SNAPSHOT SET_READ_VERSION \
    GET_COMMITTED_VERSION GET_VERSIONSTAMP READ_CONFLICT_RANGE WRITE_CONFLICT_RANGE READ_CONFLICT_KEY WRITE_CONFLICT_KEY \
    DISABLE_WRITE_CONFLICT GET GET_SNAPSHOT GET_DATABASE GET_KEY GET_KEY_SNAPSHOT GET_KEY_DATABASE GET_RANGE \
    GET_RANGE_SNAPSHOT GET_RANGE_DATABASE GET_RANGE_STARTS_WITH GET_RANGE_STARTS_WITH_SNAPSHOT \
    GET_RANGE_STARTS_WITH_DATABASE GET_RANGE_SELECTOR GET_RANGE_SELECTOR_SNAPSHOT GET_RANGE_SELECTOR_DATABASE \
    DIRECTORY_OPEN DIRECTORY_OPEN_SNAPSHOT DIRECTORY_OPEN_DATABASE DIRECTORY_LIST DIRECTORY_LIST_SNAPSHOT \
    DIRECTORY_LIST_DATABASE DIRECTORY_EXISTS DIRECTORY_EXISTS_SNAPSHOT DIRECTORY_EXISTS_DATABASE SET SET_DATABASE CLEAR \
    CLEAR_DATABASE CLEAR_RANGE CLEAR_RANGE_DATABASE CLEAR_RANGE_STARTS_WITH CLEAR_RANGE_STARTS_WITH_DATABASE ATOMIC_OP \
    ATOMIC_OP_DATABASE DIRECTORY_CREATE_OR_OPEN DIRECTORY_CREATE_OR_OPEN_DATABASE DIRECTORY_CREATE \
    DIRECTORY_CREATE_DATABASE DIRECTORY_MOVE DIRECTORY_MOVE_DATABASE DIRECTORY_MOVE_TO DIRECTORY_MOVE_TO_DATABASE \
    DIRECTORY_REMOVE DIRECTORY_REMOVE_DATABASE DIRECTORY_REMOVE_IF_EXISTS DIRECTORY_REMOVE_IF_EXISTS_DATABASE \
    DIRECTORY_CREATE_SUBSPACE DIRECTORY_CREATE_LAYER DIRECTORY_CHANGE DIRECTORY_SET_ERROR_INDEX DIRECTORY_PACK_KEY \
    DIRECTORY_UNPACK_KEY DIRECTORY_RANGE DIRECTORY_CONTAINS DIRECTORY_OPEN_SUBSPACE DIRECTORY_LOG_SUBSPACE \
    DIRECTORY_LOG_DIRECTORY DIRECTORY_STRIP_PREFIX";

const DEPTH_LIMIT: usize = 100;
const VALUE_LIMIT: usize = 100_000;

fn main() -> ExitCode {
    let mut input = Vec::new();
    if io::stdin().read_to_end(&mut input).is_err() {
        return ExitCode::from(4);
    }
    let output = match env::args().nth(1).as_deref() {
        Some("watch") => watch(&input),
        Some("asm") => asm(&input),
        Some("disasm") => disasm(&input),
        _ => return ExitCode::from(1),
    };
    let Some(output) = output else {
        eprintln!("the input has a fault");
        return ExitCode::from(2);
    };
    match io::stdout().write_all(&output) {
        Ok(()) => ExitCode::SUCCESS,
        Err(_) => ExitCode::from(5),
    }
}

/// The lines of an input, each of which has its line feed.
fn lines_of(input: &[u8]) -> impl Iterator<Item = Option<&[u8]>> {
    input
        .split_inclusive(|byte| *byte == b'\n')
        .map(|line| line.strip_suffix(b"\n"))
}

// ---- printable text

fn digit(byte: u8) -> Option<u8> {
    match byte {
        b'0'..=b'9' => Some(byte - b'0'),
        b'a'..=b'f' => Some(byte - b'a' + 10),
        _ => None,
    }
}

/// The byte that a spelling begins with, where `quote` is spelled by its digits, and what is left behind it.
fn spelled(text: &[u8], quote: Option<u8>) -> Option<(u8, &[u8])> {
    match text {
        [b'\\', b'\\', rest @ ..] => Some((b'\\', rest)),
        [b'\\', b'x', high, low, rest @ ..] => {
            let byte = 16 * digit(*high)? + digit(*low)?;
            let is_short = (0x20..0x7f).contains(&byte) && Some(byte) != quote || byte == b'\\';
            (!is_short).then_some((byte, rest))
        }
        [byte @ 0x20..=0x7e, rest @ ..] if *byte != b'\\' && Some(*byte) != quote => Some((*byte, rest)),
        _ => None,
    }
}

/// The bytes that a whole text spells.
fn printed(mut text: &[u8]) -> Option<Vec<u8>> {
    let mut bytes = Vec::new();
    while !text.is_empty() {
        let (byte, rest) = spelled(text, None)?;
        bytes.push(byte);
        text = rest;
    }
    Some(bytes)
}

/// The key and the value of a line, behind its kind.
fn pair_of(text: &[u8]) -> Option<(Vec<u8>, Vec<u8>)> {
    let mut key = Vec::new();
    let mut left = text;
    loop {
        if let Some(value) = left.strip_prefix(b"\\=") {
            return Some((key, printed(value)?));
        }
        let (byte, rest) = spelled(left, None)?;
        key.push(byte);
        left = rest;
    }
}

// ---- asm

/// The bytes between quotes, and what is left behind the second.
fn quoted(text: &[u8]) -> Option<(Vec<u8>, &[u8])> {
    let mut bytes = Vec::new();
    let mut left = text;
    loop {
        if let Some(rest) = left.strip_prefix(b"'") {
            return Some((bytes, rest));
        }
        let (byte, rest) = spelled(left, Some(b'\''))?;
        bytes.push(byte);
        left = rest;
    }
}

fn hexadecimal<const N: usize>(text: &[u8]) -> Option<([u8; N], &[u8])> {
    let (digits, rest) = text.split_at_checked(2 * N)?;
    let mut bytes = [0; N];
    for (byte, pair) in bytes.iter_mut().zip(digits.chunks(2)) {
        *byte = 16 * digit(pair[0])? + digit(pair[1])?;
    }
    Some((bytes, rest))
}

fn number_len(text: &[u8]) -> usize {
    text.iter().take_while(|byte| byte.is_ascii_digit() || **byte == b'-').count()
}

fn number(text: &[u8]) -> Option<(i128, &[u8])> {
    let (digits, rest) = text.split_at(number_len(text));
    let bare = digits.strip_prefix(b"-").unwrap_or(digits);
    if bare.starts_with(b"0") && (bare.len() > 1 || digits.len() > 1) || bare.starts_with(b"-") {
        return None;
    }
    Some((str::from_utf8(digits).ok()?.parse().ok()?, rest))
}

fn nested(mut text: &[u8], depth: usize) -> Option<(Element, &[u8])> {
    let mut elements = Vec::new();
    if let Some(rest) = text.strip_prefix(b")") {
        return Some((Element::Nested(elements), rest));
    }
    loop {
        let (element, rest) = element(text, depth)?;
        elements.push(element);
        text = match rest {
            [b' ', rest @ ..] => rest,
            [b')', rest @ ..] => return Some((Element::Nested(elements), rest)),
            _ => return None,
        };
    }
}

fn stamp(text: &[u8]) -> Option<(Element, &[u8])> {
    let (stamp, rest) = hexadecimal::<10>(text)?;
    let (user, rest) = number(rest.strip_prefix(b".")?)?;
    let mut bytes = [0; 12];
    bytes[..10].copy_from_slice(&stamp);
    bytes[10..].copy_from_slice(&u16::try_from(user).ok()?.to_be_bytes());
    Some((Element::Stamp(bytes), rest))
}

fn element(text: &[u8], depth: usize) -> Option<(Element, &[u8])> {
    if let Some(rest) = text.strip_prefix(b"(") {
        return if depth < DEPTH_LIMIT { nested(rest, depth + 1) } else { None };
    }
    if let Some(rest) = text.strip_prefix(b"b'") {
        let (bytes, rest) = quoted(rest)?;
        return Some((Element::Bytes(Bytes::from(&bytes[..])), rest));
    }
    if let Some(rest) = text.strip_prefix(b"u'") {
        let (bytes, rest) = quoted(rest)?;
        str::from_utf8(&bytes).ok()?;
        return Some((Element::Text(Bytes::from(&bytes[..])), rest));
    }
    if let Some(rest) = text.strip_prefix(b"uuid:") {
        let (bytes, rest) = hexadecimal::<16>(rest)?;
        return Some((Element::Uuid(bytes), rest));
    }
    if let Some(rest) = text.strip_prefix(b"stamp:") {
        return stamp(rest);
    }
    for (word, element) in [
        (&b"null"[..], Element::Null),
        (&b"true"[..], Element::Bool(true)),
        (&b"false"[..], Element::Bool(false)),
    ] {
        if let Some(rest) = text.strip_prefix(word) {
            return Some((element, rest));
        }
    }
    let (number, rest) = number(text)?;
    Some((Element::Int(number), rest))
}

/// The packed tuple of an instruction.
fn instruction(line: &[u8], names: &HashSet<&[u8]>) -> Option<Vec<u8>> {
    let mut packed = Vec::new();
    if let Some(operand) = line.strip_prefix(b"PUSH ") {
        put(&mut packed, &Element::Text(Bytes::from(&b"PUSH"[..])), false);
        let (element, rest) = element(operand, 0)?;
        put(&mut packed, &element, false);
        return (rest.is_empty() && packed.len() <= VALUE_LIMIT).then_some(packed);
    }
    put(&mut packed, &Element::Text(Bytes::from(line)), false);
    names.contains(line).then_some(packed)
}

fn asm(input: &[u8]) -> Option<Vec<u8>> {
    let names: HashSet<&[u8]> = NAMES.split(' ').map(str::as_bytes).collect();
    let mut prefixes = HashSet::new();
    let mut pairs: Vec<(Vec<u8>, Vec<u8>)> = Vec::new();
    let mut head = None;
    let mut index = 0;
    for line in lines_of(input) {
        let line = line?;
        if let Some(prefix) = line.strip_prefix(b"@ ") {
            let prefix = printed(prefix)?;
            if head.is_some() && index == 0 || prefix.len() > 1_000 || !prefixes.insert(prefix.clone()) {
                return None;
            }
            let mut packed = Vec::new();
            put(&mut packed, &Element::Bytes(Bytes::from(&prefix[..])), false);
            head = Some(packed);
            index = 0;
        } else {
            let mut key = head.clone()?;
            put(&mut key, &Element::Int(index), false);
            pairs.push((key, instruction(line, &names)?));
            index += 1;
        }
    }
    if head.is_some() && index == 0 {
        return None;
    }
    let mut out = Vec::new();
    for (key, value) in &pairs {
        add_pair(&mut out, key, value);
    }
    Some(out)
}

// ---- disasm

fn add_quoted(out: &mut Vec<u8>, kind: u8, bytes: &[u8]) {
    out.extend_from_slice(&[kind, b'\'']);
    for (place, part) in bytes.split(|byte| *byte == b'\'').enumerate() {
        if place > 0 {
            out.extend_from_slice(b"\\x27");
        }
        add_printable(out, part);
    }
    out.push(b'\'');
}

fn add_hexadecimal(out: &mut Vec<u8>, bytes: &[u8]) {
    bytes.iter().for_each(|byte| add(out, format_args!("{byte:02x}")));
}

fn add_element(out: &mut Vec<u8>, element: &Element) {
    match element {
        Element::Null => out.extend_from_slice(b"null"),
        Element::Bool(value) => add(out, format_args!("{value}")),
        Element::Int(number) => add(out, format_args!("{number}")),
        Element::Bytes(bytes) => add_quoted(out, b'b', bytes),
        Element::Text(text) => add_quoted(out, b'u', text),
        Element::Uuid(bytes) => {
            out.extend_from_slice(b"uuid:");
            add_hexadecimal(out, bytes);
        }
        Element::Stamp(bytes) => {
            out.extend_from_slice(b"stamp:");
            add_hexadecimal(out, &bytes[..10]);
            add(out, format_args!(".{}", u16::from_be_bytes([bytes[10], bytes[11]])));
        }
        Element::Nested(elements) => {
            out.push(b'(');
            for (place, element) in elements.iter().enumerate() {
                if place > 0 {
                    out.push(b' ');
                }
                add_element(out, element);
            }
            out.push(b')');
        }
    }
}

fn disasm(input: &[u8]) -> Option<Vec<u8>> {
    let names: HashSet<&[u8]> = NAMES.split(' ').map(str::as_bytes).collect();
    let mut pairs = Vec::new();
    for line in lines_of(input) {
        pairs.push(pair_of(line?.strip_prefix(b"K ")?)?);
    }
    let mut prefixes = HashSet::new();
    let mut open = None;
    let mut next = 0;
    let mut out = Vec::new();
    for (key, value) in &pairs {
        let key = unpack(key)?;
        let [Element::Bytes(prefix), Element::Int(index)] = &key[..] else { return None };
        if *index == 0 {
            if prefix.len() > 1_000 || !prefixes.insert(prefix.to_vec()) {
                return None;
            }
            out.extend_from_slice(b"@ ");
            add_printable(&mut out, prefix);
            out.push(b'\n');
            open = Some(prefix.to_vec());
            next = 0;
        }
        if open.as_deref() != Some(&prefix[..]) || *index != next {
            return None;
        }
        next += 1;
        match &unpack(value)?[..] {
            [Element::Text(name), element] if &name[..] == b"PUSH" => {
                out.extend_from_slice(b"PUSH ");
                add_element(&mut out, element);
            }
            [Element::Text(name)] if names.contains(&name[..]) => out.extend_from_slice(name),
            _ => return None,
        }
        out.push(b'\n');
    }
    Some(out)
}

// ---- watch

struct Watch {
    then: Option<Vec<u8>>,
    fired: Option<u64>,
}

/// Lets the watches on a key fire whose value is another one now.
fn commit(pending: &mut HashMap<Vec<u8>, Vec<usize>>, watches: &mut [Watch], key: &[u8], now: Option<&Vec<u8>>, version: u64) {
    if let Some(numbers) = pending.get_mut(key) {
        numbers.retain(|number| {
            let watch = &mut watches[*number];
            let is_same = watch.then.as_ref() == now;
            if !is_same {
                watch.fired = Some(version);
            }
            is_same
        });
    }
}

fn watch(input: &[u8]) -> Option<Vec<u8>> {
    let mut database: BTreeMap<Vec<u8>, Vec<u8>> = BTreeMap::new();
    let mut pending: HashMap<Vec<u8>, Vec<usize>> = HashMap::new();
    let mut watches: Vec<Watch> = Vec::new();
    let mut version = 0;
    for line in lines_of(input) {
        match line? {
            [b'W', b' ', key @ ..] => {
                let key = printed(key)?;
                watches.push(Watch { then: database.get(&key).cloned(), fired: None });
                pending.entry(key).or_default().push(watches.len() - 1);
            }
            [b'C', b' ', key @ ..] => {
                let key = printed(key)?;
                version += 1;
                database.remove(&key);
                commit(&mut pending, &mut watches, &key, None, version);
            }
            [b'K', b' ', pair @ ..] => {
                let (key, value) = pair_of(pair)?;
                version += 1;
                commit(&mut pending, &mut watches, &key, Some(&value), version);
                database.insert(key, value);
            }
            _ => return None,
        }
    }
    let mut out = Vec::new();
    for (number, watch) in watches.iter().enumerate() {
        match watch.fired {
            Some(version) => add(&mut out, format_args!("F {number} {version}\n")),
            None => add(&mut out, format_args!("F {number} -\n")),
        }
    }
    Some(out)
}
