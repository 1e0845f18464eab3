//! The allocator of a subspace: that of the directories stands in the node of the root.

use super::bytes::Bytes;
use super::calls::Range;
use super::directories::{refuse_where, Call, Fault};
use super::elements::{put, unpack, Element};

/// What the counters of an allocator begin with, and the numbers that were tried.
pub struct Prefixes {
    pub counters: &'static [u8],
    pub recent: &'static [u8],
}

/// Those of the allocator of the directories.
#[allow(dead_code)]
pub const ROOT: Prefixes =
    Prefixes { counters: b"\xFE\x01\xFE\x00\x01hca\x00\x14", recent: b"\xFE\x01\xFE\x00\x01hca\x00\x15\x01" };

const RANDOM_TRIES: u32 = 32;
const GREATEST_COUNTER: i128 = 1 << 62;

/// 1 as 8 bytes, the lowest first.
const ONE: [u8; 8] = [1, 0, 0, 0, 0, 0, 0, 0];

fn window(start: u64) -> u64 {
    match start {
        0..255 => 64,
        255..65_535 => 1_024,
        _ => 8_192,
    }
}

/// The key of a number behind a prefix.
fn key_of(prefix: &[u8], number: u64) -> Bytes {
    let mut key = prefix.to_vec();
    put(&mut key, &Element::Int(number.into()), false);
    key.as_slice().into()
}

/// The number of a counter's key.
fn number_in(counters: &[u8], key: &[u8]) -> Option<u64> {
    match unpack(key.strip_prefix(counters)?)?.as_slice() {
        [Element::Int(number @ 0..=GREATEST_COUNTER)] => u64::try_from(*number).ok(),
        _ => None,
    }
}

/// Grants a number.
pub fn allocate(call: &mut Call, prefixes: &Prefixes) -> Result<u64, Fault> {
    let mut start = greatest(call, prefixes.counters)?;
    if count_is_half(call, prefixes.counters, start)? {
        start += window(start);
        call.transaction.clear_range(prefixes.counters.into(), key_of(prefixes.counters, start))?;
        call.transaction.silence();
        call.transaction.clear_range(prefixes.recent.into(), key_of(prefixes.recent, start))?;
        count_is_half(call, prefixes.counters, start)?;
    }
    let size = window(start);
    let mut last = 0;
    for _ in 0..RANDOM_TRIES {
        last = u64::from(call.words.next()) % size;
        if is_granted(call, prefixes.recent, start + last)? {
            return Ok(start + last);
        }
    }
    for number in (1..=size).map(|distance| start + (last + distance) % size) {
        if is_granted(call, prefixes.recent, number)? {
            return Ok(number);
        }
    }
    Err(Fault("WindowFull".into()))
}

/// The start of the window with the greatest counter, or 0 where there is none.
fn greatest(call: &mut Call, counters: &[u8]) -> Result<u64, Fault> {
    let (begin, end) = ([counters, &[0x00]].concat(), [counters, &[0xFF]].concat());
    let range = Range { begin: begin.as_slice().into(), end: end.as_slice().into(), limit: 1, reverse: true };
    let pairs = call.transaction.get_range(call.store, &range, true)?;
    let number = pairs.first().map_or(Some(0), |(key, _)| number_in(counters, key));
    refuse_where(number.is_none(), "BadCounter")?;
    Ok(number.unwrap_or(0))
}

/// Counts one more on a window, and tells whether it counts half of it.
fn count_is_half(call: &mut Call, counters: &[u8], start: u64) -> Result<bool, Fault> {
    let key = key_of(counters, start);
    call.transaction.add(key.clone(), ONE.as_slice().into())?;
    let value = call.transaction.get(call.store, &key, true)?;
    let count = value.map_or(0, |value| i64::from_le_bytes(value[..8].try_into().expect("8 bytes were added to it")));
    Ok(2 * i128::from(count) >= i128::from(window(start)))
}

/// Whether a number was absent, which it is no more.
fn is_granted(call: &mut Call, recent: &[u8], number: u64) -> Result<bool, Fault> {
    let key = key_of(recent, number);
    let is_absent = call.transaction.get(call.store, &key, false)?.is_none();
    call.transaction.silence();
    call.transaction.set(key.clone(), b"".as_slice().into())?;
    if is_absent {
        call.transaction.declare(key)?;
    }
    Ok(is_absent)
}
