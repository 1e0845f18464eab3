//! Byte strings of an ordinary Rust program: one of up to 22 bytes lies in place, and a longer one is shared.

use super::Shared;
use std::cmp::Ordering;
use std::ops::Deref;

const IN_PLACE: usize = 22;

/// A byte string in 24 bytes: a short one lies in place, behind its length, and a long one is shared, as the
/// program says.
#[derive(Clone)]
pub enum Bytes {
    Short(u8, [u8; IN_PLACE]),
    Long(Shared),
}

impl From<&[u8]> for Bytes {
    fn from(bytes: &[u8]) -> Bytes {
        if bytes.len() > IN_PLACE {
            return Bytes::Long(bytes.into());
        }
        let mut room = [0; IN_PLACE];
        room[..bytes.len()].copy_from_slice(bytes);
        Bytes::Short(bytes.len() as u8, room)
    }
}

impl Bytes {
    /// The least of those that are greater. The allocator's program has no need of it.
    #[allow(dead_code)]
    pub fn after(&self) -> Bytes {
        match self {
            // Behind its bytes a room is zero.
            Bytes::Short(len, room) if usize::from(*len) < IN_PLACE => Bytes::Short(len + 1, *room),
            _ => [&**self, &[0]].concat().as_slice().into(),
        }
    }
}

impl Deref for Bytes {
    type Target = [u8];

    fn deref(&self) -> &[u8] {
        match self {
            Bytes::Short(len, room) => &room[..usize::from(*len)],
            Bytes::Long(shared) => shared,
        }
    }
}

/// A room as numbers, whose order is that of its bytes; the last two have two bytes in common.
fn words(room: &[u8; IN_PLACE]) -> (u64, u64, u64) {
    let word = |from| u64::from_be_bytes(room[from..from + 8].try_into().unwrap());
    (word(0), word(8), word(IN_PLACE - 8))
}

impl PartialEq for Bytes {
    fn eq(&self, other: &Bytes) -> bool {
        **self == **other
    }
}

impl Eq for Bytes {}

impl PartialOrd for Bytes {
    fn partial_cmp(&self, other: &Bytes) -> Option<Ordering> {
        Some(self.cmp(other))
    }
}

impl Ord for Bytes {
    fn cmp(&self, other: &Bytes) -> Ordering {
        match (self, other) {
            // A room is zero behind its bytes, so it decides but for zeros at the end.
            (Bytes::Short(len, room), Bytes::Short(other_len, other_room)) => {
                words(room).cmp(&words(other_room)).then(len.cmp(other_len))
            }
            _ => (**self).cmp(&**other),
        }
    }
}
