//! Directories of an ordinary program: the layer's nodes begin with `FE`, its contents with nothing, and the prefixes of
//! directories are granted by its allocator.

use super::bytes::Bytes;
use super::calls::{behind, Pairs, Range, Store, Transaction};
use super::elements::{put, put_string, unpack, Element};
use super::granting::{allocate, ROOT};
use super::words::Words;

const NODE: &[u8] = b"\xFE";
const VERSION: &[u8] = b"\xFE\x01\xFE\x00\x01version\x00";

/// The version that is noted: three numbers of 4 bytes, the lowest first.
const VERSION_NOW: &[u8] = &[1, 0, 0, 0, 0, 0, 0, 0, 0, 0, 0, 0];

pub struct Directory {
    pub prefix: Bytes,
    pub layer: Bytes,
}

/// Why a call was refused: the name of a fault, or the digits of a code.
pub struct Fault(pub String);

impl From<u16> for Fault {
    fn from(code: u16) -> Fault {
        Fault(code.to_string())
    }
}

pub fn refuse_where(is_refused: bool, name: &str) -> Result<(), Fault> {
    if is_refused {
        return Err(Fault(name.into()));
    }
    Ok(())
}

// ---- keys

/// What the node of the directory with a prefix begins with.
fn node_of(prefix: &[u8]) -> Vec<u8> {
    let mut node = NODE.to_vec();
    put_string(&mut node, 0x01, prefix);
    node
}

fn entry_of(parent: &[u8], name: &[u8]) -> Bytes {
    let mut key = node_of(parent);
    key.push(0x14);
    put_string(&mut key, 0x02, name);
    key.as_slice().into()
}

fn layer_key(prefix: &[u8]) -> Bytes {
    let mut key = node_of(prefix);
    put_string(&mut key, 0x01, b"layer");
    key.as_slice().into()
}

/// The prefix whose node a key stands in.
fn prefix_in(key: &[u8]) -> Option<Bytes> {
    match unpack(key.get(NODE.len()..)?)?.into_iter().next()? {
        Element::Bytes(prefix) => Some(prefix),
        _ => None,
    }
}

// ---- calls

/// A call of the layer on a transaction.
pub struct Call<'a> {
    pub store: &'a Store,
    pub transaction: &'a mut Transaction,
    pub words: &'a mut Words,
}

impl Call<'_> {
    /// Opens the directory of a path, which is created where it isn't there, and all above it.
    pub fn create_or_open(&mut self, path: &[Bytes], layer: &[u8]) -> Result<Directory, Fault> {
        self.check(false)?;
        let Some((name, above)) = path.split_last() else {
            return Err(Fault("EmptyPath".into()));
        };
        if let Some(found) = self.find(path)? {
            refuse_where(!layer.is_empty() && *layer != *found.layer, "LayerDiffers")?;
            return Ok(found);
        }
        refuse_where(*layer == *b"partition", "Partition")?;
        self.check(true)?;
        let prefix = self.new_prefix()?;
        let parent = if above.is_empty() { NODE.into() } else { self.create_or_open(above, b"")?.prefix };
        self.transaction.set(entry_of(&parent, name), prefix.clone())?;
        self.transaction.set(layer_key(&prefix), layer.into())?;
        Ok(Directory { prefix, layer: layer.into() })
    }

    fn value(&mut self, key: &Bytes) -> Result<Option<Bytes>, Fault> {
        Ok(self.transaction.get(self.store, key, false)?)
    }

    /// The first pair of a range, or the last.
    fn first(&mut self, begin: Bytes, end: Bytes, reverse: bool, by_snapshot: bool) -> Result<Pairs, Fault> {
        let range = Range { begin, end, limit: 1, reverse };
        Ok(self.transaction.get_range(self.store, &range, by_snapshot)?)
    }

    /// Whether directories may be read, or written; the first that writes notes the version.
    fn check(&mut self, writes: bool) -> Result<(), Fault> {
        let key = VERSION.into();
        match self.value(&key)? {
            None if writes => self.transaction.set(key, VERSION_NOW.into())?,
            None => {}
            Some(version) => {
                refuse_where(version.len() != VERSION_NOW.len(), "BadNode")?;
                let number = |at: usize| u32::from_le_bytes(version[at..at + 4].try_into().expect("it has 12 bytes"));
                refuse_where(number(0) > 1 || writes && number(4) > 0, "VersionNewer")?;
            }
        }
        Ok(())
    }

    /// The directory of a path: from the root on, one entry for each name.
    fn find(&mut self, path: &[Bytes]) -> Result<Option<Directory>, Fault> {
        let mut found = Directory { prefix: NODE.into(), layer: b"".as_slice().into() };
        for name in path {
            let Some(prefix) = self.value(&entry_of(&found.prefix, name))? else {
                return Ok(None);
            };
            let layer = self.value(&layer_key(&prefix))?.unwrap_or_else(|| b"".as_slice().into());
            refuse_where(*layer == *b"partition", "Partition")?;
            found = Directory { prefix, layer };
        }
        Ok(Some(found))
    }

    /// A number that the allocator grants, packed, where no key and no directory stands.
    fn new_prefix(&mut self) -> Result<Bytes, Fault> {
        let number = allocate(self, &ROOT)?;
        let mut packed = Vec::new();
        put(&mut packed, &Element::Int(number.into()), false);
        let prefix = Bytes::from(packed.as_slice());
        let end = behind(&prefix).ok_or_else(|| Fault("NoSuccessor".into()))?;
        let keys = self.first(prefix.clone(), end.clone(), false, false)?;
        refuse_where(!keys.is_empty(), "KeysAtPrefix")?;
        refuse_where(self.is_in_use(&prefix, &end)?, "PrefixInUse")?;
        Ok(prefix)
    }

    /// Whether the contents of a directory begin with a prefix, or it with theirs; the end is behind all that begin with it.
    fn is_in_use(&mut self, prefix: &Bytes, end: &Bytes) -> Result<bool, Fault> {
        if prefix.is_empty() || prefix.starts_with(NODE) {
            return Ok(true);
        }
        let (begin, node) = (Bytes::from([NODE, &[0]].concat().as_slice()), Bytes::from(node_of(prefix).as_slice()));
        if let Some((key, _)) = self.first(begin, node.after(), true, true)?.first() {
            let other = prefix_in(key).ok_or_else(|| Fault("BadNode".into()))?;
            if prefix.starts_with(&other) {
                return Ok(true);
            }
        }
        Ok(!self.first(node, node_of(end).as_slice().into(), false, true)?.is_empty())
    }
}
