//! The pairs that `gen N` makes: the packed instructions of main, which starts workers and waits for them, those of each worker,
//! and the keys that main waits for.

use super::bytes::Bytes;
use super::database::Value;
use super::elements::{put, put_string, Element};

const ROUNDS: u32 = 20;

/// 1 as 8 bytes, the least first.
const ONE: [u8; 8] = [1, 0, 0, 0, 0, 0, 0, 0];

/// The prefix of main.
pub const MAIN: &[u8] = b"g";

/// The pairs of main and of so many workers, in their order.
pub fn pairs(workers: u32) -> Vec<(Bytes, Value)> {
    let mut pairs = Vec::new();
    place(&mut pairs, MAIN, main_script(workers));
    for worker in 1..=workers {
        place(&mut pairs, format!("w{worker}").as_bytes(), worker_script(worker));
    }
    for worker in 1..=workers {
        pairs.push((bytes(&format!("busy{worker}")), Value::loaded(bytes(""))));
    }
    pairs
}

fn bytes(text: &str) -> Bytes {
    text.as_bytes().into()
}

/// Adds packed instructions under a prefix.
fn place(pairs: &mut Vec<(Bytes, Value)>, prefix: &[u8], script: Script) {
    let mut key = Vec::new();
    put_string(&mut key, 0x01, prefix);
    let len = key.len();
    for (place, packed) in script.0.into_iter().enumerate() {
        key.truncate(len);
        put(&mut key, &Element::Int(place as i128), false);
        pairs.push((key.as_slice().into(), Value::loaded(packed)));
    }
}

/// Packed instructions, in their order.
struct Script(Vec<Bytes>);

impl Script {
    fn bare(&mut self, name: &str) {
        let mut packed = Vec::new();
        put_string(&mut packed, 0x02, name.as_bytes());
        self.0.push(packed.as_slice().into());
    }

    fn push(&mut self, element: Element) {
        let mut packed = Vec::new();
        put_string(&mut packed, 0x02, b"PUSH");
        put(&mut packed, &element, false);
        self.0.push(packed.as_slice().into());
    }

    fn push_bytes(&mut self, text: &str) {
        self.push(Element::Bytes(bytes(text)));
    }

    /// A key is set, the sum grows by one, the keys that the worker set are read, and the transaction is committed.
    fn add_round(&mut self, worker: u32, round: u32) {
        self.push_bytes("v");
        self.push_bytes(&format!("d{worker}/{round:02}"));
        self.bare("SET");
        self.push(Element::Bytes(ONE.as_slice().into()));
        self.push_bytes("sum");
        self.push(Element::Text(bytes("ADD")));
        self.bare("ATOMIC_OP");
        self.push(Element::Int(-1));
        self.push(Element::Int(0));
        self.push(Element::Int(0));
        self.push_bytes(&format!("d{worker}/"));
        for name in ["GET_RANGE_STARTS_WITH", "POP", "COMMIT", "POP", "RESET"] {
            self.bare(name);
        }
    }
}

fn main_script(workers: u32) -> Script {
    let mut script = Script(Vec::new());
    for worker in 1..=workers {
        script.push_bytes(&format!("w{worker}"));
        script.bare("START_THREAD");
    }
    script.push_bytes("busy");
    script.bare("WAIT_EMPTY");
    script
}

/// A worker opens its directory, makes its rounds, and is busy no more.
fn worker_script(worker: u32) -> Script {
    let mut script = Script(Vec::new());
    script.push(Element::Null);
    script.push(Element::Text(bytes(&format!("w{worker}"))));
    script.push(Element::Int(1));
    script.bare("DIRECTORY_CREATE_OR_OPEN_DATABASE");
    for round in 0..ROUNDS {
        script.add_round(worker, round);
    }
    script.push_bytes(&format!("busy{worker}"));
    script.bare("CLEAR_DATABASE");
    script
}
