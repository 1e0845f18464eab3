//! Packing and unpacking of tuples, as an ordinary Rust program does them. Its words, and the number that it prints,
//! are those of the program in `tuple_bench`.

use std::env;
use std::error::Error;
use std::fmt;

const MAX_DEPTH: usize = 100;
const MIXED: u8 = 64;

enum Elem {
    Null,
    Bytes(Vec<u8>),
    Text(String),
    Nested(Vec<Elem>),
    Int(i128),
    Bool(bool),
    Uuid([u8; 16]),
    Stamp([u8; 10], u16),
}

#[derive(Debug)]
enum Fault {
    Truncated(usize),
    BadCode(usize),
    NotMinimal(usize),
    TooBig(usize),
    BadUtf8(usize),
    TooDeep(usize),
}

impl fmt::Display for Fault {
    fn fmt(&self, f: &mut fmt::Formatter) -> fmt::Result {
        match self {
            Fault::Truncated(at) => write!(f, "the packed tuple ends early, at byte {at}"),
            Fault::BadCode(at) => write!(f, "byte {at} is no code of an element"),
            Fault::NotMinimal(at) => write!(f, "the integer at byte {at} is not spelled by its least bytes"),
            Fault::TooBig(at) => write!(f, "the integer at byte {at} has more than 128 bits"),
            Fault::BadUtf8(at) => write!(f, "the string at byte {at} is not UTF-8"),
            Fault::TooDeep(at) => write!(f, "the tuple at byte {at} is nested 101 deep"),
        }
    }
}

impl Error for Fault {}

// ---- packing

fn pack(tuple: &[Elem]) -> Vec<u8> {
    let mut out = Vec::new();
    for element in tuple {
        put(&mut out, element, false);
    }
    out
}

fn put(out: &mut Vec<u8>, element: &Elem, nested: bool) {
    match element {
        Elem::Null if nested => out.extend_from_slice(&[0x00, 0xFF]),
        Elem::Null => out.push(0x00),
        Elem::Bytes(bytes) => put_string(out, 0x01, bytes),
        Elem::Text(text) => put_string(out, 0x02, text.as_bytes()),
        Elem::Nested(inner) => {
            out.push(0x05);
            for element in inner {
                put(out, element, true);
            }
            out.push(0x00);
        }
        Elem::Int(number) => put_int(out, *number),
        Elem::Bool(value) => out.push(if *value { 0x27 } else { 0x26 }),
        Elem::Uuid(bytes) => {
            out.push(0x30);
            out.extend_from_slice(bytes);
        }
        Elem::Stamp(stamp, user) => {
            out.push(0x33);
            out.extend_from_slice(stamp);
            out.extend_from_slice(&user.to_be_bytes());
        }
    }
}

fn put_string(out: &mut Vec<u8>, code: u8, bytes: &[u8]) {
    out.push(code);
    for byte in bytes {
        out.push(*byte);
        if *byte == 0 {
            out.push(0xFF);
        }
    }
    out.push(0x00);
}

fn put_int(out: &mut Vec<u8>, number: i128) {
    let magnitude = number.unsigned_abs();
    let size = 16 - (magnitude.leading_zeros() / 8) as u8;
    match (number < 0, size) {
        (false, 0..=8) => out.push(0x14 + size),
        (true, 0..=8) => out.push(0x14 - size),
        (false, _) => out.extend_from_slice(&[0x1D, size]),
        (true, _) => out.extend_from_slice(&[0x0B, !size]),
    }
    let spelled = if number < 0 { !magnitude } else { magnitude };
    out.extend_from_slice(&spelled.to_be_bytes()[16 - usize::from(size)..]);
}

// ---- unpacking

fn unpack(bytes: &[u8]) -> Result<Vec<Elem>, Fault> {
    Reader { bytes, at: 0 }.elements(0)
}

struct Reader<'a> {
    bytes: &'a [u8],
    at: usize,
}

impl<'a> Reader<'a> {
    /// The elements up to the end of the input, or of the tuple that they are in.
    fn elements(&mut self, depth: usize) -> Result<Vec<Elem>, Fault> {
        let mut elements = Vec::new();
        while self.at < self.bytes.len() {
            let place = self.at;
            let code = self.bytes[place];
            self.at += 1;
            if code == 0x00 && depth > 0 && !self.escaped() {
                return Ok(elements);
            }
            elements.push(self.element(code, place, depth)?);
        }
        if depth > 0 {
            return Err(Fault::Truncated(self.bytes.len()));
        }
        Ok(elements)
    }

    fn element(&mut self, code: u8, place: usize, depth: usize) -> Result<Elem, Fault> {
        Ok(match code {
            0x00 => Elem::Null,
            0x01 => Elem::Bytes(self.string()?),
            0x02 => Elem::Text(String::from_utf8(self.string()?).map_err(|_| Fault::BadUtf8(place))?),
            0x05 if depth == MAX_DEPTH => return Err(Fault::TooDeep(place)),
            0x05 => Elem::Nested(self.elements(depth + 1)?),
            0x0B => {
                let size = !self.take(1)?[0];
                Elem::Int(self.long_int(place, true, size)?)
            }
            0x0C..=0x13 => Elem::Int(self.int(place, true, usize::from(0x14 - code))?),
            0x14..=0x1C => Elem::Int(self.int(place, false, usize::from(code - 0x14))?),
            0x1D => {
                let size = self.take(1)?[0];
                Elem::Int(self.long_int(place, false, size)?)
            }
            0x26 => Elem::Bool(false),
            0x27 => Elem::Bool(true),
            0x30 => Elem::Uuid(self.array()?),
            0x33 => {
                let bytes: [u8; 12] = self.array()?;
                let (stamp, user) = bytes.split_at(10);
                Elem::Stamp(stamp.try_into().unwrap(), u16::from_be_bytes(user.try_into().unwrap()))
            }
            _ => return Err(Fault::BadCode(place)),
        })
    }

    /// Whether an FF comes next, which is then taken.
    fn escaped(&mut self) -> bool {
        let escaped = self.bytes.get(self.at) == Some(&0xFF);
        if escaped {
            self.at += 1;
        }
        escaped
    }

    fn take(&mut self, count: usize) -> Result<&'a [u8], Fault> {
        let rest = &self.bytes[self.at..];
        let taken = rest.get(..count).ok_or(Fault::Truncated(self.bytes.len()))?;
        self.at += count;
        Ok(taken)
    }

    fn array<const N: usize>(&mut self) -> Result<[u8; N], Fault> {
        Ok(self.take(N)?.try_into().unwrap())
    }

    fn string(&mut self) -> Result<Vec<u8>, Fault> {
        let mut string = Vec::new();
        loop {
            let byte = self.take(1)?[0];
            if byte == 0 && !self.escaped() {
                return Ok(string);
            }
            string.push(byte);
        }
    }

    fn long_int(&mut self, place: usize, negative: bool, size: u8) -> Result<i128, Fault> {
        if size < 9 {
            self.take(usize::from(size))?;
            return Err(Fault::NotMinimal(place));
        }
        self.int(place, negative, usize::from(size))
    }

    fn int(&mut self, place: usize, negative: bool, size: usize) -> Result<i128, Fault> {
        let flip = if negative { 0xFF } else { 0x00 };
        let digits = self.take(size)?;
        if digits.first() == Some(&flip) {
            return Err(Fault::NotMinimal(place));
        }
        if size > 16 {
            return Err(Fault::TooBig(place));
        }
        let magnitude = digits.iter().fold(0, |number, digit| number << 8 | u128::from(digit ^ flip));
        match (negative, i128::try_from(magnitude)) {
            (false, Ok(number)) => Ok(number),
            (true, Ok(number)) => Ok(-number),
            (true, Err(_)) if magnitude == 1 << 127 => Ok(i128::MIN),
            _ => Err(Fault::TooBig(place)),
        }
    }
}

// ---- what is measured

fn mixed() -> Vec<Vec<Elem>> {
    (0..MIXED).map(mixed_tuple).collect()
}

fn mixed_tuple(i: u8) -> Vec<Elem> {
    let number = i128::from(i);
    match i % 4 {
        0 => vec![
            Elem::Text("user".to_string()),
            Elem::Int(number * 1_000_003),
            Elem::Bytes(vec![i, 0, b'k', b'e', b'y']),
        ],
        1 => vec![
            Elem::Bytes(b"log\0".to_vec()),
            Elem::Int(number * -65_537),
            Elem::Nested(vec![Elem::Text("inner".to_string()), Elem::Null, Elem::Int(number)]),
        ],
        2 => vec![
            Elem::Uuid([i; 16]),
            Elem::Bool(i % 8 == 2),
            Elem::Null,
            Elem::Int(number * 0x1_0000_0000_0000_0001),
        ],
        _ => vec![Elem::Stamp([i; 10], u16::from(i)), Elem::Text("caf\u{e9}\0 and tea".to_string()), Elem::Int(0)],
    }
}

/// A tuple nested so deep, with a number at each depth.
fn nested(depth: u8) -> Vec<Elem> {
    let mut tuple = Vec::new();
    for number in 0..depth {
        tuple = vec![Elem::Int(i128::from(number)), Elem::Nested(tuple)];
    }
    tuple
}

fn mixed_in(sum: u64, part: usize) -> u64 {
    sum.wrapping_mul(31).wrapping_add(part as u64)
}

fn packed_sum(tuples: &[Vec<Elem>], count: usize) -> u64 {
    let mut sum = 0;
    for tuple in tuples.iter().cycle().take(count) {
        let packed = pack(tuple);
        sum = mixed_in(sum, packed.len());
        sum = mixed_in(sum, packed.last().map_or(0, |byte| usize::from(*byte)));
    }
    sum
}

fn unpacked_sum(tuples: &[Vec<Elem>], count: usize) -> Result<u64, Fault> {
    let packed: Vec<Vec<u8>> = tuples.iter().map(|tuple| pack(tuple)).collect();
    let mut sum = 0;
    for bytes in packed.iter().cycle().take(count) {
        sum = mixed_in(sum, unpack(bytes)?.len());
    }
    Ok(sum)
}

fn sum_of(work: &str, count: usize) -> Result<u64, Box<dyn Error>> {
    match work {
        "pack" => Ok(packed_sum(&mixed(), count)),
        "unpack" => Ok(unpacked_sum(&mixed(), count)?),
        "deep" => Ok(packed_sum(&[nested(100)], count).wrapping_add(unpacked_sum(&[nested(100)], count)?)),
        "shallow" => Ok(packed_sum(&[nested(10)], count).wrapping_add(unpacked_sum(&[nested(10)], count)?)),
        _ => Err("no such work".into()),
    }
}

fn main() -> Result<(), Box<dyn Error>> {
    let words: Vec<String> = env::args().skip(1).collect();
    let [work, count] = words.as_slice() else {
        return Err("tuples WORK COUNT".into());
    };
    println!("{}", sum_of(work, count.parse()?)?);
    Ok(())
}
