//! What a machine of an ordinary program has of its own: its instructions, its stack, and the errors that it noted.

use super::bytes::Bytes;
use super::elements::{put, put_string, unpack, Element};
use super::lines::{add, add_printable};

/// How a machine ended: behind its last instruction, or with a word. The last is no end that a dump has.
pub enum End {
    Ended,
    Stopped(&'static str),
    NoSuchOperation(String),
}

pub const BAD_INSTRUCTION: End = End::Stopped("bad-instruction");
const UNDERFLOW: End = End::Stopped("underflow");

impl End {
    pub fn at_unknown(name: &[u8]) -> End {
        End::NoSuchOperation(String::from_utf8_lossy(name).into_owned())
    }
}

pub const NOT_PRESENT: &[u8] = b"RESULT_NOT_PRESENT";

/// What a request is replied: what is pushed, if anything, or a code.
pub type Reply = Result<Option<Bytes>, u16>;

/// What came of an instruction of a machine that takes turns: it asked nothing, or a request, or one that it must ask again.
/// Only the program `gen` has such machines.
#[allow(dead_code)]
pub enum Done {
    Here,
    ByRequest,
    NotYet,
}

/// An operation's name, and what PUSH pushes.
pub type Operation = (Bytes, Option<Element>);

fn operation_of(value: &[u8]) -> Result<Operation, End> {
    let mut elements = unpack(value).ok_or(BAD_INSTRUCTION)?.into_iter();
    let Some(Element::Bytes(name) | Element::Text(name)) = elements.next() else {
        return Err(BAD_INSTRUCTION);
    };
    let operand = elements.next();
    if elements.next().is_some() || operand.is_some() != (*name == *b"PUSH") {
        return Err(BAD_INSTRUCTION);
    }
    Ok((name, operand))
}

struct Item {
    element: Element,
    instruction: usize,
}

pub struct Machine {
    pub number: u16,
    pub prefix: Bytes,
    instructions: Vec<Bytes>,
    next: usize,
    stack: Vec<Item>,
    errors: Vec<(usize, u16)>,
    end: End,
}

impl Machine {
    pub fn new(number: u16, prefix: Bytes, instructions: Vec<Bytes>) -> Machine {
        Machine { number, prefix, instructions, next: 0, stack: Vec::new(), errors: Vec::new(), end: End::Ended }
    }

    /// Does one instruction after the other, up to one that ends it.
    pub fn run(&mut self, mut step: impl FnMut(&mut Machine, Operation) -> Result<(), End>) {
        while let Some(value) = self.instructions.get(self.next) {
            if let Err(end) = operation_of(value).and_then(|operation| step(self, operation)) {
                self.end = end;
                return;
            }
            self.next += 1;
        }
    }

    /// Does instructions up to the first that asks a request, and tells whether there was one.
    #[allow(dead_code)]
    pub fn turn(&mut self, mut step: impl FnMut(&mut Machine, Operation) -> Result<Done, End>) -> bool {
        while let Some(value) = self.instructions.get(self.next) {
            match operation_of(value).and_then(|operation| step(self, operation)) {
                Ok(Done::Here) => self.next += 1,
                Ok(Done::ByRequest) => {
                    self.next += 1;
                    return true;
                }
                Ok(Done::NotYet) => return true,
                Err(end) => {
                    self.end = end;
                    return false;
                }
            }
        }
        false
    }

    /// How many instructions it was started with, errors that it noted, and items on its stack.
    #[allow(dead_code)]
    pub fn counts(&self) -> [usize; 3] {
        [self.instructions.len(), self.errors.len(), self.stack.len()]
    }

    pub fn has_ended(&self) -> bool {
        matches!(self.end, End::Ended)
    }

    /// The name of an operation that the program hasn't, where the machine ended at one.
    pub fn unknown(&self) -> Option<&str> {
        match &self.end {
            End::NoSuchOperation(name) => Some(name),
            _ => None,
        }
    }

    pub fn push(&mut self, element: Element) {
        self.stack.push(Item { element, instruction: self.next });
    }

    pub fn pop(&mut self) -> Result<Element, End> {
        Ok(self.stack.pop().ok_or(UNDERFLOW)?.element)
    }

    pub fn pop_bytes(&mut self) -> Result<Bytes, End> {
        match self.pop()? {
            Element::Bytes(bytes) | Element::Text(bytes) => Ok(bytes),
            _ => Err(BAD_INSTRUCTION),
        }
    }

    /// The bytes of the item on top, which stays.
    #[allow(dead_code)]
    pub fn top_bytes(&self) -> Option<Bytes> {
        match &self.stack.last()?.element {
            Element::Bytes(bytes) | Element::Text(bytes) => Some(bytes.clone()),
            _ => None,
        }
    }

    /// Pushes what its request was replied, if anything, and notes an error.
    pub fn answer(&mut self, reply: Reply) {
        match reply {
            Ok(None) => {}
            Ok(Some(bytes)) => self.push(Element::Bytes(bytes)),
            Err(code) => {
                let mut packed = Vec::new();
                put_string(&mut packed, 0x01, b"ERROR");
                put_string(&mut packed, 0x01, code.to_string().as_bytes());
                self.push(Element::Bytes(packed.as_slice().into()));
                self.errors.push((self.next, code));
            }
        }
    }

    // ---- its lines in the dump

    pub fn print_end(&self, out: &mut Vec<u8>) {
        let word = match self.end {
            End::Stopped(word) => word,
            _ => "ended",
        };
        add(out, format_args!("M {} {word} {} ", self.number, self.next));
        add_printable(out, &self.prefix);
        out.push(b'\n');
    }

    pub fn print_stack(&self, out: &mut Vec<u8>) {
        let front = format!("S {}", self.number);
        let mut packed = Vec::new();
        for (place, item) in self.stack.iter().enumerate() {
            packed.clear();
            put(&mut packed, &item.element, false);
            out.extend_from_slice(front.as_bytes());
            add(out, format_args!(" {place} {} ", item.instruction));
            add_printable(out, &packed);
            out.push(b'\n');
        }
    }

    pub fn print_errors(&self, out: &mut Vec<u8>) {
        for (instruction, code) in &self.errors {
            add(out, format_args!("E {} {instruction} {code}\n", self.number));
        }
    }
}
