//! The program, as an ordinary Rust program does it: the same words, the same input and the same dump, with the
//! operations that `bench/run` measures. Where another operation comes it says so, and ends with status 2.
//!
//! Byte strings of up to 22 bytes lie in place, and longer ones are shared. The database is one `BTreeMap`, whose
//! entries have the newest value and, only where there are any, older ones behind it. A transaction keeps its writes
//! by key, and the keys that it has read. The dump is printed into one vector, and the process ends without giving back
//! what it still has.

use std::process::ExitCode;

mod bytes;
mod command;
mod database;
mod elements;
mod lines;
mod machines;
mod ranges;
mod transactions;
mod world;

use bytes::Bytes;
use database::Database;
use elements::{put, unpack, Element};
use machines::{End, Machine, Operation, Reply, BAD_INSTRUCTION, NOT_PRESENT};
use transactions::Transaction;
use world::World;

/// Bytes that lie once, for all that have them.
type Shared = std::rc::Rc<[u8]>;

fn main() -> ExitCode {
    command::command(run)
}

fn run(database: Database, prefix: Bytes) -> (Vec<Machine>, World) {
    let mut machine = Machine::new(0, prefix.clone(), database.instructions(&prefix));
    let mut seat = Seat { world: World::new(database), name: prefix };
    machine.run(|machine, operation| seat.step(machine, operation));
    (vec![machine], seat.world)
}

/// Where machine 0 works: what it asks, and the name that is in use.
struct Seat {
    world: World,
    name: Bytes,
}

impl Seat {
    #[inline]
    fn step(&mut self, machine: &mut Machine, operation: Operation) -> Result<(), End> {
        let (name, operand) = operation;
        match (&*name, operand) {
            (_, Some(element)) => machine.push(element),
            (b"POP", None) => drop(machine.pop()?),
            (b"USE_TRANSACTION", None) => self.name = machine.pop_bytes()?,
            (b"TUPLE_PACK", None) => tuple_pack(machine)?,
            (b"TUPLE_UNPACK", None) => tuple_unpack(machine)?,
            (request, None) => {
                let reply = self.ask(machine, request)?;
                machine.answer(reply);
            }
        }
        Ok(())
    }

    /// What a request of the transaction in use is replied; its operands are popped first.
    fn ask(&mut self, machine: &mut Machine, request: &[u8]) -> Result<Reply, End> {
        let (transaction, database) = self.world.transaction(&self.name);
        let reply = match request {
            b"SET" => {
                let (key, value) = (machine.pop_bytes()?, machine.pop_bytes()?);
                transaction.set(key, value).map(|()| None)
            }
            b"GET" => {
                let value = transaction.get(database, machine.pop_bytes()?);
                value.map(|value| Some(value.unwrap_or_else(|| NOT_PRESENT.into())))
            }
            b"GET_RANGE" => transaction.get_range(database, &machine.pop_range()?).map(Some),
            b"CLEAR" => transaction.clear(machine.pop_bytes()?).map(|()| None),
            b"COMMIT" => transaction.commit(database).map(|()| Some(NOT_PRESENT.into())),
            b"RESET" | b"NEW_TRANSACTION" => {
                *transaction = Transaction::default();
                Ok(None)
            }
            other => return Err(End::at_unknown(other)),
        };
        self.world.take(machine.number);
        Ok(reply)
    }
}

fn tuple_pack(machine: &mut Machine) -> Result<(), End> {
    let count = match machine.pop()? {
        Element::Int(count) if count >= 0 => count,
        _ => return Err(BAD_INSTRUCTION),
    };
    let mut packed = Vec::new();
    for _ in 0..count {
        put(&mut packed, &machine.pop()?, false);
    }
    machine.push(Element::Bytes(packed.as_slice().into()));
    Ok(())
}

fn tuple_unpack(machine: &mut Machine) -> Result<(), End> {
    let bytes = machine.pop_bytes()?;
    let mut packed = Vec::new();
    for element in unpack(&bytes).ok_or(BAD_INSTRUCTION)? {
        packed.clear();
        put(&mut packed, &element, false);
        machine.push(Element::Bytes(packed.as_slice().into()));
    }
    Ok(())
}
