//! The program with each machine in a thread, as an ordinary Rust program does it: the same words, the same input, and a
//! dump in the order in which requests were taken, with the operations that `bench/threads` measures. Where another
//! operation comes it says so, and ends with status 2.
//!
//! The main thread has the database, the transactions and the order. It takes requests from a bounded channel, and replies
//! over a channel of the machine that asked, which waits for it. The parts that it shares with `ordinary.rs` are as there,
//! but that longer byte strings are shared among threads.

use std::process::ExitCode;
use std::sync::mpsc::{self, Receiver, Sender, SyncSender};
use std::thread::{self, Scope, ScopedJoinHandle};

mod bytes;
mod command;
mod database;
mod elements;
mod lines;
mod machines;
// Of its calls this program has no need of those that clear keys or read ranges.
#[allow(dead_code)]
mod transactions;
mod world;

use bytes::Bytes;
use database::Database;
use machines::{End, Machine, Operation, Reply, NOT_PRESENT};
use transactions::Transaction;
use world::World;

/// Bytes that lie once, for all that have them.
type Shared = std::sync::Arc<[u8]>;

/// The places of the channel of requests.
const PLACES: usize = 64;
const MACHINES: usize = 64;
const MACHINE_LIMIT: End = End::Stopped("machine-limit");

fn main() -> ExitCode {
    command::command(run)
}

/// The machines by their numbers and the world, when all machines have ended.
fn run(database: Database, prefix: Bytes) -> (Vec<Machine>, World) {
    let mut core = Core { world: World::new(database), replies: Vec::new() };
    let Started { machine, replies } = core.start(prefix).expect("no machine was started yet");
    let (requests, taken) = mpsc::sync_channel(PLACES);
    thread::scope(|scope| {
        let seat = Seat { scope, requests, replies, started: Vec::new() };
        let thread = scope.spawn(|| seat.run(machine));
        let world = core.serve(taken);
        let mut machines = thread.join().expect("no machine panics");
        machines.sort_by_key(|machine| machine.number);
        (machines, world)
    })
}

// ---- the thread that has the database

enum Request {
    /// A call on the transaction of a name.
    On(Bytes, Call),
    /// To start a machine under a prefix, and where to send it; none, where there are as many as may be.
    Start(Bytes, Sender<Option<Started>>),
}

enum Call {
    Set(Bytes, Bytes),
    Get(Bytes),
    Commit,
    Reset,
}

/// A machine that is to run, and where its replies come.
struct Started {
    machine: Machine,
    replies: Receiver<Reply>,
}

/// The world, and where each machine gets its replies, by its number.
struct Core {
    world: World,
    replies: Vec<Sender<Reply>>,
}

impl Core {
    /// Replies to one request after the other, each with the number of its machine, until no machine is left that may ask.
    fn serve(mut self, requests: Receiver<(u16, Request)>) -> World {
        for (machine, request) in requests {
            self.world.take(machine);
            let is_awaited = match request {
                Request::On(name, call) => {
                    let reply = self.call(&name, call);
                    self.replies[usize::from(machine)].send(reply).is_ok()
                }
                Request::Start(prefix, starter) => starter.send(self.start(prefix)).is_ok(),
            };
            assert!(is_awaited, "a machine waits for each reply");
        }
        self.world
    }

    fn call(&mut self, name: &Bytes, call: Call) -> Reply {
        let (transaction, database) = self.world.transaction(name);
        match call {
            Call::Set(key, value) => transaction.set(key, value).map(|()| None),
            Call::Get(key) => {
                let value = transaction.get(database, key);
                value.map(|value| Some(value.unwrap_or_else(|| NOT_PRESENT.into())))
            }
            Call::Commit => transaction.commit(database).map(|()| Some(NOT_PRESENT.into())),
            Call::Reset => {
                *transaction = Transaction::default();
                Ok(None)
            }
        }
    }

    fn start(&mut self, prefix: Bytes) -> Option<Started> {
        if self.replies.len() == MACHINES {
            return None;
        }
        let number = self.replies.len() as u16;
        let instructions = self.world.database.instructions(&prefix);
        let (sender, replies) = mpsc::channel();
        self.replies.push(sender);
        Some(Started { machine: Machine::new(number, prefix, instructions), replies })
    }
}

// ---- the thread of a machine

/// Where a machine asks, where its replies come, and the threads of the machines that it started.
struct Seat<'scope, 'env> {
    scope: &'scope Scope<'scope, 'env>,
    requests: SyncSender<(u16, Request)>,
    replies: Receiver<Reply>,
    started: Vec<ScopedJoinHandle<'scope, Vec<Machine>>>,
}

impl Seat<'_, '_> {
    /// Runs a machine, and gives it with all that were started by it, when they have ended.
    fn run(mut self, mut machine: Machine) -> Vec<Machine> {
        machine.run(|machine, operation| self.step(machine, operation));
        let started = self.started.into_iter().flat_map(|thread| thread.join().expect("no machine panics"));
        [machine].into_iter().chain(started).collect()
    }

    fn step(&mut self, machine: &mut Machine, operation: Operation) -> Result<(), End> {
        let (name, operand) = operation;
        match (&*name, operand) {
            (_, Some(element)) => machine.push(element),
            (b"POP", None) => drop(machine.pop()?),
            (b"START_THREAD", None) => self.start(machine)?,
            (request, None) => {
                let call = call_of(machine, request)?;
                let reply = self.ask(machine, call);
                machine.answer(reply);
            }
        }
        Ok(())
    }

    fn ask(&self, machine: &Machine, call: Call) -> Reply {
        let request = Request::On(machine.prefix.clone(), call);
        self.requests.send((machine.number, request)).expect(SERVED);
        self.replies.recv().expect(SERVED)
    }

    fn start(&mut self, machine: &mut Machine) -> Result<(), End> {
        let (starter, reply) = mpsc::channel();
        let request = Request::Start(machine.pop_bytes()?, starter);
        self.requests.send((machine.number, request)).expect(SERVED);
        let Started { machine, replies } = reply.recv().expect(SERVED).ok_or(MACHINE_LIMIT)?;
        let seat = Seat { scope: self.scope, requests: self.requests.clone(), replies, started: Vec::new() };
        self.started.push(self.scope.spawn(|| seat.run(machine)));
        Ok(())
    }
}

const SERVED: &str = "requests are taken and replied to as long as a machine may ask";

/// The call of an operation, whose operands are popped.
fn call_of(machine: &mut Machine, name: &[u8]) -> Result<Call, End> {
    match name {
        b"SET" => Ok(Call::Set(machine.pop_bytes()?, machine.pop_bytes()?)),
        b"GET" => Ok(Call::Get(machine.pop_bytes()?)),
        b"COMMIT" => Ok(Call::Commit),
        b"RESET" => Ok(Call::Reset),
        other => Err(End::at_unknown(other)),
    }
}
