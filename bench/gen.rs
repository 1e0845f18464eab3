//! `gen N`, as an ordinary Rust program does it: it makes the instructions of a main machine and of N workers, loads them, runs the
//! machines by turns on one thread, with seed 0, and prints the same seven counts. It has the operations that these instructions
//! name; where another comes, or a call of the directories is refused, it says so, and ends with status 2.
//!
//! The parts that it shares with `ordinary.rs` are as there. Its transactions have more calls, those that directories make.

use std::collections::BTreeMap;
use std::env;
use std::io::{self, Write};
use std::mem;
use std::process::ExitCode;

mod bytes;
mod calls;
mod database;
mod directories;
mod elements;
mod generated;
mod granting;
// It reads no lines, and writes no dump.
#[allow(dead_code)]
mod lines;
#[allow(dead_code)]
mod machines;
mod words;

use bytes::Bytes;
use calls::{behind, Range, Store, Transaction};
use database::{Database, TOP};
use directories::{Call, Directory, Fault};
use elements::{put_string, Element};
use machines::{Done, End, Machine, Reply, BAD_INSTRUCTION, NOT_PRESENT};
use words::Words;

/// Bytes that lie once, for all that have them.
type Shared = std::rc::Rc<[u8]>;

const GREATEST: u32 = 30;
const MACHINES: usize = 64;
const POLLS: u32 = 10_000;
const MACHINE_LIMIT: End = End::Stopped("machine-limit");
const WAIT_BOUND: End = End::Stopped("wait-bound");

const BAD_WORDS: u8 = 1;
const UNKNOWN: u8 = 2;
const WRITE_FAILED: u8 = 5;

fn main() -> ExitCode {
    let Some(workers) = workers_of(env::args().skip(1).collect()) else {
        return ExitCode::from(BAD_WORDS);
    };
    let (seats, world) = run(workers);
    if let Some(name) = seats.iter().find_map(|seat| seat.machine.unknown()) {
        eprintln!("gen: it has no operation {name}");
        return ExitCode::from(UNKNOWN);
    }
    let summary = summary(&seats, &world);
    mem::forget((seats, world));
    match io::stdout().lock().write_all(summary.as_bytes()) {
        Ok(()) => ExitCode::SUCCESS,
        Err(_) => ExitCode::from(WRITE_FAILED),
    }
}

/// How many workers the words `gen N` say.
fn workers_of(words: Vec<String>) -> Option<u32> {
    let [gen, count] = <[String; 2]>::try_from(words).ok()?;
    let count = count.parse().ok()?;
    (gen == "gen" && (1..=GREATEST).contains(&count)).then_some(count)
}

/// Runs the machines by turns, until each has ended.
fn run(workers: u32) -> (Vec<Seat>, World) {
    let mut world = World::new(Store::new(Database::load(generated::pairs(workers))));
    let started = world.start(generated::MAIN.into());
    assert!(started.is_ok(), "no machine was started yet");
    let mut seats = mem::take(&mut world.started);
    while seats.iter().any(|seat| seat.is_going) {
        let mut at = 0;
        while at < seats.len() {
            seats[at].turn(&mut world);
            seats.append(&mut world.started);
            at += 1;
        }
    }
    (seats, world)
}

fn summary(seats: &[Seat], world: &World) -> String {
    let counts = seats.iter().map(|seat| seat.machine.counts());
    let [instructions, errors, items] =
        counts.fold([0; 3], |[a, b, c], [instructions, errors, items]| [a + instructions, b + errors, c + items]);
    let database = &world.store.database;
    let keys = database.entries.values().filter(|value| value.newest.is_some()).count();
    format!(
        "machines {}\ninstructions {instructions}\nrequests {}\ncommits {}\nerrors {errors}\nitems {items}\nkeys {keys}\n",
        seats.len(),
        world.order.len(),
        database.last,
    )
}

/// A machine, the directories that it opened, how often it has polled for its wait, and whether it still goes on.
struct Seat {
    machine: Machine,
    directories: Vec<Directory>,
    polls: u32,
    is_going: bool,
}

impl Seat {
    fn new(number: u16, prefix: Bytes, store: &Store) -> Seat {
        let instructions = store.database.instructions(&prefix);
        Seat { machine: Machine::new(number, prefix, instructions), directories: Vec::new(), polls: 0, is_going: true }
    }

    /// Lets it ask one request, where it still goes on.
    fn turn(&mut self, world: &mut World) {
        let Seat { machine, directories, polls, is_going } = self;
        *is_going = *is_going && machine.turn(|machine, (name, operand)| match (&*name, operand) {
            (_, Some(element)) => {
                machine.push(element);
                Ok(Done::Here)
            }
            (b"POP", None) => machine.pop().map(|_| Done::Here),
            (b"WAIT_EMPTY", None) => world.wait(machine, polls),
            (b"DIRECTORY_CREATE_OR_OPEN_DATABASE", None) => {
                directories.push(world.create_or_open(machine)?);
                Ok(Done::ByRequest)
            }
            (request, None) => world.ask(machine, request),
        });
    }
}

/// What all machines share: the database, the transactions by their names, the random words still to come, the machines whose
/// requests were taken, in order, how many machines there are, and those that were started in this turn.
struct World {
    store: Store,
    transactions: BTreeMap<Bytes, Transaction>,
    words: Words,
    order: Vec<u16>,
    machines: usize,
    started: Vec<Seat>,
}

impl World {
    fn new(store: Store) -> World {
        let (transactions, words) = (BTreeMap::new(), Words::new(0));
        World { store, transactions, words, order: Vec::new(), machines: 0, started: Vec::new() }
    }

    /// A request of a machine that is no wait: its operands are popped, it is taken, and the machine has the reply.
    fn ask(&mut self, machine: &mut Machine, request: &[u8]) -> Result<Done, End> {
        let reply = match request {
            b"START_THREAD" => self.start(machine.pop_bytes()?)?,
            b"CLEAR_DATABASE" => {
                let key = machine.pop_bytes()?;
                let mut transaction = Transaction::default();
                let done = transaction.clear(key).and_then(|()| transaction.commit(&mut self.store));
                done.map(|()| Some(NOT_PRESENT.into()))
            }
            other => self.call(machine, other)?,
        };
        self.order.push(machine.number);
        machine.answer(reply);
        Ok(Done::ByRequest)
    }

    /// A call on the transaction of the machine's name.
    fn call(&mut self, machine: &mut Machine, name: &[u8]) -> Result<Reply, End> {
        let transaction = self.transactions.entry(machine.prefix.clone()).or_default();
        Ok(match name {
            b"SET" => {
                let (key, value) = (machine.pop_bytes()?, machine.pop_bytes()?);
                transaction.set(key, value).map(|()| None)
            }
            b"ATOMIC_OP" => {
                let (name, key, operand) = (machine.pop_bytes()?, machine.pop_bytes()?, machine.pop_bytes()?);
                if *name != *b"ADD" {
                    return Err(End::at_unknown(&name));
                }
                transaction.add(key, operand).map(|()| None)
            }
            b"GET_RANGE_STARTS_WITH" => {
                let range = pop_prefix_range(machine)?;
                let pairs = transaction.get_range(&self.store, &range, false);
                pairs.map(|pairs| Some(packed(&pairs)))
            }
            b"COMMIT" => transaction.commit(&mut self.store).map(|()| Some(NOT_PRESENT.into())),
            b"RESET" => {
                *transaction = Transaction::default();
                Ok(None)
            }
            other => return Err(End::at_unknown(other)),
        })
    }

    /// Starts a machine under a prefix, whose turn comes behind those that there are.
    fn start(&mut self, prefix: Bytes) -> Result<Reply, End> {
        if self.machines == MACHINES {
            return Err(MACHINE_LIMIT);
        }
        self.started.push(Seat::new(self.machines as u16, prefix, &self.store));
        self.machines += 1;
        Ok(Ok(None))
    }

    /// A poll of a wait until no key begins with a prefix, which stays on the stack until then.
    fn wait(&mut self, machine: &mut Machine, polls: &mut u32) -> Result<Done, End> {
        let Some(prefix) = machine.top_bytes() else {
            machine.pop_bytes()?;
            return Err(BAD_INSTRUCTION);
        };
        self.order.push(machine.number);
        *polls += 1;
        let end = behind(&prefix).unwrap_or_else(|| TOP.into());
        if self.store.database.entries.range(prefix..end).any(|(_, value)| value.newest.is_some()) {
            if *polls < POLLS {
                return Ok(Done::NotYet);
            }
            machine.pop()?;
            return Err(WAIT_BOUND);
        }
        *polls = 0;
        machine.pop()?;
        machine.push(Element::Bytes(b"WAITED_FOR_EMPTY".as_slice().into()));
        Ok(Done::ByRequest)
    }

    /// Creates or opens a directory on the database: by a transaction of its own, which is then committed.
    fn create_or_open(&mut self, machine: &mut Machine) -> Result<Directory, End> {
        let (path, layer) = pop_path_and_name(machine)?;
        self.order.push(machine.number);
        let mut transaction = Transaction::default();
        let call = &mut Call { store: &self.store, transaction: &mut transaction, words: &mut self.words };
        let made = call.create_or_open(&path, &layer);
        let committed = made.and_then(|made| transaction.commit(&mut self.store).map(|()| made).map_err(Fault::from));
        committed.map_err(|Fault(name)| End::at_unknown(name.as_bytes()))
    }
}

// ---- operands, and what is pushed

fn pop_int(machine: &mut Machine) -> Result<i128, End> {
    match machine.pop()? {
        Element::Int(number) => Ok(number),
        _ => Err(BAD_INSTRUCTION),
    }
}

/// What GET_RANGE_STARTS_WITH pops: a prefix, a limit, whether it is reversed, and a mode with a limit.
fn pop_prefix_range(machine: &mut Machine) -> Result<Range, End> {
    let begin = machine.pop_bytes()?;
    let limit = usize::try_from(pop_int(machine)?).map_err(|_| BAD_INSTRUCTION)?;
    let (reverse, mode) = (pop_int(machine)? != 0, pop_int(machine)?);
    if !(-2..=4).contains(&mode) {
        return Err(BAD_INSTRUCTION);
    }
    let end = behind(&begin).unwrap_or_else(|| TOP.into());
    Ok(Range { begin, end, limit, reverse })
}

/// A path is a count and so many names; a layer name is bytes, or null, which is the empty one.
fn pop_path_and_name(machine: &mut Machine) -> Result<(Vec<Bytes>, Bytes), End> {
    let count = pop_int(machine)?;
    let mut path = Vec::new();
    for _ in 0..count {
        match machine.pop()? {
            Element::Text(name) => path.push(name),
            _ => return Err(BAD_INSTRUCTION),
        }
    }
    match machine.pop()? {
        Element::Null => Ok((path, b"".as_slice().into())),
        Element::Bytes(name) | Element::Text(name) => Ok((path, name)),
        _ => Err(BAD_INSTRUCTION),
    }
}

/// The packed keys and values in turn.
fn packed(pairs: &[(Bytes, Bytes)]) -> Bytes {
    let mut packed = Vec::new();
    for (key, value) in pairs {
        put_string(&mut packed, 0x01, key);
        put_string(&mut packed, 0x01, value);
    }
    packed.as_slice().into()
}
