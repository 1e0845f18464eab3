//! The command of an ordinary program: its words, what it reads and writes, and its statuses.

use super::bytes::Bytes;
use super::database::{Database, Value};
use super::lines::{order_of, pairs_of};
use super::machines::Machine;
use super::world::World;
use std::io::{self, Read, Write};
use std::process::ExitCode;
use std::{env, mem};

/// The statuses of the program; a stop at another operation has that of a bad input.
const ENDED: u8 = 0;
const BAD_WORDS: u8 = 1;
const BAD_INPUT: u8 = 2;
const STOPPED: u8 = 3;
const READ_FAILED: u8 = 4;
const WRITE_FAILED: u8 = 5;

const INPUT_LIMIT: u64 = 67_108_864;
const PREFIX_LIMIT: usize = 1_000;

/// How a program runs machine 0 under a prefix: the machines by their numbers and the world, at the end.
type Run = fn(Database, Bytes) -> (Vec<Machine>, World);

/// Whether requests are taken in any order, or in that of the input.
#[derive(Clone, Copy, PartialEq)]
enum Form {
    Run,
    Replay,
}

/// What is read: the places of an order, each with the machine whose request is taken there, and the pairs.
struct Input {
    order: Vec<u16>,
    pairs: Vec<(Bytes, Value)>,
}

/// All that the program does.
pub fn command(run: Run) -> ExitCode {
    let words: Result<Vec<String>, _> = env::args_os().skip(1).map(|word| word.into_string()).collect();
    let Some((form, prefix)) = words.ok().and_then(asked_by) else {
        return ExitCode::from(BAD_WORDS);
    };
    ExitCode::from(run_under(form, prefix.as_bytes(), run).unwrap_or_else(|status| status))
}

/// The form and the prefix of the words `run PREFIX 630` or `replay PREFIX 630`.
fn asked_by(words: Vec<String>) -> Option<(Form, String)> {
    let [form, prefix, version] = <[String; 3]>::try_from(words).ok()?;
    let is_prefix = prefix.len() <= PREFIX_LIMIT && (prefix == "-" || !prefix.starts_with('-'));
    let form = match form.as_str() {
        "run" => Form::Run,
        "replay" => Form::Replay,
        _ => return None,
    };
    (version == "630" && is_prefix).then_some((form, prefix))
}

/// The whole run under a prefix: the status is an error where nothing, or not all, was written. It doesn't choose by an order,
/// so a replay must have the order that the run has by itself.
fn run_under(form: Form, prefix: &[u8], run: Run) -> Result<u8, u8> {
    let Input { order, pairs } = read_input(form)?;
    let (machines, world) = run(Database::load(pairs), prefix.into());
    if form == Form::Replay && order != world.order() {
        eprintln!("ordinary: its order isn't that of the input");
        return Err(STOPPED);
    }
    if let Some(name) = machines.iter().find_map(Machine::unknown) {
        eprintln!("ordinary: it has no operation {name}");
        return Err(BAD_INPUT);
    }
    let dump = world.dump(&machines);
    let has_ended = machines.iter().all(Machine::has_ended);
    mem::forget((machines, world));
    let written = io::stdout().lock().write_all(&dump);
    mem::forget(dump);
    match (written, has_ended) {
        (Err(_), _) => Err(WRITE_FAILED),
        (Ok(()), true) => Ok(ENDED),
        (Ok(()), false) => Ok(STOPPED),
    }
}

/// What standard input has, in the order of its lines; a run has no order.
fn read_input(form: Form) -> Result<Input, u8> {
    let mut input = Vec::new();
    io::stdin().lock().take(INPUT_LIMIT + 1).read_to_end(&mut input).map_err(|_| READ_FAILED)?;
    if input.len() as u64 > INPUT_LIMIT {
        return Err(BAD_INPUT);
    }
    let (order, lines) = match form {
        Form::Run => (Vec::new(), input.as_slice()),
        Form::Replay => order_of(&input).ok_or(BAD_INPUT)?,
    };
    Ok(Input { order, pairs: pairs_of(lines).ok_or(BAD_INPUT)? })
}
