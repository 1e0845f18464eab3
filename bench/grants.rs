//! The grants that `allocator_bench` makes, as an ordinary Rust program makes them whose transactions have the calls of any
//! other: the same steps, and the same number printed. `allocator.rs` beside it has transactions that know of these steps alone.

use std::env;
use std::process::ExitCode;

mod bytes;
#[allow(dead_code)]
mod calls;
#[allow(dead_code)]
mod database;
#[allow(dead_code)]
mod directories;
#[allow(dead_code)]
mod elements;
mod granting;
mod words;

use calls::{Store, Transaction};
use database::Database;
use directories::Call;
use granting::{allocate, Prefixes};
use words::Words;

/// Bytes that lie once, for all that have them.
type Shared = std::rc::Rc<[u8]>;

const PREFIXES: Prefixes = Prefixes { counters: b"s\x14", recent: b"s\x15\x01" };
const FEW: u32 = 1_000;

fn main() -> ExitCode {
    let count = env::args().nth(1).map_or(Ok(FEW), |word| word.parse());
    let Ok(count) = count else {
        return ExitCode::FAILURE;
    };
    let Some(sum) = sum_of_grants(count) else {
        return ExitCode::FAILURE;
    };
    println!("{sum}");
    ExitCode::SUCCESS
}

/// Grants so many numbers on one subspace, each in a transaction that commits.
fn sum_of_grants(count: u32) -> Option<u64> {
    let mut store = Store::new(Database::load(Vec::new()));
    let mut words = Words::new(0);
    let mut sum: u64 = 0;
    for _ in 0..count {
        let mut transaction = Transaction::default();
        let mut call = Call { store: &store, transaction: &mut transaction, words: &mut words };
        let number = allocate(&mut call, &PREFIXES).ok()?;
        transaction.commit(&mut store).ok()?;
        sum = sum.wrapping_mul(31).wrapping_add(number);
    }
    Some(sum)
}
