//! What all machines of an ordinary program ask: its requests, and the dump.

use super::bytes::Bytes;
use super::database::Database;
use super::lines::{add, add_pair};
use super::machines::Machine;
use super::transactions::Transaction;
use std::collections::BTreeMap;

/// The database, the transactions by their names, and the machines whose requests were taken, in order.
pub struct World {
    pub database: Database,
    transactions: BTreeMap<Bytes, Transaction>,
    order: Vec<u16>,
}

impl World {
    pub fn new(database: Database) -> World {
        World { database, transactions: BTreeMap::new(), order: Vec::new() }
    }

    /// The machines whose requests were taken, in order.
    pub fn order(&self) -> &[u16] {
        &self.order
    }

    /// A request of a machine is taken.
    pub fn take(&mut self, machine: u16) {
        self.order.push(machine);
    }

    /// The transaction of a name, which is made where there is none, and the database that it is on.
    pub fn transaction(&mut self, name: &Bytes) -> (&mut Transaction, &mut Database) {
        (self.transactions.entry(name.clone()).or_default(), &mut self.database)
    }

    /// The dump, where these are the machines by their numbers.
    pub fn dump(&self, machines: &[Machine]) -> Vec<u8> {
        let mut out = Vec::new();
        machines.iter().for_each(|machine| machine.print_end(&mut out));
        machines.iter().for_each(|machine| machine.print_stack(&mut out));
        machines.iter().for_each(|machine| machine.print_errors(&mut out));
        for machine in &self.order {
            add(&mut out, format_args!("O {machine}\n"));
        }
        for (key, value) in &self.database.entries {
            if let Some(value) = &value.newest {
                add_pair(&mut out, key, value);
            }
        }
        out
    }
}
