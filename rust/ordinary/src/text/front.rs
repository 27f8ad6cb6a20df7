//! What texts of cases and of traces have in common: threads, addresses and initial values.

use super::words::{number, once, split, Checked};
use crate::limits::{ADDRESSES, THREADS, VALUE};

/// What the lines so far have said of these.
#[derive(Default)]
pub struct Front {
    /// How many; 0 before a line says it.
    pub threads: usize,
    /// Their names; none before a line gives them.
    pub addresses: Vec<String>,
    /// By address.
    pub initial: Vec<u32>,
}

impl Front {
    pub fn take_threads(&mut self, count: &str) -> Checked<()> {
        once(self.threads == 0, "threads")?;
        self.threads = number(count.trim(), 1, THREADS)?;
        Ok(())
    }

    pub fn take_addresses(&mut self, names: &str) -> Checked<()> {
        once(self.addresses.is_empty(), "addresses")?;
        self.addresses = names.split_whitespace().map(String::from).collect();
        let count = self.addresses.len();
        if count == 0 || count > ADDRESSES {
            return Err(format!("name 1 to {ADDRESSES} addresses"));
        }
        for (i, name) in self.addresses.iter().enumerate() {
            if self.addresses[..i].contains(name) {
                return Err(format!("two addresses are named '{name}'"));
            }
        }
        self.initial = vec![0; count];
        Ok(())
    }

    pub fn take_initial(&mut self, values: &str) -> Checked<()> {
        for word in values.split_whitespace() {
            let (address, value) = self.access(word)?;
            self.initial[address] = value;
        }
        Ok(())
    }

    /// `x=1` as an address and a value.
    pub fn access(&self, word: &str) -> Checked<(usize, u32)> {
        let (address, value) = split(word, '=', "x=1")?;
        let value = number(value, 0, VALUE as usize)? as u32;
        Ok((self.address(address)?, value))
    }

    pub fn address(&self, name: &str) -> Checked<usize> {
        if self.addresses.is_empty() {
            return Err("first give the addresses, as in: addresses x y".into());
        }
        let found = self.addresses.iter().position(|a| a == name);
        let all = self.addresses.join(" ");
        found.ok_or_else(|| format!("no address is named '{name}' (there are: {all})"))
    }

    pub fn thread(&self, word: &str) -> Checked<usize> {
        match self.threads {
            0 => Err("first say how many threads there are, as in: threads 2".into()),
            count => number(word, 0, count - 1).map_err(|fault| format!("thread: {fault}")),
        }
    }

    /// Whether both lines that must be there were.
    pub fn finish(&self) -> Checked<()> {
        if self.threads == 0 {
            return Err("no line says how many threads there are".into());
        }
        if self.addresses.is_empty() {
            return Err("no line names the addresses".into());
        }
        Ok(())
    }
}
