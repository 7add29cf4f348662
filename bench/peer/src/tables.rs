//! The tables while a trace runs: which entry of an address is the narrowest, and what `overload` and the records of an administrator change.
use crate::rules::{Config, Prefix};
use std::collections::HashMap;
use std::hash::Hash;
use std::net::IpAddr;
use std::ops::BitAnd;

struct Entry {
    negated: bool,
    /// When it was added; none for an entry of the rules.
    moment: Option<u32>,
}

/// The networks of one length, by their addresses as numbers.
struct Length<T> {
    bits: u8,
    mask: T,
    entries: HashMap<T, Entry>,
}

/// The networks of a family by length, the longest first. No length is without entries.
struct Networks<T>(Vec<Length<T>>);

impl<T: Copy + Eq + Hash + BitAnd<Output = T>> Networks<T> {
    fn place(&self, bits: u8) -> Result<usize, usize> {
        self.0.binary_search_by(|it| bits.cmp(&it.bits))
    }

    fn get(&self, addr: T, bits: u8) -> Option<&Entry> {
        self.0[self.place(bits).ok()?].entries.get(&addr)
    }

    fn insert(&mut self, addr: T, bits: u8, mask: T, entry: Entry) {
        let place = self.place(bits).unwrap_or_else(|place| {
            self.0.insert(place, Length { bits, mask, entries: HashMap::new() });
            place
        });
        self.0[place].entries.insert(addr, entry);
    }

    fn remove(&mut self, addr: T, bits: u8) {
        if let Ok(place) = self.place(bits) {
            self.0[place].entries.remove(&addr);
        }
        self.0.retain(|it| !it.entries.is_empty());
    }

    fn retain(&mut self, stays: impl Fn(&Entry) -> bool) {
        for length in &mut self.0 {
            length.entries.retain(|_, entry| stays(entry));
        }
        self.0.retain(|it| !it.entries.is_empty());
    }

    fn matches(&self, addr: T) -> bool {
        self.0.iter().find_map(|it| it.entries.get(&(addr & it.mask))).map_or(false, |it| !it.negated)
    }

    fn count(&self) -> usize {
        self.0.iter().map(|it| it.entries.len()).sum()
    }
}

struct Table {
    narrow: Networks<u32>,
    wide: Networks<u128>,
}

impl Table {
    fn get(&self, prefix: &Prefix) -> Option<&Entry> {
        match prefix.addr {
            IpAddr::V4(addr) => self.narrow.get(addr.into(), prefix.bits),
            IpAddr::V6(addr) => self.wide.get(addr.into(), prefix.bits),
        }
    }

    fn insert(&mut self, prefix: &Prefix, entry: Entry) {
        match prefix.addr {
            IpAddr::V4(addr) => self.narrow.insert(addr.into(), prefix.bits, Prefix::narrow_mask(prefix.bits), entry),
            IpAddr::V6(addr) => self.wide.insert(addr.into(), prefix.bits, Prefix::wide_mask(prefix.bits), entry),
        }
    }

    fn remove(&mut self, prefix: &Prefix) {
        match prefix.addr {
            IpAddr::V4(addr) => self.narrow.remove(addr.into(), prefix.bits),
            IpAddr::V6(addr) => self.wide.remove(addr.into(), prefix.bits),
        }
    }

    fn matches(&self, addr: IpAddr) -> bool {
        match addr {
            IpAddr::V4(addr) => self.narrow.matches(addr.into()),
            IpAddr::V6(addr) => self.wide.matches(addr.into()),
        }
    }

    fn count(&self) -> usize {
        self.narrow.count() + self.wide.count()
    }
}

pub struct Tables {
    tables: Vec<Table>,
    limit: u64,
    pub count: u64,
}

impl Tables {
    pub fn new(config: &Config) -> Self {
        let mut tables: Vec<Table> = Vec::new();
        for listed in &config.tables {
            let mut table = Table { narrow: Networks(Vec::new()), wide: Networks(Vec::new()) };
            for (prefix, negated) in &listed.entries {
                table.insert(prefix, Entry { negated: *negated, moment: None });
            }
            tables.push(table);
        }
        let count = tables.iter().map(|it| it.count() as u64).sum();
        Tables { tables, limit: config.table_entries, count }
    }

    pub fn matches(&self, table: usize, addr: IpAddr) -> bool {
        self.tables[table].matches(addr)
    }

    /// Adds a host. What a report says of it: a host that is held negated is held.
    pub fn add_host(&mut self, table: usize, addr: IpAddr, now: u32) -> &'static str {
        match self.add(table, Prefix::host(addr), false, now) {
            "conflict" => "held",
            told => told,
        }
    }

    /// Adds an entry. What a report says of it.
    pub fn add(&mut self, table: usize, prefix: Prefix, negated: bool, now: u32) -> &'static str {
        match self.tables[table].get(&prefix) {
            Some(held) if held.negated == negated => "held",
            Some(_) => "conflict",
            None if self.count >= self.limit => "full",
            None => {
                self.tables[table].insert(&prefix, Entry { negated, moment: Some(now) });
                self.count += 1;
                "added"
            }
        }
    }

    /// Takes out this very entry, and answers how many left.
    pub fn delete(&mut self, table: usize, prefix: Prefix, negated: bool) -> usize {
        let table = &mut self.tables[table];
        if table.get(&prefix).map_or(true, |it| it.negated != negated) {
            return 0;
        }
        table.remove(&prefix);
        self.count -= 1;
        1
    }

    /// Takes out the entries of an age, and answers how many.
    pub fn expire(&mut self, table: usize, first: u32, now: u32, age: u32) -> usize {
        let table = &mut self.tables[table];
        let before = table.count();
        let stays = |entry: &Entry| u64::from(entry.moment.unwrap_or(first)) + u64::from(age) > u64::from(now);
        table.narrow.retain(stays);
        table.wide.retain(stays);
        let left = before - table.count();
        self.count -= left as u64;
        left
    }
}
