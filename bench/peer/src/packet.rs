//! A record of a trace.
use crate::addresses::{address, flags, is_name, number, prefix, protocol};
use crate::rules::Prefix;
use csv::ByteRecord;
use std::hash::{Hash, Hasher};
use std::net::IpAddr;

pub const TCP: u8 = 6;
pub const UDP: u8 = 17;

pub const FIN: u8 = 1;
pub const SYN: u8 = 2;
pub const RST: u8 = 4;
pub const ACK: u8 = 16;

pub struct Packet<'a> {
    pub is_in: bool,
    pub interface: &'a [u8],
    pub proto: u8,
    pub src: IpAddr,
    pub sport: u16,
    pub dst: IpAddr,
    pub dport: u16,
    pub flags: u8,
}

/// What a record brings. Tables are named.
pub enum Event<'a> {
    Skip,
    Packet(Packet<'a>),
    Expire { table: &'a str, age: u32 },
    HeldQuery,
    Kill { from: Prefix, to: Option<Prefix> },
    Add { table: &'a str, entry: (Prefix, bool) },
    Delete { table: &'a str, entry: (Prefix, bool) },
}

/// What is wrong with a record.
pub enum Fault {
    Columns,
    /// The field of this column, which count from 1.
    Field(usize),
}

/// An address as a key of a map. It is hashed in one piece; a derive would hash it in three.
#[derive(Clone, Copy, PartialEq, Eq)]
pub struct Source(pub IpAddr);

impl Hash for Source {
    fn hash<H: Hasher>(&self, state: &mut H) {
        match self.0 {
            IpAddr::V4(it) => state.write_u32(it.into()),
            IpAddr::V6(it) => state.write_u128(it.into()),
        }
    }
}

#[derive(Clone, Copy, PartialEq, Eq)]
pub struct Key {
    proto: u8,
    ends: [(IpAddr, u16); 2],
}

impl Key {
    /// The address of the first end, or of the second.
    pub fn end(&self, is_first: bool) -> IpAddr {
        self.ends[usize::from(!is_first)].0
    }
}

impl Hash for Key {
    /// Both addresses, and then the rest, in whole words.
    fn hash<H: Hasher>(&self, state: &mut H) {
        let [(first, first_port), (second, second_port)] = self.ends;
        match (first, second) {
            (IpAddr::V4(first), IpAddr::V4(second)) => state.write_u64(u64::from(u32::from(first)) << 32 | u64::from(u32::from(second))),
            _ => {
                Source(first).hash(state);
                Source(second).hash(state);
            }
        }
        state.write_u64(u64::from(first_port) << 32 | u64::from(second_port) << 16 | u64::from(self.proto));
    }
}

impl Packet<'_> {
    pub fn key(&self) -> Key {
        let (src, dst) = ((self.src, self.sport), (self.dst, self.dport));
        Key { proto: self.proto, ends: if self.is_in { [src, dst] } else { [dst, src] } }
    }
}

/// The field of a column, read; or its fault.
fn field<'a, T>(record: &'a ByteRecord, column: usize, read: impl FnOnce(&'a [u8]) -> Option<T>) -> Result<T, Fault> {
    read(&record[column - 1]).ok_or(Fault::Field(column))
}

fn nothing(text: &[u8]) -> Option<()> {
    text.is_empty().then_some(())
}

/// These columns are empty.
fn empty(record: &ByteRecord, columns: impl IntoIterator<Item = usize>) -> Result<(), Fault> {
    columns.into_iter().try_for_each(|it| field(record, it, nothing))
}

fn table_name(text: &[u8]) -> Option<&str> {
    std::str::from_utf8(text).ok().filter(|_| is_name(text, 31))
}

fn entry(text: &[u8]) -> Option<(Prefix, bool)> {
    let (negated, text) = text.strip_prefix(b"!").map_or((false, text), |rest| (true, rest));
    Some((prefix(text)?, negated))
}

fn seconds(text: &[u8]) -> Option<u32> {
    number(text, u32::MAX.into()).map(|it| it as u32)
}

/// The table and the entry of a record that adds or deletes one.
fn table_and_entry(record: &ByteRecord) -> Result<(&str, (Prefix, bool)), Fault> {
    let table = field(record, 3, table_name)?;
    empty(record, [4])?;
    let entry = field(record, 5, entry)?;
    empty(record, 6..=9)?;
    Ok((table, entry))
}

/// The hosts from which states go that are taken out, and those to which they go.
fn hosts(record: &ByteRecord) -> Result<Event<'_>, Fault> {
    empty(record, 3..=4)?;
    let from = field(record, 5, prefix)?;
    empty(record, [6])?;
    let to = field(record, 7, |it| if it.is_empty() { Some(None) } else { prefix(it).map(Some) })?;
    empty(record, 8..=9)?;
    Ok(Event::Kill { from, to })
}

fn expiry(record: &ByteRecord) -> Result<Event<'_>, Fault> {
    let table = field(record, 3, table_name)?;
    empty(record, 4..=5)?;
    let age = field(record, 6, seconds)?;
    empty(record, 7..=9)?;
    Ok(Event::Expire { table, age })
}

fn arrival(record: &ByteRecord) -> Result<Event<'_>, Fault> {
    let is_in = match &record[1] {
        b"in" => true,
        b"out" => false,
        _ => return Err(Fault::Field(2)),
    };
    let interface = field(record, 3, |it| (is_name(it, 15) && it != b"any" && it != b"rdomain").then_some(it))?;
    let proto = field(record, 4, protocol)?;
    let has_ports = proto == TCP || proto == UDP;
    let port = |it: &[u8]| if has_ports { number(it, 65_535).map(|it| it as u16) } else { nothing(it).map(|()| 0) };
    let src = field(record, 5, address)?;
    let sport = field(record, 6, port)?;
    let dst = field(record, 7, |it| address(it).filter(|it| it.is_ipv4() == src.is_ipv4()))?;
    let dport = field(record, 8, port)?;
    let flags = field(record, 9, |it| if proto == TCP { flags(it) } else { nothing(it).map(|()| 0) })?;
    if proto == 1 || proto == 58 {
        return Ok(Event::Skip);
    }
    Ok(Event::Packet(Packet { is_in, interface, proto, src, sport, dst, dport, flags }))
}

/// Reads a record: its moment, and what comes.
pub fn read(record: &ByteRecord) -> Result<(u32, Event<'_>), Fault> {
    if record.len() != 9 {
        return Err(Fault::Columns);
    }
    let moment = field(record, 1, seconds)?;
    let event = match &record[1] {
        b"expire" => expiry(record)?,
        b"kill" => hosts(record)?,
        b"held" => {
            empty(record, 3..=9)?;
            Event::HeldQuery
        }
        b"add" => {
            let (table, entry) = table_and_entry(record)?;
            Event::Add { table, entry }
        }
        b"delete" => {
            let (table, entry) = table_and_entry(record)?;
            Event::Delete { table, entry }
        }
        _ => arrival(record)?,
    };
    Ok((moment, event))
}
