//! The configuration: what a rules text says.
use std::hash::{Hash, Hasher};
use std::net::IpAddr;

pub const NAMES: [&str; 16] = [
    "tcp.first",
    "tcp.opening",
    "tcp.established",
    "tcp.closing",
    "tcp.finwait",
    "tcp.closed",
    "udp.first",
    "udp.single",
    "udp.multiple",
    "other.first",
    "other.single",
    "other.multiple",
    "src.track",
    "interval",
    "adaptive.start",
    "adaptive.end",
];
pub const SRC_TRACK: usize = 12;
pub const INTERVAL: usize = 13;
pub const ADAPTIVE_START: usize = 14;
pub const ADAPTIVE_END: usize = 15;

#[derive(Clone, Copy, PartialEq, Eq)]
pub struct Prefix {
    pub addr: IpAddr,
    pub bits: u8,
}

impl Hash for Prefix {
    /// The address in one piece; a derive would feed it in four.
    fn hash<H: Hasher>(&self, state: &mut H) {
        match self.addr {
            IpAddr::V4(it) => state.write_u64(u64::from(u32::from(it)) << 8 | u64::from(self.bits)),
            IpAddr::V6(it) => {
                state.write_u128(it.into());
                state.write_u8(self.bits);
            }
        }
    }
}

impl Prefix {
    /// The network of so many bits that an address is in.
    pub fn network(addr: IpAddr, bits: u8) -> Self {
        let addr = match addr {
            IpAddr::V4(it) => IpAddr::V4((u32::from(it) & Prefix::narrow_mask(bits)).into()),
            IpAddr::V6(it) => IpAddr::V6((u128::from(it) & Prefix::wide_mask(bits)).into()),
        };
        Prefix { addr, bits }
    }

    /// The first bits of an IPv4 address.
    pub fn narrow_mask(bits: u8) -> u32 {
        u32::MAX.checked_shl(32 - u32::from(bits)).unwrap_or(0)
    }

    /// The first bits of an IPv6 address.
    pub fn wide_mask(bits: u8) -> u128 {
        u128::MAX.checked_shl(128 - u32::from(bits)).unwrap_or(0)
    }

    pub fn covers(&self, addr: IpAddr) -> bool {
        self.addr.is_ipv4() == addr.is_ipv4() && Prefix::network(addr, self.bits) == *self
    }

    pub fn host(addr: IpAddr) -> Self {
        Prefix { addr, bits: if addr.is_ipv4() { 32 } else { 128 } }
    }
}

#[derive(Default)]
pub struct Table {
    pub name: String,
    pub is_defined: bool,
    pub is_const: bool,
    pub entries: Vec<(Prefix, bool)>,
}

#[derive(Clone, PartialEq)]
pub enum Host {
    Any,
    Net { prefix: Prefix, negated: bool },
    Table { number: usize, negated: bool },
}

#[derive(Clone, PartialEq)]
pub struct Side {
    pub host: Host,
    pub port: Option<(u16, u16)>,
}

/// What a packet has to be for an item to match.
#[derive(Clone)]
pub struct Filter {
    pub is_in: Option<bool>,
    /// The interface, by its number among those of the configuration, and whether it is negated.
    pub interface: Option<(usize, bool)>,
    pub is_wide: Option<bool>,
    pub proto: Option<u8>,
    pub from: Side,
    pub to: Side,
    pub flags: Option<(u8, u8)>,
}

#[derive(Clone, Copy, PartialEq, Eq, Hash)]
pub enum Scope {
    Rule(usize),
    Global,
}

#[derive(Clone, Copy, PartialEq, Eq)]
pub enum Flush {
    No,
    Rule,
    Global,
}

#[derive(Clone, Default)]
pub struct Options {
    pub max: Option<u32>,
    pub scope: Option<Scope>,
    pub max_src_nodes: Option<u32>,
    pub max_src_states: Option<u32>,
    pub max_src_conn: Option<u32>,
    pub rate: Option<(u32, u32)>,
    pub overload: Option<(usize, Flush)>,
    pub timeouts: [Option<u32>; 16],
}

pub enum Action {
    Block,
    Pass,
    Keep(Box<Options>),
    Anchor(Option<String>),
}

pub struct Item {
    pub action: Action,
    pub quick: bool,
    pub filter: Filter,
    /// The place behind the item, and behind its body if it is an anchor.
    pub end: usize,
}

pub struct Config {
    pub states: u64,
    pub src_nodes: u64,
    pub tables_limit: u64,
    pub table_entries: u64,
    pub timeouts: [u32; 16],
    pub tables: Vec<Table>,
    /// The names of the interfaces that rules name.
    pub interfaces: Vec<String>,
    pub items: Vec<Item>,
}

impl Config {
    pub fn new() -> Self {
        Config {
            states: 100_000,
            src_nodes: 10_000,
            tables_limit: 1_000,
            table_entries: 200_000,
            timeouts: [120, 30, 86_400, 900, 45, 90, 60, 30, 60, 60, 30, 60, 0, 10, 0, 0],
            tables: Vec::new(),
            interfaces: Vec::new(),
            items: Vec::new(),
        }
    }

    pub fn timeout(&self, options: &Options, name: usize) -> u32 {
        options.timeouts[name].unwrap_or(self.timeouts[name])
    }

    pub fn options(&self, rule: usize) -> &Options {
        match &self.items[rule].action {
            Action::Keep(options) => options,
            _ => unreachable!("a state's rule keeps state"),
        }
    }

    /// How long a node without states is kept.
    pub fn retention(&self, scope: Scope) -> u32 {
        match scope {
            Scope::Global => self.timeouts[SRC_TRACK],
            Scope::Rule(rule) => {
                let options = self.options(rule);
                self.timeout(options, SRC_TRACK).max(options.rate.map_or(0, |(_, seconds)| seconds))
            }
        }
    }

    /// The table of a name that may change while a trace runs.
    pub fn changing_table(&self, name: &str) -> Option<usize> {
        self.tables.iter().position(|it| it.name == name && !it.is_const)
    }
}
