//! Which rule decides, with skip steps as pf has them.
//!
//! What a walk reads of an item lies together in a line of its own, with interfaces by number and networks as masks.
use crate::packet::{Packet, TCP};
use crate::rules::{Action, Config, Filter, Host, Item, Prefix, Side};
use crate::tables::Tables;
use std::collections::HashMap;
use std::net::IpAddr;

const PARAMETERS: usize = 8;
/// The number of an interface that no rule names.
const UNNAMED: u32 = u32::MAX;

/// What an item asks of an address.
enum Test {
    Any,
    Narrow { net: u32, mask: u32, negated: bool },
    Wide(Box<WideTest>),
    Table { number: u32, negated: bool },
}

struct WideTest {
    net: u128,
    mask: u128,
    negated: bool,
}

struct Line {
    /// For each parameter the next item of the same body that asks something else of it, or the end of the body.
    skips: [u32; PARAMETERS],
    interface: Option<(u32, bool)>,
    is_in: Option<bool>,
    is_wide: Option<bool>,
    proto: Option<u8>,
    from: Test,
    to: Test,
    from_ports: (u16, u16),
    to_ports: (u16, u16),
    flags: Option<(u8, u8)>,
    quick: bool,
    is_anchor: bool,
    /// The place behind the item, and behind its body if it is an anchor.
    end: u32,
}

fn same(a: &Filter, b: &Filter, parameter: usize) -> bool {
    match parameter {
        0 => a.interface == b.interface,
        1 => a.is_in == b.is_in,
        2 => a.is_wide == b.is_wide,
        3 => a.proto == b.proto,
        4 => a.from.host == b.from.host,
        5 => a.to.host == b.to.host,
        6 => a.from.port == b.from.port,
        _ => a.to.port == b.to.port,
    }
}

fn test(host: &Host) -> Test {
    match *host {
        Host::Any => Test::Any,
        Host::Table { number, negated } => Test::Table { number: number as u32, negated },
        Host::Net { prefix: Prefix { addr: IpAddr::V4(net), bits }, negated } => {
            Test::Narrow { net: net.into(), mask: Prefix::narrow_mask(bits), negated }
        }
        Host::Net { prefix: Prefix { addr: IpAddr::V6(net), bits }, negated } => {
            Test::Wide(Box::new(WideTest { net: net.into(), mask: Prefix::wide_mask(bits), negated }))
        }
    }
}

fn ports(side: &Side) -> (u16, u16) {
    side.port.unwrap_or((0, u16::MAX))
}

fn line(item: &Item) -> Line {
    let filter = &item.filter;
    Line {
        skips: [0; PARAMETERS],
        interface: filter.interface.map(|(number, negated)| (number as u32, negated)),
        is_in: filter.is_in,
        is_wide: filter.is_wide,
        proto: filter.proto,
        from: test(&filter.from.host),
        to: test(&filter.to.host),
        from_ports: ports(&filter.from),
        to_ports: ports(&filter.to),
        flags: filter.flags,
        quick: item.quick,
        is_anchor: matches!(item.action, Action::Anchor(_)),
        end: item.end as u32,
    }
}

fn fill(config: &Config, lines: &mut [Line], from: usize, to: usize) {
    let mut body = Vec::new();
    let mut place = from;
    while place < to {
        body.push(place);
        if config.items[place].end > place + 1 {
            fill(config, lines, place + 1, config.items[place].end);
        }
        place = config.items[place].end;
    }
    let mut next: Option<usize> = None;
    for place in body.into_iter().rev() {
        for parameter in 0..PARAMETERS {
            lines[place].skips[parameter] = match next {
                None => to as u32,
                Some(it) if same(&config.items[place].filter, &config.items[it].filter, parameter) => lines[it].skips[parameter],
                Some(it) => it as u32,
            };
        }
        next = Some(place);
    }
}

impl Test {
    #[inline]
    fn holds(&self, addr: IpAddr, tables: &Tables) -> bool {
        match (self, addr) {
            (Test::Any, _) => true,
            (Test::Narrow { net, mask, negated }, IpAddr::V4(addr)) => (u32::from(addr) & mask == *net) != *negated,
            (Test::Wide(it), IpAddr::V6(addr)) => (u128::from(addr) & it.mask == it.net) != it.negated,
            (Test::Table { number, negated }, _) => tables.matches(*number as usize, addr) != *negated,
            _ => false,
        }
    }
}

impl Line {
    /// The first parameter that a packet fails, or `PARAMETERS` where it is only the flags.
    #[inline]
    fn failing(&self, packet: &Packet, interface: u32, tables: &Tables) -> Option<usize> {
        if self.interface.map_or(false, |(number, negated)| (number == interface) == negated) {
            return Some(0);
        }
        if self.is_in.map_or(false, |it| it != packet.is_in) {
            return Some(1);
        }
        if self.is_wide.map_or(false, |it| it != packet.src.is_ipv6()) {
            return Some(2);
        }
        if self.proto.map_or(false, |it| it != packet.proto) {
            return Some(3);
        }
        if !self.from.holds(packet.src, tables) {
            return Some(4);
        }
        if !self.to.holds(packet.dst, tables) {
            return Some(5);
        }
        if packet.sport < self.from_ports.0 || packet.sport > self.from_ports.1 {
            return Some(6);
        }
        if packet.dport < self.to_ports.0 || packet.dport > self.to_ports.1 {
            return Some(7);
        }
        match self.flags {
            Some((set, of)) if packet.proto == TCP && packet.flags & of != set => Some(PARAMETERS),
            _ => None,
        }
    }
}

/// The items of a configuration, made ready for evaluation.
pub struct CompiledRuleset {
    lines: Vec<Line>,
    /// The numbers of the interfaces that rules name.
    interfaces: HashMap<Vec<u8>, u32>,
}

impl CompiledRuleset {
    pub fn new(config: &Config) -> Self {
        let mut lines: Vec<Line> = config.items.iter().map(line).collect();
        let count = lines.len();
        fill(config, &mut lines, 0, count);
        let interfaces = config.interfaces.iter().zip(0..).map(|(name, number)| (name.clone().into_bytes(), number));
        CompiledRuleset { lines, interfaces: interfaces.collect() }
    }

    /// The last matching rule, if any.
    pub fn decide(&self, packet: &Packet, tables: &Tables) -> Option<usize> {
        let interface = if self.interfaces.is_empty() { None } else { self.interfaces.get(packet.interface) };
        let mut last = None;
        self.walk(packet, interface.copied().unwrap_or(UNNAMED), tables, 0, self.lines.len(), &mut last);
        last
    }

    /// Walks over a body. Whether the evaluation is over.
    fn walk(&self, packet: &Packet, interface: u32, tables: &Tables, from: usize, to: usize, last: &mut Option<usize>) -> bool {
        let mut place = from;
        while place < to {
            let line = &self.lines[place];
            match line.failing(packet, interface, tables) {
                Some(PARAMETERS) => place = line.end as usize,
                Some(parameter) => place = line.skips[parameter] as usize,
                None => {
                    if line.is_anchor {
                        let before = *last;
                        let is_over = self.walk(packet, interface, tables, place + 1, line.end as usize, last);
                        if is_over || (line.quick && *last != before) {
                            return true;
                        }
                    } else {
                        *last = Some(place);
                        if line.quick {
                            return true;
                        }
                    }
                    place = line.end as usize;
                }
            }
        }
        false
    }
}
