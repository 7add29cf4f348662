//! The canonical text of a configuration, as `pfsrc show` prints it.
use crate::rules::{Action, Config, Filter, Flush, Host, Item, Options, Prefix, Scope, Side, NAMES};
use std::fmt::Write;
use std::net::IpAddr;

fn address(addr: IpAddr) -> String {
    match addr {
        IpAddr::V6(it) if it.to_ipv4_mapped().is_some() => {
            format!("::ffff:{:x}:{:x}", it.segments()[6], it.segments()[7])
        }
        it => it.to_string(),
    }
}

fn prefix(of: &Prefix) -> String {
    let whole = Prefix::host(of.addr).bits;
    if of.bits == whole {
        address(of.addr)
    } else {
        format!("{}/{}", address(of.addr), of.bits)
    }
}

fn not(negated: bool) -> &'static str {
    if negated {
        "!"
    } else {
        ""
    }
}

fn side(config: &Config, side: &Side) -> String {
    let host = match &side.host {
        Host::Any => "any".to_owned(),
        Host::Net { prefix: it, negated } => format!("{}{}", not(*negated), prefix(it)),
        Host::Table { number, negated } => format!("{}<{}>", not(*negated), config.tables[*number].name),
    };
    match side.port {
        None => host,
        Some((low, high)) if low == high => format!("{host} port {low}"),
        Some((low, high)) => format!("{host} port {low}:{high}"),
    }
}

fn letters(set: u8) -> String {
    "FSRPAUEW".chars().enumerate().filter(|(bit, _)| set >> bit & 1 == 1).map(|(_, it)| it).collect()
}

fn filter(config: &Config, item: &Item) -> String {
    let Filter { is_in, interface, is_wide, proto, from, to, flags } = &item.filter;
    let mut text = String::new();
    text += is_in.map_or("", |it| if it { " in" } else { " out" });
    text += if item.quick { " quick" } else { "" };
    if let Some((name, negated)) = interface {
        text += &format!(" on {}{}", not(*negated), config.interfaces[*name]);
    }
    text += is_wide.map_or("", |it| if it { " inet6" } else { " inet" });
    match proto {
        None => {}
        Some(6) => text += " proto tcp",
        Some(17) => text += " proto udp",
        Some(it) => text += &format!(" proto {it}"),
    }
    let (from, to) = (side(config, from), side(config, to));
    text += &if (from.as_str(), to.as_str()) == ("any", "any") {
        " all".to_owned()
    } else {
        format!(" from {from} to {to}")
    };
    match flags {
        None => text + " flags any",
        Some((set, among)) => text + &format!(" flags {}/{}", letters(*set), letters(*among)),
    }
}

fn options(config: &Config, options: &Options) -> String {
    let counted = |name: &str, value: Option<u32>| value.map(|it| format!("{name} {it}"));
    let scope = options.scope.map(|it| format!("source-track {}", if it == Scope::Global { "global" } else { "rule" }));
    let rate = options.rate.map(|(count, seconds)| format!("max-src-conn-rate {count}/{seconds}"));
    let overload = options.overload.map(|(table, flush)| {
        let flush = match flush {
            Flush::No => "",
            Flush::Rule => " flush",
            Flush::Global => " flush global",
        };
        format!("overload <{}>{flush}", config.tables[table].name)
    });
    let mut parts = vec![
        counted("max", options.max),
        scope,
        counted("max-src-nodes", options.max_src_nodes),
        counted("max-src-states", options.max_src_states),
        counted("max-src-conn", options.max_src_conn),
        rate,
        overload,
    ];
    parts.extend(NAMES.iter().zip(options.timeouts).map(|(name, value)| counted(name, value)));
    let parts: Vec<String> = parts.into_iter().flatten().collect();
    if parts.is_empty() {
        String::new()
    } else {
        format!(" ({})", parts.join(", "))
    }
}

fn item(config: &Config, item: &Item) -> String {
    let shown = filter(config, item);
    match &item.action {
        Action::Block => format!("block{shown}\n"),
        Action::Pass => format!("pass{shown} no state\n"),
        Action::Keep(it) => format!("pass{shown} keep state{}\n", options(config, it)),
        Action::Anchor(None) => format!("anchor{shown} {{\n"),
        Action::Anchor(Some(name)) => format!("anchor \"{name}\"{shown} {{\n"),
    }
}

/// The canonical text.
pub fn show(config: &Config) -> String {
    let mut text = format!(
        "set limit {{ states {}, src-nodes {}, tables {}, table-entries {} }}\n",
        config.states, config.src_nodes, config.tables_limit, config.table_entries
    );
    let times: Vec<String> = NAMES.iter().zip(config.timeouts).map(|(name, value)| format!("{name} {value}")).collect();
    writeln!(text, "set timeout {{ {} }}", times.join(", ")).expect("a string takes it");
    for table in &config.tables {
        let entries: Vec<String> =
            table.entries.iter().map(|(it, negated)| format!("{}{}", not(*negated), prefix(it))).collect();
        let listed = if entries.is_empty() { String::new() } else { format!(" {{ {} }}", entries.join(", ")) };
        writeln!(text, "table <{}>{}{listed}", table.name, if table.is_const { " const" } else { "" })
            .expect("a string takes it");
    }
    let mut ends: Vec<usize> = Vec::new();
    for (place, shown) in config.items.iter().enumerate() {
        while ends.last() == Some(&place) {
            ends.pop();
            text += "}\n";
        }
        text += &item(config, shown);
        if let Action::Anchor(_) = shown.action {
            ends.push(shown.end);
        }
    }
    text + &"}\n".repeat(ends.len())
}
