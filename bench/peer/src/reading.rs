//! How a rules text is read.
//!
//! It was written from docs/FORMATS.md. It accepts what that grammar accepts; of a text that it refuses it tells the
//! line, and of the kinds of faults those that are told apart easily.
use crate::addresses::{flags, is_name, number, prefix, protocol};
use crate::rules::{
    Action, Config, Filter, Flush, Host, Item, Options, Prefix, Scope, Side, Table, ADAPTIVE_END, ADAPTIVE_START,
    INTERVAL, NAMES, SRC_TRACK,
};
use crate::words::{split, Piece, Token};
use std::borrow::Cow;
use std::collections::{HashMap, HashSet};

const MOST_BYTES: usize = 1_048_576;
const MOST_ITEMS: usize = 10_000;
const MOST_DEPTH: usize = 16;
const MOST: u64 = u32::MAX as u64;
const MOST_SECONDS: u64 = i32::MAX as u64;
const LEFT_OUT: [&str; 30] = [
    "match",
    "antispoof",
    "queue",
    "include",
    "load",
    "nat-to",
    "rdr-to",
    "binat-to",
    "af-to",
    "synproxy",
    "modulate",
    "tag",
    "tagged",
    "label",
    "probability",
    "user",
    "group",
    "tos",
    "prio",
    "received-on",
    "rtable",
    "divert-to",
    "divert-reply",
    "route-to",
    "reply-to",
    "dup-to",
    "scrub",
    "if-bound",
    "once",
    "allow-opts",
];

/// What is wrong with a rules text, and where.
#[derive(Debug)]
pub struct Fault {
    pub line: u64,
    pub kind: &'static str,
}

type Read<T> = Result<T, Fault>;

/// What stands where reading stops.
#[derive(Clone, Copy, PartialEq)]
enum Wanted {
    Number,
    /// A port or a protocol.
    Service,
    Host,
    Setting,
    Other,
}

#[derive(Default)]
struct Clauses<'a> {
    options: Options,
    track: Option<Option<bool>>,
    is_keep: Option<bool>,
    flags: Option<Option<(u8, u8)>>,
    without_effect: Vec<&'a str>,
}

struct Reader<'a> {
    pieces: Vec<Piece<'a>>,
    at: usize,
    config: Config,
    adaptive: [Option<u32>; 2],
    by_name: HashMap<&'a str, usize>,
    interfaces: HashMap<&'a str, usize>,
    open: Vec<usize>,
    /// The names of the anchors so far in each body that is open.
    anchors: Vec<HashSet<&'a str>>,
    overloads: Vec<(usize, u64)>,
}

fn any_side() -> Side {
    Side { host: Host::Any, port: None }
}

fn port(text: &str) -> Option<u16> {
    match text {
        "ssh" => Some(22),
        "smtp" => Some(25),
        "domain" => Some(53),
        "www" | "http" => Some(80),
        "https" => Some(443),
        _ => number(text.as_bytes(), 65_535).map(|it| it as u16),
    }
}

fn ports(text: &str) -> Option<(u16, u16)> {
    let (low, high) = text.split_once(':').unwrap_or((text, text));
    let (low, high) = (port(low)?, port(high)?);
    (low <= high).then_some((low, high))
}

/// Whether a word begins a part that the statement has already.
fn repeats(word: &str, filter: &Filter, quick: bool) -> bool {
    match word {
        "in" | "out" => filter.is_in.is_some(),
        "quick" => quick,
        "on" => filter.interface.is_some(),
        "inet" | "inet6" => filter.is_wide.is_some(),
        "proto" => filter.proto.is_some(),
        "from" => filter.from != any_side(),
        "to" => filter.to != any_side(),
        _ => false,
    }
}

/// The place of a timeout's name.
fn timeout_place(name: &str) -> Option<usize> {
    let is_likely = name.contains('.') || name == NAMES[INTERVAL];
    is_likely.then(|| NAMES.iter().position(|it| *it == name)).flatten()
}

impl<'a> Reader<'a> {
    fn token(&self) -> Token<'a> {
        self.pieces[self.at].token
    }

    fn line(&self) -> u64 {
        self.pieces[self.at].line
    }

    fn word(&self) -> &'a str {
        match self.token() {
            Token::Word(word) => word,
            _ => "",
        }
    }

    fn is_mark(&self, mark: u8) -> bool {
        self.token() == Token::Mark(mark)
    }

    fn take_mark(&mut self, mark: u8) -> bool {
        let found = self.is_mark(mark);
        self.at += usize::from(found);
        found
    }

    fn take(&mut self, word: &str) -> bool {
        let found = self.word() == word;
        self.at += usize::from(found);
        found
    }

    fn skip_lines(&mut self) {
        while self.token() == Token::LineEnd {
            self.at += 1;
        }
    }

    fn fault<T>(&self, kind: &'static str) -> Read<T> {
        Err(Fault { line: self.line(), kind })
    }

    fn stop<T>(&self, wanted: Wanted) -> Read<T> {
        let word = self.word();
        let first = word.bytes().next().unwrap_or(b' ');
        let is_number = first.is_ascii_digit();
        let kind = if matches!(wanted, Wanted::Number | Wanted::Service) && is_number {
            "Number"
        } else if self.is_mark(b'{') || self.is_mark(b'(') || word.contains('$') || LEFT_OUT.contains(&word) {
            "Unsupported"
        } else if matches!(wanted, Wanted::Host | Wanted::Service)
            && (first.is_ascii_alphabetic() || word.contains(':'))
        {
            "Unsupported"
        } else if wanted == Wanted::Setting && !word.is_empty() {
            "Unsupported"
        } else {
            "Syntax"
        };
        self.fault(kind)
    }

    fn expect_mark(&mut self, mark: u8) -> Read<()> {
        if self.take_mark(mark) {
            return Ok(());
        }
        self.stop(Wanted::Other)
    }

    fn line_end(&mut self) -> Read<()> {
        match self.token() {
            Token::LineEnd => {
                self.at += 1;
                Ok(())
            }
            _ => self.stop(Wanted::Other),
        }
    }

    fn number(&mut self, least: u64, most: u64) -> Read<u32> {
        match number(self.word().as_bytes(), most).filter(|it| *it >= least) {
            Some(found) => {
                self.at += 1;
                Ok(found as u32)
            }
            None => self.stop(Wanted::Number),
        }
    }

    fn table_name(&mut self) -> Read<usize> {
        self.expect_mark(b'<')?;
        let name = self.word();
        if !is_name(name.as_bytes(), 31) {
            return self.stop(Wanted::Other);
        }
        self.at += 1;
        let tables = &mut self.config.tables;
        let number = *self.by_name.entry(name).or_insert_with(|| {
            tables.push(Table { name: name.to_owned(), ..Table::default() });
            tables.len() - 1
        });
        self.expect_mark(b'>')?;
        Ok(number)
    }

    // ---- settings and tables

    fn settings(&mut self) -> Read<()> {
        let is_limit = match self.word() {
            "limit" => true,
            "timeout" => false,
            _ => return self.stop(Wanted::Setting),
        };
        self.at += 1;
        if !self.take_mark(b'{') {
            self.setting(is_limit, false)?;
            return self.line_end();
        }
        self.skip_lines();
        self.setting(is_limit, true)?;
        self.skip_lines();
        while !self.take_mark(b'}') {
            self.take_mark(b',');
            self.skip_lines();
            self.setting(is_limit, true)?;
            self.skip_lines();
        }
        self.line_end()
    }

    fn setting(&mut self, is_limit: bool, is_inside: bool) -> Read<()> {
        let name = self.word();
        let place = timeout_place(name);
        let is_known = match name {
            "states" | "src-nodes" | "tables" | "table-entries" | "frags" => is_limit,
            "frag" | "tcp.tsdiff" | "icmp.first" | "icmp.error" => !is_limit,
            _ => !is_limit && place.is_some(),
        };
        if !is_known {
            return self.stop(Wanted::Other);
        }
        self.at += 1;
        if is_inside {
            self.skip_lines();
        }
        let is_adaptive = place.map_or(false, |it| it >= ADAPTIVE_START);
        let least = u64::from(is_limit || name == "interval");
        let value = self.number(least, if is_limit || is_adaptive { MOST } else { MOST_SECONDS })?;
        match (name, place) {
            ("states", _) => self.config.states = value.into(),
            ("src-nodes", _) => self.config.src_nodes = value.into(),
            ("tables", _) => self.config.tables_limit = value.into(),
            ("table-entries", _) => self.config.table_entries = value.into(),
            (_, Some(place)) if is_adaptive => self.adaptive[place - ADAPTIVE_START] = Some(value),
            (_, Some(place)) => self.config.timeouts[place] = value,
            _ => {}
        }
        Ok(())
    }

    fn table(&mut self) -> Read<()> {
        let begin = self.at + 1;
        let number = self.table_name()?;
        if self.config.tables[number].is_defined {
            self.at = begin;
            return self.fault("Duplicate");
        }
        self.config.tables[number].is_defined = true;
        let mut parts: Vec<&str> = Vec::new();
        while self.token() != Token::LineEnd {
            let part = if self.is_mark(b'{') { "{" } else { self.word() };
            if parts.contains(&part) {
                return self.fault("Duplicate");
            }
            match part {
                "const" => self.config.tables[number].is_const = true,
                "persist" | "counters" | "{" => {}
                _ => return self.stop(Wanted::Other),
            }
            self.at += 1;
            if part == "{" {
                self.config.tables[number].entries = self.entries()?;
            }
            parts.push(part);
        }
        self.line_end()
    }

    fn entries(&mut self) -> Read<Vec<(Prefix, bool)>> {
        let (mut found, mut signs) = (Vec::new(), HashMap::new());
        self.skip_lines();
        while !self.take_mark(b'}') {
            if !found.is_empty() {
                self.take_mark(b',');
                self.skip_lines();
            }
            let begin = self.at;
            let negated = self.take_mark(b'!');
            let Some(prefix) = prefix(self.word().as_bytes()) else { return self.stop(Wanted::Host) };
            match signs.insert(prefix, negated) {
                Some(sign) if sign != negated => {
                    self.at = begin;
                    return self.fault("Duplicate");
                }
                Some(_) => {}
                None => found.push((prefix, negated)),
            }
            self.at += 1;
            self.skip_lines();
        }
        Ok(found)
    }

    // ---- rules and anchors

    fn interface_name(&mut self) -> Read<&'a str> {
        let name = self.word();
        if !is_name(name.as_bytes(), 15) || name == "any" || name == "rdomain" {
            return self.stop(Wanted::Other);
        }
        self.at += 1;
        Ok(name)
    }

    /// An interface by its number, and whether it is negated.
    fn interface(&mut self) -> Read<(usize, bool)> {
        let negated = self.take_mark(b'!');
        let name = self.interface_name()?;
        let names = &mut self.config.interfaces;
        let number = *self.interfaces.entry(name).or_insert_with(|| {
            names.push(name.to_owned());
            names.len() - 1
        });
        Ok((number, negated))
    }

    fn log(&mut self) -> Read<bool> {
        if !self.take("log") {
            return Ok(false);
        }
        if self.take_mark(b'(') {
            let mut is_first = true;
            while is_first || !self.take_mark(b')') {
                if !is_first {
                    self.take_mark(b',');
                }
                is_first = false;
                match self.word() {
                    "all" | "matches" | "user" => self.at += 1,
                    "to" => {
                        self.at += 1;
                        self.interface_name()?;
                    }
                    _ => return self.stop(Wanted::Other),
                }
            }
        }
        Ok(true)
    }

    fn side(&mut self) -> Read<Side> {
        let mut side = any_side();
        if self.word() != "port" && !self.take("any") {
            let negated = self.take_mark(b'!');
            side.host = if self.is_mark(b'<') {
                Host::Table { number: self.table_name()?, negated }
            } else {
                let Some(prefix) = prefix(self.word().as_bytes()) else { return self.stop(Wanted::Host) };
                self.at += 1;
                Host::Net { prefix, negated }
            };
        }
        if self.take("port") {
            self.take_mark(b'=');
            let Some(found) = ports(self.word()) else { return self.stop(Wanted::Service) };
            self.at += 1;
            side.port = Some(found);
        }
        Ok(side)
    }

    /// What a rule and the head of an anchor have in common, and whether it is `quick`.
    fn filter(&mut self, is_anchor: bool) -> Read<(Filter, bool)> {
        let is_in = if self.take("in") { Some(true) } else { self.take("out").then_some(false) };
        let quick = self.take("quick");
        let has_log = !is_anchor && self.log()?;
        let quick = quick || (has_log && self.take("quick"));
        let interface = if self.take("on") { Some(self.interface()?) } else { None };
        let is_wide = if self.take("inet6") { Some(true) } else { self.take("inet").then_some(false) };
        let mut proto = None;
        if self.take("proto") {
            proto = protocol(self.word().as_bytes());
            if proto.is_none() {
                return self.stop(Wanted::Service);
            }
            self.at += 1;
        }
        let (mut from, mut to) = (any_side(), any_side());
        if !self.take("all") {
            if self.take("from") {
                from = self.side()?;
            }
            if self.take("to") {
                to = self.side()?;
            }
        }
        Ok((Filter { is_in, interface, is_wide, proto, from, to, flags: None }, quick))
    }

    fn flags(&mut self) -> Read<Option<(u8, u8)>> {
        if self.take("any") {
            return Ok(None);
        }
        let found = self.word().split_once('/').and_then(|(set, among)| Some((flags(set.as_bytes())?, flags(among.as_bytes())?)));
        match found {
            Some(found) => {
                self.at += 1;
                Ok(Some(found))
            }
            None => self.stop(Wanted::Other),
        }
    }

    /// The clauses behind the hosts: flags and state, in any order.
    fn clauses(&mut self) -> Read<Clauses<'a>> {
        let mut found = Clauses::default();
        loop {
            match self.word() {
                "flags" if found.flags.is_some() => return self.fault("Duplicate"),
                "flags" => {
                    self.at += 1;
                    found.flags = Some(self.flags()?);
                }
                "no" | "keep" if found.is_keep.is_some() => return self.fault("Duplicate"),
                "no" | "keep" => {
                    let is_keep = self.word() == "keep";
                    found.is_keep = Some(is_keep);
                    self.at += 1;
                    if !self.take("state") {
                        return self.stop(Wanted::Other);
                    }
                    if is_keep && self.take_mark(b'(') {
                        self.options(&mut found)?;
                    }
                }
                _ => return Ok(found),
            }
        }
    }

    fn options(&mut self, found: &mut Clauses<'a>) -> Read<()> {
        let mut is_first = true;
        while is_first || !self.take_mark(b')') {
            if !is_first {
                self.take_mark(b',');
            }
            is_first = false;
            self.option(found)?;
        }
        Ok(())
    }

    fn option(&mut self, found: &mut Clauses<'a>) -> Read<()> {
        let name = self.word();
        let place = timeout_place(name).filter(|it| *it != INTERVAL);
        let options = &mut found.options;
        let is_again = match (name, place) {
            ("max", _) => options.max.is_some(),
            ("source-track", _) => found.track.is_some(),
            ("max-src-nodes", _) => options.max_src_nodes.is_some(),
            ("max-src-states", _) => options.max_src_states.is_some(),
            ("max-src-conn", _) => options.max_src_conn.is_some(),
            ("max-src-conn-rate", _) => options.rate.is_some(),
            ("overload", _) => options.overload.is_some(),
            ("sloppy" | "floating" | "no-sync", _) => found.without_effect.contains(&name),
            (_, Some(place)) => options.timeouts[place].is_some(),
            _ => return self.stop(Wanted::Other),
        };
        if is_again {
            return self.fault("Duplicate");
        }
        self.at += 1;
        match (name, place) {
            ("max", _) => options.max = Some(self.number(1, MOST)?),
            ("source-track", _) => {
                found.track = Some(if self.take("rule") { Some(true) } else { self.take("global").then_some(false) })
            }
            ("max-src-nodes", _) => options.max_src_nodes = Some(self.number(1, MOST)?),
            ("max-src-states", _) => options.max_src_states = Some(self.number(1, MOST)?),
            ("max-src-conn", _) => options.max_src_conn = Some(self.number(1, MOST)?),
            ("max-src-conn-rate", _) => options.rate = Some(self.rate()?),
            ("overload", _) => {
                let table = self.table_name()?;
                let is_flush = self.take("flush");
                let flush = if is_flush && self.take("global") {
                    Flush::Global
                } else {
                    [Flush::No, Flush::Rule][usize::from(is_flush)]
                };
                options.overload = Some((table, flush));
            }
            (_, Some(place)) => {
                options.timeouts[place] =
                    Some(self.number(0, if place >= ADAPTIVE_START { MOST } else { MOST_SECONDS })?)
            }
            _ => found.without_effect.push(name),
        }
        Ok(())
    }

    fn rate(&mut self) -> Read<(u32, u32)> {
        let found = self
            .word()
            .split_once('/')
            .and_then(|(count, seconds)| Some((number(count.as_bytes(), 4_294_967)?, number(seconds.as_bytes(), MOST_SECONDS)?)));
        match found {
            Some((count, seconds)) if count > 0 && seconds > 0 => {
                self.at += 1;
                Ok((count as u32, seconds as u32))
            }
            _ => self.stop(Wanted::Number),
        }
    }

    /// The load rule that a rule or the head of an anchor breaks.
    fn broken(&self, filter: &Filter, is_block: bool, clauses: &Clauses) -> Option<&'static str> {
        let options = &clauses.options;
        let has_port = filter.from.port.is_some() || filter.to.port.is_some();
        let counts_connections = options.max_src_conn.is_some() || options.rate.is_some();
        let pair = (options.timeouts[ADAPTIVE_START], options.timeouts[ADAPTIVE_END]);
        if has_port && !matches!(filter.proto, Some(6 | 17)) {
            Some("PortWithoutProto")
        } else if is_block && clauses.is_keep == Some(true) {
            Some("StateOnBlock")
        } else if options.overload.is_some() && !counts_connections {
            Some("OverloadAlone")
        } else if clauses.track == Some(Some(false)) && counts_connections {
            Some("GlobalConn")
        } else if options.scope == Some(Scope::Global) && options.timeouts[SRC_TRACK].is_some() {
            Some("GlobalRetention")
        } else if !(pair == (None, None) || matches!(pair, (Some(start), Some(end)) if 1 <= start && start < end)) {
            Some("AdaptivePair")
        } else {
            None
        }
    }

    fn rule(&mut self, line: u64) -> Read<()> {
        let is_block = self.take("block");
        if is_block {
            if matches!(self.word(), "drop" | "return" | "return-rst" | "return-icmp" | "return-icmp6") {
                self.at += 1;
            }
        } else if !self.take("pass") {
            return self.stop(Wanted::Other);
        }
        let (mut filter, quick) = self.filter(false)?;
        let mut clauses = self.clauses()?;
        if repeats(self.word(), &filter, quick) {
            return self.fault("Duplicate");
        }
        self.line_end()?;
        let place = self.config.items.len();
        clauses.options.scope = scope(&clauses, place);
        let broken = self.broken(&filter, is_block, &clauses).or((place >= MOST_ITEMS).then_some("TooManyRules"));
        if let Some(kind) = broken {
            return Err(Fault { line, kind });
        }
        let keeps = !is_block && clauses.is_keep != Some(false);
        filter.flags = clauses.flags.unwrap_or(keeps.then_some((2, 18)));
        if let Some((table, _)) = clauses.options.overload {
            self.overloads.push((table, line));
        }
        let action = match (is_block, keeps) {
            (true, _) => Action::Block,
            (_, false) => Action::Pass,
            _ => Action::Keep(Box::new(clauses.options)),
        };
        self.config.items.push(Item { action, quick, filter, end: place + 1 });
        Ok(())
    }

    fn anchor(&mut self, line: u64) -> Read<()> {
        let name = match self.token() {
            Token::Quoted(name) => Some(name),
            Token::Word(word)
                if !["in", "out", "quick", "on", "inet", "inet6", "proto", "from", "to", "all", "flags"]
                    .contains(&word) =>
            {
                Some(word)
            }
            _ => None,
        };
        if let Some(name) = name {
            if !is_name(name.as_bytes(), 63) {
                return self.fault(if name.contains(['/', '*']) { "Unsupported" } else { "Syntax" });
            }
            if !self.anchors[self.open.len()].insert(name) {
                return self.fault("Duplicate");
            }
            self.at += 1;
        }
        let (mut filter, quick) = self.filter(true)?;
        if self.take("flags") {
            filter.flags = self.flags()?;
        }
        if self.token() == Token::LineEnd {
            return self.fault("Unsupported");
        }
        if repeats(self.word(), &filter, quick) {
            return self.fault("Duplicate");
        }
        self.expect_mark(b'{')?;
        let place = self.config.items.len();
        let broken = self.broken(&filter, false, &Clauses::default());
        let broken = broken
            .or((self.open.len() >= MOST_DEPTH).then_some("TooDeep"))
            .or((place >= MOST_ITEMS).then_some("TooManyRules"));
        if let Some(kind) = broken {
            return Err(Fault { line, kind });
        }
        self.line_end()?;
        self.config.items.push(Item { action: Action::Anchor(name.map(str::to_owned)), quick, filter, end: place + 1 });
        self.open.push(place);
        self.anchors.truncate(self.open.len());
        self.anchors.push(HashSet::new());
        Ok(())
    }

    fn statement(&mut self) -> Read<()> {
        let line = self.line();
        if self.is_mark(b'}') && !self.open.is_empty() {
            self.at += 1;
            let anchor = self.open.pop().expect("an open anchor");
            self.config.items[anchor].end = self.config.items.len();
            return self.line_end();
        }
        if self.pieces.get(self.at + 1).map_or(false, |it| it.token == Token::Mark(b'=')) {
            return self.fault("Unsupported");
        }
        match self.word() {
            "set" | "table" if !self.open.is_empty() => self.fault("Unsupported"),
            "set" => {
                self.at += 1;
                self.settings()
            }
            "table" => {
                self.at += 1;
                self.table()
            }
            "anchor" => {
                self.at += 1;
                self.anchor(line)
            }
            _ => self.rule(line),
        }
    }

    /// What is checked behind the last statement.
    fn finish(mut self) -> Read<Config> {
        if let Some((_, line)) = self.overloads.iter().find(|(table, _)| self.config.tables[*table].is_const) {
            return Err(Fault { line: *line, kind: "ConstOverload" });
        }
        let part = |tenths: u64| (self.config.states * tenths / 10).min(MOST) as u32;
        let (start, end) = match self.adaptive {
            [None, None] => (part(6), part(12)),
            [Some(start), Some(end)] if start < end || (start, end) == (0, 0) => (start, end),
            _ => return Err(Fault { line: 0, kind: "AdaptivePair" }),
        };
        self.config.timeouts[ADAPTIVE_START] = start;
        self.config.timeouts[ADAPTIVE_END] = end;
        if self.config.tables.len() as u64 > self.config.tables_limit {
            return Err(Fault { line: 0, kind: "TooManyTables" });
        }
        if self.config.tables.iter().map(|it| it.entries.len() as u64).sum::<u64>() > self.config.table_entries {
            return Err(Fault { line: 0, kind: "TooManyEntries" });
        }
        Ok(self.config)
    }
}

fn scope(clauses: &Clauses, rule: usize) -> Option<Scope> {
    let options = &clauses.options;
    match clauses.track {
        Some(Some(true)) => Some(Scope::Rule(rule)),
        Some(Some(false)) => Some(Scope::Global),
        _ if options.max_src_nodes.is_some() || options.max_src_conn.is_some() || options.rate.is_some() => {
            Some(Scope::Rule(rule))
        }
        Some(None) => Some(Scope::Global),
        None => options.max_src_states.map(|_| Scope::Global),
    }
}

/// Reads a rules text.
pub fn read(text: &[u8]) -> Read<Config> {
    if text.len() > MOST_BYTES {
        return Err(Fault { line: 0, kind: "TooLong" });
    }
    // what is not UTF-8 is accepted in comments alone, and so is what stands for it then
    let text = std::str::from_utf8(text).map_or_else(|_| String::from_utf8_lossy(text), Cow::Borrowed);
    let mut reader = Reader {
        pieces: split(&text),
        at: 0,
        config: Config::new(),
        adaptive: [None; 2],
        by_name: HashMap::new(),
        interfaces: HashMap::new(),
        open: Vec::new(),
        anchors: vec![HashSet::new()],
        overloads: Vec::new(),
    };
    loop {
        reader.skip_lines();
        if reader.token() == Token::End {
            break;
        }
        reader.statement()?;
    }
    if !reader.open.is_empty() {
        return reader.fault("Syntax");
    }
    reader.finish()
}
