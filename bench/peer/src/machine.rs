//! What is held: states, source nodes and tables, and what each event does with them.
use crate::ruleset::CompiledRuleset;
use crate::packet::{Key, Packet, Source};
use crate::phase::Phase;
use crate::rules::{Action, Config, Flush, Prefix, Scope, ADAPTIVE_END, ADAPTIVE_START, INTERVAL};
use crate::tables::Tables;
use slab::Slab;
use std::collections::{BTreeMap, BTreeSet, HashMap};
use std::net::IpAddr;

struct State {
    number: u64,
    key: Key,
    is_in: bool,
    source: IpAddr,
    rule: usize,
    node: Option<usize>,
    phase: Phase,
    last: u32,
}

struct Node {
    number: u64,
    scope: Scope,
    source: IpAddr,
    states: u32,
    connections: u32,
    score: u64,
    scored: u32,
    idle: u32,
}

/// What is left of a round of the purge: the numbers above `from`, up to `to`.
#[derive(Default)]
struct Round {
    from: u64,
    to: u64,
    left: usize,
}

pub enum Outcome {
    State(usize),
    New(usize),
    Pass(Option<usize>),
    Block(usize),
    Drop(usize, &'static str),
    Kill { rule: usize, conn: bool, rate: bool, overload: &'static str, killed: usize },
}

pub struct Machine<'a> {
    config: &'a Config,
    ruleset: CompiledRuleset,
    pub tables: Tables,
    states: Slab<State>,
    by_key: HashMap<Key, usize>,
    by_number: BTreeMap<u64, usize>,
    by_source: HashMap<Source, BTreeSet<u64>>,
    nodes: Slab<Node>,
    by_place: HashMap<(Scope, Source), usize>,
    by_node_number: BTreeMap<u64, usize>,
    of_rule: Vec<u32>,
    of_scope: HashMap<Scope, u32>,
    state_round: Round,
    node_round: Round,
    made: u64,
    first: Option<u32>,
    last: u32,
}

impl<'a> Machine<'a> {
    pub fn new(config: &'a Config) -> Self {
        Machine {
            config,
            ruleset: CompiledRuleset::new(config),
            tables: Tables::new(config),
            states: Slab::new(),
            by_key: HashMap::new(),
            by_number: BTreeMap::new(),
            by_source: HashMap::new(),
            nodes: Slab::new(),
            by_place: HashMap::new(),
            by_node_number: BTreeMap::new(),
            of_rule: vec![0; config.items.len()],
            of_scope: HashMap::new(),
            state_round: Round::default(),
            node_round: Round::default(),
            made: 0,
            first: None,
            last: 0,
        }
    }

    pub fn state_count(&self) -> usize {
        self.states.len()
    }

    pub fn node_count(&self) -> usize {
        self.nodes.len()
    }

    // ---- time

    /// Does the purges that are due, and goes on to a moment.
    pub fn advance(&mut self, now: u32) {
        if self.first.is_none() {
            self.first = Some(now);
            self.last = now;
        }
        let mut quiet = None;
        while self.last < now {
            if now - self.last > 1 {
                let until = *quiet.get_or_insert_with(|| self.quiet_until());
                let to = until.saturating_sub(1).min(now.into()) as u32;
                if to > self.last {
                    self.pass_over(to - self.last);
                    self.last = to;
                    continue;
                }
            }
            self.last += 1;
            if self.purge(self.last) {
                quiet = None;
            }
        }
    }

    /// The first second in which something that is held now may leave.
    fn quiet_until(&self) -> u64 {
        let held = self.states.len() as u64;
        let states = self.states.iter().map(|(_, it)| u64::from(it.last) + self.lifetime(it, held, self.of_rule[it.rule].into()));
        let nodes = self.nodes.iter().filter(|(_, it)| it.states == 0);
        let nodes = nodes.map(|(_, it)| u64::from(it.idle) + u64::from(self.config.retention(it.scope)));
        states.chain(nodes).min().unwrap_or(u64::MAX)
    }

    /// Lets both rounds go on by so many slices in which nothing leaves.
    fn pass_over(&mut self, seconds: u32) {
        let (share, node_share) = (self.share(self.config.states), self.share(self.config.src_nodes));
        turn(&mut self.state_round, &self.by_number, share, seconds.into());
        turn(&mut self.node_round, &self.by_node_number, node_share, seconds.into());
    }

    fn share(&self, limit: u64) -> usize {
        (1 + limit / u64::from(self.config.timeouts[INTERVAL])) as usize
    }

    /// A slice of the states, then one of the nodes. Whether something left.
    fn purge(&mut self, now: u32) -> bool {
        let share = self.share(self.config.states);
        let (held, mut expired) = (self.states.len() as u64, Vec::new());
        let mut round = std::mem::take(&mut self.state_round);
        slice(&mut round, &self.by_number, share, |place| {
            let state = &self.states[place];
            if u64::from(state.last) + self.lifetime(state, held, self.of_rule[state.rule].into()) <= now.into() {
                expired.push(place);
            }
        });
        self.state_round = round;
        for place in &expired {
            self.remove(*place, now);
        }
        let share = self.share(self.config.src_nodes);
        let mut leaving = Vec::new();
        slice(&mut self.node_round, &self.by_node_number, share, |place| {
            let node = &self.nodes[place];
            if node.states == 0 && u64::from(node.idle) + u64::from(self.config.retention(node.scope)) <= now.into() {
                leaving.push(place);
            }
        });
        for place in &leaving {
            let node = self.nodes.remove(*place);
            self.by_node_number.remove(&node.number);
            self.by_place.remove(&(node.scope, Source(node.source)));
            *self.of_scope.entry(node.scope).or_default() -= 1;
            if node.number > self.node_round.from && node.number <= self.node_round.to {
                self.node_round.left -= 1;
            }
        }
        !expired.is_empty() || !leaving.is_empty()
    }

    fn lifetime(&self, state: &State, held: u64, of_rule: u64) -> u64 {
        let options = self.config.options(state.rule);
        let lifetime = u64::from(self.config.timeout(options, state.phase.timeout as usize));
        let (start, end, count) = match (options.timeouts[ADAPTIVE_START], options.timeouts[ADAPTIVE_END]) {
            (Some(start), Some(end)) => (start, end, of_rule),
            _ => (self.config.timeouts[ADAPTIVE_START], self.config.timeouts[ADAPTIVE_END], held),
        };
        let (start, end) = (u64::from(start), u64::from(end));
        if (start, end) == (0, 0) || count <= start {
            lifetime
        } else if count >= end {
            0
        } else {
            lifetime * (end - count) / (end - start)
        }
    }

    fn remove(&mut self, place: usize, now: u32) {
        let state = self.states.remove(place);
        self.by_key.remove(&state.key);
        self.by_number.remove(&state.number);
        let source = Source(state.source);
        if let Some(numbers) = self.by_source.get_mut(&source) {
            numbers.remove(&state.number);
            if numbers.is_empty() {
                self.by_source.remove(&source);
            }
        }
        if state.number > self.state_round.from && state.number <= self.state_round.to {
            self.state_round.left -= 1;
        }
        self.of_rule[state.rule] -= 1;
        if let Some(node) = state.node {
            let node = &mut self.nodes[node];
            node.states -= 1;
            node.connections -= u32::from(state.phase.is_complete);
            if node.states == 0 {
                node.idle = now;
            }
        }
    }

    // ---- packets

    pub fn packet(&mut self, packet: &Packet) -> Outcome {
        let key = packet.key();
        if let Some(place) = self.by_key.get(&key) {
            return self.touch(*place, packet);
        }
        match self.ruleset.decide(packet, &self.tables) {
            None => Outcome::Pass(None),
            Some(rule) => match &self.config.items[rule].action {
                Action::Block => Outcome::Block(rule),
                Action::Keep(_) => self.admit(rule, key, packet),
                _ => Outcome::Pass(Some(rule)),
            },
        }
    }

    fn admit(&mut self, rule: usize, key: Key, packet: &Packet) -> Outcome {
        let options = self.config.options(rule);
        let node = options.scope.and_then(|scope| self.by_place.get(&(scope, Source(packet.src))).copied());
        if let Some(limit) = self.limit_met(rule, node) {
            return Outcome::Drop(rule, limit);
        }
        self.made += 1;
        let node = options.scope.map(|scope| node.unwrap_or_else(|| self.make_node(scope, packet.src)));
        if let Some(node) = node {
            self.nodes[node].states += 1;
        }
        let state = State {
            number: self.made,
            key,
            is_in: packet.is_in,
            source: packet.src,
            rule,
            node,
            phase: Phase::new(packet.proto),
            last: self.last,
        };
        let place = self.states.insert(state);
        self.by_key.insert(key, place);
        self.by_number.insert(self.made, place);
        self.by_source.entry(Source(packet.src)).or_default().insert(self.made);
        self.of_rule[rule] += 1;
        Outcome::New(rule)
    }

    fn make_node(&mut self, scope: Scope, source: IpAddr) -> usize {
        let node = Node { number: self.made, scope, source, states: 0, connections: 0, score: 0, scored: 0, idle: 0 };
        let place = self.nodes.insert(node);
        self.by_place.insert((scope, Source(source)), place);
        self.by_node_number.insert(self.made, place);
        *self.of_scope.entry(scope).or_default() += 1;
        place
    }

    fn limit_met(&self, rule: usize, node: Option<usize>) -> Option<&'static str> {
        let options = self.config.options(rule);
        if options.max.map_or(false, |max| self.of_rule[rule] >= max) {
            return Some("max");
        }
        if let Some(scope) = options.scope {
            match node {
                None if options.max_src_nodes.map_or(false, |max| self.of_scope.get(&scope).copied().unwrap_or(0) >= max) => return Some("max-src-nodes"),
                None if self.nodes.len() as u64 >= self.config.src_nodes => return Some("src-nodes"),
                Some(node) if options.max_src_states.map_or(false, |max| self.nodes[node].states >= max) => return Some("max-src-states"),
                _ => {}
            }
        }
        (self.states.len() as u64 >= self.config.states).then_some("states")
    }

    fn touch(&mut self, place: usize, packet: &Packet) -> Outcome {
        let now = self.last;
        let state = &mut self.states[place];
        state.last = now;
        let rule = state.rule;
        if !state.phase.step(packet.is_in == state.is_in, packet.flags) {
            return Outcome::State(rule);
        }
        let options = self.config.options(rule);
        let Some(node) = state.node else { return Outcome::State(rule) };
        let node = &mut self.nodes[node];
        node.connections += 1;
        let mut rate = false;
        if let Some((count, seconds)) = options.rate {
            let (passed, seconds) = (u64::from(now - node.scored), u64::from(seconds));
            node.score = if passed >= seconds { 0 } else { node.score - node.score * passed / seconds };
            node.score = (node.score + 1000).min(4_294_968_000);
            node.scored = now;
            rate = node.score > 1000 * u64::from(count);
        }
        let conn = options.max_src_conn.map_or(false, |max| node.connections > max);
        if conn || rate {
            self.kill(place, conn, rate)
        } else {
            Outcome::State(rule)
        }
    }

    fn kill(&mut self, place: usize, conn: bool, rate: bool) -> Outcome {
        let (rule, source, now) = (self.states[place].rule, self.states[place].source, self.last);
        let (overload, flush) = match self.config.options(rule).overload {
            Some((table, flush)) => (self.tables.add_host(table, source, now), flush),
            None => ("none", Flush::No),
        };
        let leaving: Vec<usize> = match flush {
            Flush::No => vec![place],
            _ => {
                let places = self.by_source[&Source(source)].iter().map(|number| self.by_number[number]);
                places.filter(|it| flush == Flush::Global || self.states[*it].rule == rule).collect()
            }
        };
        for place in &leaving {
            self.remove(*place, now);
        }
        Outcome::Kill { rule, conn, rate, overload, killed: leaving.len() }
    }

    /// Takes out the states that were made by these hosts, for those or for any, and answers how many.
    pub fn kill_from_to(&mut self, from: Prefix, to: Option<Prefix>) -> usize {
        let goes = |it: &State| from.covers(it.source) && to.map_or(true, |to| to.covers(it.key.end(!it.is_in)));
        let leaving: Vec<usize> = self.by_number.values().copied().filter(|it| goes(&self.states[*it])).collect();
        for place in &leaving {
            self.remove(*place, self.last);
        }
        leaving.len()
    }

    /// Takes old entries out of a table, and answers how many. None where no table of this name may change.
    pub fn expire(&mut self, table: &str, age: u32) -> Option<usize> {
        let table = self.config.changing_table(table)?;
        Some(self.tables.expire(table, self.first.unwrap_or(0), self.last, age))
    }

    /// Adds an entry to a table, and answers what a report says of it. None as for `expire`.
    pub fn add(&mut self, table: &str, (prefix, negated): (Prefix, bool)) -> Option<&'static str> {
        let table = self.config.changing_table(table)?;
        Some(self.tables.add(table, prefix, negated, self.last))
    }

    /// Takes an entry out of a table, and answers how many left. None as for `expire`.
    pub fn delete(&mut self, table: &str, (prefix, negated): (Prefix, bool)) -> Option<usize> {
        let table = self.config.changing_table(table)?;
        Some(self.tables.delete(table, prefix, negated))
    }
}

/// Examines the next slice of a round; the round goes on behind it.
fn slice(round: &mut Round, held: &BTreeMap<u64, usize>, share: usize, mut examine: impl FnMut(usize)) {
    if round.left == 0 {
        *round = Round { from: 0, to: held.keys().next_back().copied().unwrap_or(0), left: held.len() };
    }
    let count = round.left.min(share);
    for (number, place) in held.range(round.from + 1..).take(count) {
        examine(*place);
        round.from = *number;
    }
    round.left -= count;
}

/// Lets a round go on by so many slices, in which nothing leaves.
fn turn(round: &mut Round, held: &BTreeMap<u64, usize>, share: usize, slices: u64) {
    let in_this = round.left.div_euclid(share) as u64 + u64::from(round.left % share > 0);
    let per_round = (held.len().div_euclid(share) as u64 + u64::from(held.len() % share > 0)).max(1);
    let more = if slices <= in_this {
        slices
    } else {
        *round = Round::default();
        (slices - in_this) % per_round
    };
    for _ in 0..more {
        slice(round, held, share, |_| {});
    }
}
