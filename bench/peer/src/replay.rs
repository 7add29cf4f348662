//! The replay of a trace: its report, and what ends it before its end.
use crate::machine::{Machine, Outcome};
use crate::packet::{self, Event, Fault};
use crate::reading;
use crate::rules::Config;
use std::cell::RefCell;
use std::fmt;
use std::io::{self, BufWriter, Read, StdoutLock, Write};
use std::rc::Rc;

const HEADER: [&str; 9] = ["time", "dir", "if", "proto", "src", "sport", "dst", "dport", "flags"];
const MOST_ROWS: u64 = 1_000_000_000;

/// Why a report is not whole. Its text and its status are those of pfsrc.
pub enum Stop {
    Rules(reading::Fault),
    Columns(u64),
    Field(u64, usize),
    TimeFell(u64),
    Table(u64),
    TooManyRows,
    Read,
    Write,
}

impl Stop {
    pub fn status(&self) -> u8 {
        match self {
            Stop::Rules(_) => 3,
            Stop::Read | Stop::Write => 4,
            _ => 1,
        }
    }
}

impl fmt::Display for Stop {
    fn fmt(&self, out: &mut fmt::Formatter) -> fmt::Result {
        match self {
            Stop::Rules(reading::Fault { line, kind }) => write!(out, "rules: line {line}: {kind}"),
            Stop::Columns(row) => write!(out, "trace: row {row}: columns"),
            Stop::Field(row, column) => write!(out, "trace: row {row}: field {column}"),
            Stop::TimeFell(row) => write!(out, "trace: row {row}: time falls"),
            Stop::Table(row) => write!(out, "trace: row {row}: table"),
            Stop::TooManyRows => write!(out, "trace: too many rows"),
            Stop::Read => write!(out, "read failed"),
            Stop::Write => write!(out, "write failed"),
        }
    }
}

impl From<io::Error> for Stop {
    fn from(_: io::Error) -> Self {
        Stop::Write
    }
}

type Out<'a> = Rc<RefCell<BufWriter<StdoutLock<'a>>>>;

/// A trace before each read of which all lines are flushed.
struct Flushing<'a, R> {
    source: R,
    out: Option<Out<'a>>,
}

impl<R: Read> Read for Flushing<'_, R> {
    fn read(&mut self, bytes: &mut [u8]) -> io::Result<usize> {
        if let Some(out) = &self.out {
            out.borrow_mut().flush()?;
        }
        self.source.read(bytes)
    }
}

/// A line of a row: its number, a word and the rule. They are most of a report, so their numbers do not go through `write!`.
fn write_line(out: &mut impl Write, row: u64, word: &str, rule: Option<usize>) -> io::Result<()> {
    let mut digits = itoa::Buffer::new();
    out.write_all(digits.format(row).as_bytes())?;
    out.write_all(b" ")?;
    out.write_all(word.as_bytes())?;
    let Some(rule) = rule else { return out.write_all(b" -\n") };
    out.write_all(b" @")?;
    out.write_all(digits.format(rule).as_bytes())?;
    out.write_all(b"\n")
}

fn write_outcome(out: &mut impl Write, row: u64, outcome: &Outcome) -> io::Result<()> {
    match outcome {
        Outcome::State(rule) => write_line(out, row, "state", Some(*rule)),
        Outcome::New(rule) => write_line(out, row, "new", Some(*rule)),
        Outcome::Pass(rule) => write_line(out, row, "pass", *rule),
        Outcome::Block(rule) => write_line(out, row, "block", Some(*rule)),
        Outcome::Drop(rule, limit) => writeln!(out, "{row} drop:{limit} @{rule}"),
        Outcome::Kill { rule, conn, rate, overload, killed } => {
            let word = match (conn, rate) {
                (true, true) => "max-src-conn+max-src-conn-rate",
                (true, false) => "max-src-conn",
                _ => "max-src-conn-rate",
            };
            writeln!(out, "{row} kill:{word} @{rule} overload={overload} killed={killed}")
        }
    }
}

fn write_counts(out: &mut impl Write, machine: &Machine) -> io::Result<()> {
    writeln!(out, " states={} nodes={} entries={}", machine.state_count(), machine.node_count(), machine.tables.count)
}

/// Does what a record asks for, and writes its line.
fn write_row(out: &mut impl Write, row: u64, machine: &mut Machine, event: Event) -> Result<(), Stop> {
    match event {
        Event::Skip => writeln!(out, "{row} skip -")?,
        Event::Packet(packet) => write_outcome(out, row, &machine.packet(&packet))?,
        Event::HeldQuery => {
            write!(out, "{row} held -")?;
            write_counts(out, machine)?;
        }
        Event::Kill { from, to } => writeln!(out, "{row} kill - killed={}", machine.kill_from_to(from, to))?,
        Event::Expire { table, age } => {
            let removed = machine.expire(table, age).ok_or(Stop::Table(row))?;
            writeln!(out, "{row} expire - removed={removed}")?;
        }
        Event::Add { table, entry } => {
            let told = machine.add(table, entry).ok_or(Stop::Table(row))?;
            writeln!(out, "{row} add - {told}")?;
        }
        Event::Delete { table, entry } => {
            let removed = machine.delete(table, entry).ok_or(Stop::Table(row))?;
            writeln!(out, "{row} delete - removed={removed}")?;
        }
    }
    Ok(())
}

fn write_report<R: Read>(config: &Config, reader: &mut csv::Reader<R>, out: &Out) -> Result<(), Stop> {
    let mut machine = Machine::new(config);
    let mut record = csv::ByteRecord::new();
    let (mut row, mut last) = (0, 0);
    let has_header = reader.read_byte_record(&mut record).map_err(|_| Stop::Read)?;
    if !has_header || record.iter().ne(HEADER.map(str::as_bytes)) {
        return Err(Stop::Columns(0));
    }
    while reader.read_byte_record(&mut record).map_err(|_| Stop::Read)? {
        if row == MOST_ROWS {
            return Err(Stop::TooManyRows);
        }
        row += 1;
        let (moment, event) = packet::read(&record).map_err(|fault| match fault {
            Fault::Columns => Stop::Columns(row),
            Fault::Field(column) => Stop::Field(row, column),
        })?;
        if moment < last {
            return Err(Stop::TimeFell(row));
        }
        last = moment;
        machine.advance(moment);
        write_row(&mut *out.borrow_mut(), row, &mut machine, event)?;
    }
    let mut out = out.borrow_mut();
    write!(out, "end rows={row}")?;
    Ok(write_counts(&mut *out, &machine)?)
}

/// Writes the report of a trace to standard output. Line-buffered, all lines have been written before more of the
/// trace is read.
pub fn replay(config: &Config, trace: impl Read, is_line_buffered: bool) -> Result<(), Stop> {
    let out = Rc::new(RefCell::new(BufWriter::with_capacity(1 << 16, io::stdout().lock())));
    let source = Flushing { source: trace, out: is_line_buffered.then(|| out.clone()) };
    let mut reader = csv::ReaderBuilder::new().has_headers(false).flexible(true).from_reader(source);
    let done = write_report(config, &mut reader, &out);
    // what was written before a fault stays written
    out.borrow_mut().flush()?;
    done
}
