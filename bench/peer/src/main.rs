//! The machine of pfsrc in ordinary Rust, to compare with and to measure against. It is called as pfsrc is.
//!
//! It was written from the documents, with the crates and maps that one would take. It reads every rules text that
//! pfsrc accepts, and writes the same report. At a fault of the trace it says the same; of the kinds of faults of a
//! rules text it tells some as `Syntax`.
mod addresses;
mod ruleset;
mod machine;
mod packet;
mod phase;
mod reading;
mod replay;
mod rules;
mod showing;
mod tables;
mod words;

use replay::{replay, Stop};
use rules::Config;
use std::fs::File;
use std::io::{self, BufRead, BufReader, Read, Write};
use std::process::ExitCode;

const USAGE: &str = "usage: peer [check RULES | show RULES | replay [--line-buffered] RULES TRACE]
Without a command it reads rules and trace from standard input, with a line %% between them.
A file - is standard input.";
/// One byte more than a rules text may have.
const ENOUGH: u64 = 1_048_577;

/// What the words of the command line ask for.
enum Job<'a> {
    Say(&'static str),
    Joined,
    Check(&'a str),
    Show(&'a str),
    Replay(&'a str, &'a str),
}

fn job<'a>(words: &[&'a str]) -> Option<Job<'a>> {
    match *words {
        [] => Some(Job::Joined),
        ["--version" | "-V"] => Some(Job::Say("pfsrc 0.1.0, the limits of pf as in OpenBSD 7.4")),
        ["--help" | "-h" | "help"] => Some(Job::Say(USAGE)),
        ["check", rules] => Some(Job::Check(rules)),
        ["show", rules] => Some(Job::Show(rules)),
        ["replay", rules, trace] if (rules, trace) != ("-", "-") => Some(Job::Replay(rules, trace)),
        _ => None,
    }
}

fn open(name: &str) -> Result<Box<dyn Read>, Stop> {
    if name == "-" {
        return Ok(Box::new(io::stdin()));
    }
    Ok(Box::new(File::open(name).map_err(|_| Stop::Read)?))
}

fn config(source: impl Read) -> Result<Config, Stop> {
    let mut text = Vec::new();
    source.take(ENOUGH).read_to_end(&mut text).map_err(|_| Stop::Read)?;
    reading::read(&text).map_err(Stop::Rules)
}

/// The rules before the line `%%`; what is left is the trace.
fn split_joined(source: &mut impl BufRead) -> Result<Config, Stop> {
    let (mut text, mut line) = (Vec::new(), Vec::new());
    while source.read_until(b'\n', &mut line).map_err(|_| Stop::Read)? > 0 {
        if line == b"%%\n" || line == b"%%" {
            break;
        }
        if (text.len() as u64) < ENOUGH {
            text.append(&mut line);
        }
        line.clear();
    }
    reading::read(&text).map_err(Stop::Rules)
}

fn write(text: &str) -> Result<(), Stop> {
    io::stdout().write_all(text.as_bytes()).map_err(|_| Stop::Write)
}

fn run(job: Job, is_line_buffered: bool) -> Result<(), Stop> {
    match job {
        Job::Say(text) => write(&format!("{text}\n")),
        Job::Check(rules) => {
            let config = config(open(rules)?)?;
            let entries: usize = config.tables.iter().map(|it| it.entries.len()).sum();
            write(&format!("ok items={} tables={} entries={entries}\n", config.items.len(), config.tables.len()))
        }
        Job::Show(rules) => write(&showing::show(&config(open(rules)?)?)),
        Job::Replay(rules, trace) => {
            let (rules, trace) = (open(rules)?, open(trace)?);
            replay(&config(rules)?, trace, is_line_buffered)
        }
        Job::Joined => {
            let mut source = BufReader::new(io::stdin());
            let config = split_joined(&mut source)?;
            replay(&config, source, is_line_buffered)
        }
    }
}

fn main() -> ExitCode {
    let given: Option<Vec<String>> = std::env::args_os().skip(1).map(|it| it.into_string().ok()).collect();
    let given = given.unwrap_or_else(|| vec!["not UTF-8".to_owned()]);
    let words: Vec<&str> = given.iter().map(String::as_str).filter(|it| *it != "--line-buffered").collect();
    let Some(job) = job(&words) else {
        eprintln!("{USAGE}");
        return ExitCode::from(2);
    };
    match run(job, words.len() < given.len()) {
        Ok(()) => ExitCode::SUCCESS,
        Err(stop) => {
            eprintln!("{stop}");
            ExitCode::from(stop.status())
        }
    }
}
