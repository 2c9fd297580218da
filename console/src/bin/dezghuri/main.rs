//! The command `dezghuri`: plans for owners of a few boxes, from a plain text file.

#![forbid(unsafe_code)]

mod args;
mod before;
mod begun;
mod changes;
mod commands;
mod deeds;
mod explain;
mod failure;
mod files;
mod grammar;
mod help;
mod history;
mod json;
mod labels;
mod lock;
mod loss;
mod losses;
mod output;
mod overview;
mod record_lines;
mod report;
mod sheet;
mod staged;
mod sum;
mod table;
mod why;

use args::{Call, Command};
use commands::Answer;
use dezghuri::{terminal, units};
use failure::{Failure, BAD};
use json::Json;
use lock::Lock;
use std::ffi::OsString;
use std::io::{self, IsTerminal, Write};
use std::process::ExitCode;

/// The version of the objects of `--json`: counted up where a member goes, or comes to mean another thing.
const OBJECTS: u32 = 1;

fn main() -> ExitCode {
    let words: Vec<OsString> = std::env::args_os().skip(1).collect();
    let mut warnings = Vec::new();
    let status = called(&words, &mut warnings).unwrap_or_else(|failure| {
        failure.lines().iter().for_each(|line| tell(line));
        match args::asks_for_json(&words) && !failure.is_late() {
            true => print_error(&words, &failure, &warnings),
            false => failure.status(),
        }
    });
    ExitCode::from(status)
}

fn called(words: &[OsString], warnings: &mut Vec<String>) -> Result<u8, Failure> {
    let Call { command, json } = args::parse(words.iter().cloned()).map_err(Failure::Usage)?;
    if matches!(command, Command::Record { out: None, .. }) && io::stdout().is_terminal() {
        let what =
            "a record is not for the screen: use --out RECORD, or `dezghuri record FILE | plan`";
        return Err(Failure::Usage(what.into()));
    }
    let lock = Lock::take(&command.writes(), warnings);
    let answer = lock.and_then(|lock| Ok((lock, commands::run(&command, warnings)?)));
    warnings.iter().for_each(|warning| warn(warning));
    // Held to the end: what the call has read stays as it is until its deeds are done.
    let (_lock, mut answer) = answer?;
    answer.told.iter().for_each(|line| tell(line));
    let object = answer.json.take().filter(|_| json);
    match object {
        None => give(&answer),
        Some(object) => {
            let name = words.first().and_then(args::command_name);
            answer.report = printed(object, name.unwrap_or_default(), warnings);
            give_quietly(&answer)
        }
    }
}

/// Prints the report, and only once it is printed writes the file and says so.
fn give(answer: &Answer) -> Result<u8, Failure> {
    let written = put(answer)?;
    print(written.as_bytes())
        .map_err(|error| Failure::Late(format!("written, but that was not printed: {error}")))?;
    Ok(answer.status)
}

/// As [`give`], but with nothing after the report: it is one object.
fn give_quietly(answer: &Answer) -> Result<u8, Failure> {
    put(answer)?;
    Ok(answer.status)
}

/// Prints the report and does what is to be done to files; what to say of them.
fn put(answer: &Answer) -> Result<String, Failure> {
    let unprinted = match answer.deeds[..] {
        [] => "not printed",
        _ => "not printed, so nothing was written",
    };
    print(&answer.report).map_err(|error| Failure::Late(format!("{unprinted}: {error}")))?;
    let told = answer.deeds.iter().map(|deed| deed.act());
    told.collect::<Result<_, _>>().map_err(Failure::late)
}

/// Prints an object in the place of an answer; the exit status.
fn print_error(words: &[OsString], failure: &Failure, warnings: &[String]) -> u8 {
    let command = words.first().and_then(args::command_name);
    let object = Json::Object(vec![("command", command.into()), ("error", failure.json())]);
    match print(&printed(object, "error", warnings)) {
        Ok(()) => failure.status(),
        Err(error) => {
            tell(&format!("not printed: {error}"));
            BAD
        }
    }
}

/// The object as it is printed: it begins with what it is, and ends with the warnings.
fn printed(object: Json, name: &str, warnings: &[String]) -> Vec<u8> {
    let head = vec![
        ("format", format!("dezghuri {name}").into()),
        ("version", OBJECTS.into()),
    ];
    let object = object.headed(head);
    let object = object.with("warnings", Json::list(warnings.to_vec()));
    format!("{object}\n").into_bytes()
}

/// Prints. A reader that has gone away is an error too: it has not read what was to be told.
fn print(bytes: &[u8]) -> io::Result<()> {
    if bytes.is_empty() {
        return Ok(());
    }
    if streams::stdout_was_closed() {
        return Err(io::Error::other("standard output is closed"));
    }
    let mut out = io::stdout().lock();
    out.write_all(bytes)?;
    out.flush()
}

/// What a line among the warnings begins with that is none: something to know, and nothing to mend.
const NOTE: &str = "note: ";

/// Says a warning, or a note.
fn warn(line: &str) {
    match line.starts_with(NOTE) {
        true => tell(line),
        false => tell(&format!("warning: {line}")),
    }
}

/// Says a line to the owner; where nobody can hear it, the exit status still tells.
fn tell(line: &str) {
    let _ = writeln!(io::stderr(), "{line}");
}
