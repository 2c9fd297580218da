//! Files that are read.

use crate::failure::Failure;
use crate::history;
use crate::staged;
use crate::terminal::shown;
use crate::units::count;
use dezghuri::{ffi, Cluster, Description, Plan};
use std::fs::{self, File};
use std::io::{self, ErrorKind, Read};
use std::path::Path;

/// No description of a cluster is longer; what is longer is some other file.
pub const LONGEST_TEXT: u64 = 1 << 20;

/// So many faults of a text are listed: a file that is no description has one on each line.
const MOST_FAULTS: usize = 20;

/// What the program `plan` reads of a cluster record: a longer one is refused within these bytes.
const RECORD_READ: u64 = 11_000;

/// The bytes of a text file; whether they describe a cluster is not asked yet.
pub fn read_text(path: &Path) -> Result<Vec<u8>, Failure> {
    let text = read_at_most(path, LONGEST_TEXT + 1)?;
    match other_than_text(&text) {
        Some(what) => Err(Failure::bad(format!("{}: {what}", shown(path)))),
        None => Ok(text),
    }
}

/// The cluster that the text of a file describes.
pub fn described(path: &Path, text: &[u8]) -> Result<Description, Failure> {
    Description::parse(text).map_err(|faults| {
        let faults = faults.notes().iter().map(|fault| fault.told_of(path));
        let mut told: Vec<String> = faults.collect();
        let more = told.split_off(told.len().min(MOST_FAULTS)).len() as u64;
        if more > 0 {
            let more = count(more, "more fault is", "more faults are");
            told.push(format!("{}: {more} not listed", shown(path)));
        }
        Failure::Bad(told)
    })
}

/// One line for a file that is no text, instead of a fault for each of its lines.
fn other_than_text(bytes: &[u8]) -> Option<&'static str> {
    if Plan::from_record(bytes).is_ok() {
        Some("this is a layout record; the text file comes first")
    } else if Cluster::from_record(bytes).is_ok() {
        Some("this is a cluster record; `plan --record` plans it, all else takes a text file")
    } else if staged::is_staged(bytes) {
        Some("this is what is staged for a text file; name that file")
    } else if history::is_history(bytes) {
        Some("this is the history of a text file; name that file")
    } else if bytes.contains(&0) {
        Some("this is not a text file")
    } else if bytes.len() as u64 > LONGEST_TEXT {
        Some("this is too long to describe a cluster")
    } else {
        None
    }
}

/// The plan of a layout record. Three bytes past the longest are enough to refuse a longer one.
pub fn read_plan(path: &Path) -> Result<Plan, Failure> {
    let record = read_at_most(path, ffi::LAYOUT_RECORD_BYTES as u64 + 3)?;
    Plan::from_record(&record).map_err(|refused| {
        let what = match is_text(&record) {
            true => "this is a text file, and not a layout record".into(),
            false => format!("this is not a whole layout record: {refused}"),
        };
        Failure::bad(format!("{}: {what}", shown(path)))
    })
}

/// Whether there is text and no byte that texts do not have; every record has such bytes.
fn is_text(bytes: &[u8]) -> bool {
    let of_text = |byte: &u8| *byte >= b' ' || b"\t\r\n".contains(byte);
    !bytes.is_empty() && bytes.iter().all(of_text)
}

/// As many bytes of a cluster record as the program `plan` reads; `-` is standard input.
pub fn read_cluster_record(path: &Path) -> Result<Vec<u8>, Failure> {
    if path != Path::new("-") {
        return read_at_most(path, RECORD_READ);
    }
    if streams::stdin_was_closed() {
        return Err(Failure::bad("standard input is closed".into()));
    }
    let mut bytes = Vec::new();
    io::stdin()
        .take(RECORD_READ)
        .read_to_end(&mut bytes)
        .map_err(|error| Failure::bad(format!("standard input: {error}")))?;
    Ok(bytes)
}

fn read_at_most(path: &Path, most: u64) -> Result<Vec<u8>, Failure> {
    let mut bytes = Vec::new();
    File::open(path)
        .and_then(|file| file.take(most).read_to_end(&mut bytes))
        .map_err(|error| Failure::bad(format!("{}: {error}", shown(path))))?;
    Ok(bytes)
}

/// The bytes of a file that the command keeps beside a text file, if there is one.
pub fn read_beside(path: &Path, longest: usize, name: &str) -> Result<Option<Vec<u8>>, Failure> {
    let is_nowhere = || fs::symlink_metadata(path).is_err_and(|error| is_not_found(&error));
    if is_nowhere() {
        return Ok(None);
    }
    match read_there(path, longest, name) {
        // It was removed meanwhile.
        Err(_) if is_nowhere() => Ok(None),
        read => read.map(Some),
    }
}

fn read_there(path: &Path, longest: usize, name: &str) -> Result<Vec<u8>, Failure> {
    let bad = |what: &str| Failure::bad(format!("{}: {what}", shown(path)));
    match fs::metadata(path) {
        Ok(there) if there.is_file() => (),
        Ok(_) => return Err(bad("there is something there that is not a file")),
        Err(error) if is_not_found(&error) => {
            return Err(bad("it is a link to a file that is not there"))
        }
        Err(error) => return Err(bad(&error.to_string())),
    }
    let bytes = read_at_most(path, longest as u64 + 1)?;
    match bytes.len() > longest {
        true => Err(bad(&format!("this is too long for a {name}"))),
        false => Ok(bytes),
    }
}

fn is_not_found(error: &io::Error) -> bool {
    error.kind() == ErrorKind::NotFound
}

/// Whether both names lead to one file that is there.
pub fn are_one(first: &Path, second: &Path) -> bool {
    match (fs::canonicalize(first), fs::canonicalize(second)) {
        (Ok(first), Ok(second)) => first == second,
        _ => false,
    }
}
