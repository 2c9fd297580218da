//! Whether a layout of the history is still where it was put.

use super::line::Line;
use super::History;
use crate::output::{folder_of, old_of};
use crate::sum;
use dezghuri::ffi;
use std::collections::{BTreeMap, BTreeSet};
use std::fs::{self, File};
use std::io::{self, ErrorKind, Read};
use std::os::unix::ffi::OsStrExt;
use std::path::{Path, PathBuf};

/// What became of a layout under its name.
#[derive(Clone, Copy, Debug, PartialEq, Eq)]
pub enum State {
    /// It stands there.
    Here,
    /// A later one has its name.
    Replaced,
    /// The file there is none that was written.
    Damaged,
    /// There is no file, or an earlier layout has the name still.
    NotThere,
}

impl State {
    pub fn name(self) -> &'static str {
        match self {
            State::Here => "here",
            State::Replaced => "replaced",
            State::Damaged => "damaged",
            State::NotThere => "not there",
        }
    }
}

impl History {
    pub fn is_here(&self, line: &Line) -> bool {
        sum_at(&self.place(line)).is_ok_and(|sum| sum == line.sum)
    }

    /// What became of a layout under its name.
    pub fn state(&self, line: &Line) -> State {
        let sum = match sum_at(&self.place(line)) {
            Ok(sum) if sum == line.sum => return State::Here,
            Err(error) if error.kind() == ErrorKind::NotFound => return State::NotThere,
            found => found.ok(),
        };
        let is_before =
            |other: &Line| sum.is_some() && (other.former == sum || other.replaced == sum);
        match sum.and_then(|sum| self.with_sum(sum)) {
            Some(there) if there.version > line.version => State::Replaced,
            Some(_) => State::NotThere,
            None if self.lines().any(is_before) => State::NotThere,
            None if self.is_last_of_its_name(line) => State::Damaged,
            None => State::Replaced,
        }
    }

    fn is_last_of_its_name(&self, line: &Line) -> bool {
        let last = self.lines().rev().find(|other| other.name == line.name);
        last.is_some_and(|last| last.version == line.version)
    }

    /// The names under which replaced layouts are kept, by the sums of what they hold.
    pub fn kept(&self) -> BTreeMap<u64, Vec<PathBuf>> {
        let places: BTreeSet<PathBuf> = self.lines().map(|line| self.place(line)).collect();
        let mut kept: BTreeMap<u64, Vec<PathBuf>> = BTreeMap::new();
        for old in places.iter().flat_map(|place| olds(place)) {
            if let Ok(sum) = sum_at(&old) {
                kept.entry(sum).or_default().push(old);
            }
        }
        kept
    }
}

/// The names in the folder that are given to what had this one, sorted.
fn olds(place: &Path) -> Vec<PathBuf> {
    let old = old_of(place);
    let begins = old.file_name().unwrap_or_default().as_bytes();
    let entries = fs::read_dir(folder_of(place))
        .into_iter()
        .flatten()
        .flatten();
    let names = entries.map(|entry| entry.file_name());
    let olds = names.filter(|name| name.as_bytes().starts_with(begins));
    let mut olds: Vec<PathBuf> = olds.map(|name| place.with_file_name(name)).collect();
    olds.sort();
    olds
}

/// The sum of a file; of what is too long for a layout, that of its beginning.
fn sum_at(path: &Path) -> io::Result<u64> {
    if !fs::metadata(path)?.is_file() {
        return Err(io::Error::other("it is no file"));
    }
    let mut bytes = Vec::new();
    let most = ffi::LAYOUT_RECORD_BYTES as u64 + 1;
    File::open(path)?.take(most).read_to_end(&mut bytes)?;
    Ok(sum::of(&bytes))
}
