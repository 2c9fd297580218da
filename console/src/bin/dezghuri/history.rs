//! What the command keeps of the layouts that it has written, beside the text file that they are for.

mod changed;
mod contents;
mod here;
mod line;
mod moment;
mod told;
mod word;

use crate::failure::Failure;
use crate::files;
use crate::json::Json;
use crate::labels;
use crate::output::{self, folder_of};
use crate::sum;
use crate::terminal::shown;
use crate::NOTE;
use contents::Contents;
use dezghuri::{Description, Plan, Verdict};
use moment::Moment;
use std::ffi::OsStr;
use std::fs::{self, OpenOptions};
use std::io::{self, ErrorKind, Write};
use std::os::unix::ffi::OsStrExt;
use std::path::{Path, PathBuf};

pub use contents::is_history;
pub use here::State;
pub use line::{KeptBox, Line};
pub use told::{of_other_boxes, tell_layouts, Given};

/// What the name of a history ends with.
const ENDING: &str = ".history";

/// No history is longer: it has room for some twenty thousand layouts.
const LONGEST: usize = 1 << 24;

/// The history of a text file.
pub struct History {
    /// The text file, as the owner calls it.
    file: PathBuf,
    pub path: PathBuf,
    /// Its bytes, if it is there.
    found: Option<Vec<u8>>,
    contents: Contents,
    /// Whether lines may be added.
    is_usable: bool,
}

impl History {
    /// Reads the history, so far as there is one that can be read; the rest goes to the warnings.
    pub fn read(file: &Path, warnings: &mut Vec<String>) -> History {
        let history = History::open(file).unwrap_or_else(|failure| {
            // That of a stream is missed only where a layout is written.
            let told = failure.lines().into_iter();
            warnings.extend(told.filter(|_| !is_stream(file)));
            History {
                is_usable: false,
                ..History::none(file)
            }
        });
        warnings.extend(history.faults_in_words());
        history
    }

    /// Reads the history; a file that is none is a failure, a line that is not whole is not.
    pub fn open(file: &Path) -> Result<History, Failure> {
        if is_stream(file) {
            let what = format!("{} is a stream, and has no history", shown(file));
            return Err(Failure::bad(what));
        }
        let none = History::none(file);
        let found = files::read_beside(&none.path, LONGEST, "history")?;
        let contents = Contents::parse(found.as_deref().unwrap_or_default());
        match contents.is_history() {
            true => Ok(History {
                found,
                contents,
                ..none
            }),
            false => Err(Failure::bad(format!(
                "{}: this is not a history of layouts, and is left as it is; move it away, and a new \
                 one begins",
                shown(&none.path)
            ))),
        }
    }

    fn none(file: &Path) -> History {
        History {
            file: file.into(),
            path: output::with_ending(file, ENDING),
            found: None,
            contents: Contents::default(),
            is_usable: true,
        }
    }

    /// Whether a file that is to be written would take the place of the history.
    pub fn is_at(&self, out: &Path) -> bool {
        self.name_of(out) == self.name_of(&self.path)
    }

    pub fn is_there(&self) -> bool {
        self.found.is_some()
    }

    /// The layouts that were written, the oldest first.
    pub fn lines(&self) -> impl DoubleEndedIterator<Item = &Line> {
        self.contents.lines.iter().map(|(_, line)| line)
    }

    /// The numbers of the lines that are not whole.
    pub fn faults(&self) -> &[usize] {
        &self.contents.faults
    }

    /// That lines are not whole; nothing where all are.
    pub fn faults_in_words(&self) -> Option<String> {
        let (path, faults) = (shown(&self.path), self.faults());
        match faults.len() {
            0 => None,
            1 => Some(format!(
                "{path}, line {}: it is damaged or cut short, and not read; the others are",
                faults[0]
            )),
            _ => Some(format!(
                "{path}, lines {}: they are damaged or cut short, and not read; the others are",
                labels::listed(faults.iter())
            )),
        }
    }

    /// The newest layout with this sum.
    fn with_sum(&self, sum: u64) -> Option<&Line> {
        self.lines().rev().find(|line| line.sum == sum)
    }

    /// The newest layout before this one with the sum of that which it was planned from.
    pub fn planned_from(&self, line: &Line) -> Option<&Line> {
        let former = line.former?;
        let before = self.lines().take_while(|other| *other != line);
        before.filter(|other| other.sum == former).last()
    }

    /// Where a layout of the history was put, as the owner calls it.
    pub fn place(&self, line: &Line) -> PathBuf {
        match self.file.parent() {
            Some(folder) => folder.join(&line.name),
            None => line.name.clone(),
        }
    }

    /// The name of a layout in the history; links are followed.
    fn name_of(&self, layout: &Path) -> PathBuf {
        let there = fs::canonicalize(layout).or_else(|_| {
            let name = layout.file_name().unwrap_or(OsStr::new(""));
            fs::canonicalize(folder_of(layout)).map(|folder| folder.join(name))
        });
        let there = there.unwrap_or_else(|_| layout.into());
        match fs::canonicalize(folder_of(&self.file)) {
            Ok(folder) => there.strip_prefix(folder).unwrap_or(&there).into(),
            Err(_) => there,
        }
    }

    /// The other histories in the folder of the text file that can be read.
    fn others(&self) -> Vec<History> {
        let entries = fs::read_dir(folder_of(&self.file));
        let names = entries.into_iter().flatten().flatten();
        let text = |name: &OsStr| {
            name.as_bytes()
                .strip_suffix(ENDING.as_bytes())
                .map(Vec::from)
        };
        let mut texts: Vec<Vec<u8>> = names.filter_map(|entry| text(&entry.file_name())).collect();
        texts.sort();
        let file = |text: &Vec<u8>| self.file.with_file_name(OsStr::from_bytes(text));
        let others = texts.iter().map(file).filter(|file| *file != self.file);
        others.flat_map(|file| History::open(&file)).collect()
    }

    /// A line more for a plan that is to be written. Nothing, and a warning, where it cannot be added.
    pub fn addition(&self, planned: &Planned, warnings: &mut Vec<String>) -> Option<Addition> {
        let line = planned.line(self);
        let addition = Addition {
            path: self.path.clone(),
            out: planned.out.into(),
            bytes: contents::added(self.found.as_deref().unwrap_or_default(), &line),
            found: self.found.clone(),
            version: line.version,
        };
        match self.may_grow() {
            Ok(()) => Some(addition),
            Err(error) => {
                warnings.push(addition.not_added(&error));
                None
            }
        }
    }

    /// An error where lines cannot be added.
    fn may_grow(&self) -> io::Result<()> {
        if !self.is_usable {
            let is_stream = is_stream(&self.file);
            let why = if is_stream {
                "its text is a stream"
            } else {
                "it cannot be read"
            };
            return Err(io::Error::other(why));
        }
        if !self.is_there() {
            return Ok(());
        }
        // Root may write every file, so the mode is asked first and the system then.
        if fs::metadata(&self.path)?.permissions().readonly() {
            return Err(io::Error::other("it is read-only"));
        }
        OpenOptions::new().append(true).open(&self.path).map(drop)
    }

    /// That the history begins with the layout that is to be written; nothing where it has begun.
    pub fn begins(&self) -> Option<String> {
        let nothing = self.nothing_yet()?;
        Some(format!("{NOTE}{nothing}: it begins with this layout"))
    }

    /// That the history has not begun.
    fn nothing_yet(&self) -> Option<String> {
        let path = shown(&self.path);
        match self.is_there() {
            _ if self.has_begun() || !self.is_usable => None,
            true => Some(format!("{path} is empty")),
            false => Some(format!("{path} is not there")),
        }
    }

    /// Whether some layout has, or had, a line.
    fn has_begun(&self) -> bool {
        !self.contents.lines.is_empty() || !self.faults().is_empty()
    }
}

/// Whether the text comes from somewhere beside which no file can stand.
fn is_stream(file: &Path) -> bool {
    let is_of_system = ["/dev", "/proc"]
        .iter()
        .any(|folder| file.starts_with(folder));
    is_of_system || fs::metadata(file).is_ok_and(|there| !there.is_file())
}

/// The sum of a plan's layout record.
pub fn sum_of(plan: &Plan) -> u64 {
    let record = plan.to_record().expect("it was planned, or read from one");
    sum::of(&record)
}

/// A plan that is to be written.
pub struct Planned<'a> {
    pub out: &'a Path,
    pub plan: &'a Plan,
    pub former: Option<&'a Plan>,
    /// The record that it replaces.
    pub replaced: Option<&'a [u8]>,
    pub described: &'a Description,
    /// The sum of the text.
    pub text: u64,
    pub staged: Option<usize>,
}

impl Planned<'_> {
    fn line(&self, history: &History) -> Line {
        let (plan, cluster) = (self.plan, &self.described.cluster);
        let boxes = cluster.nodes.iter().zip(&self.described.labels);
        Line {
            date: Moment::now(),
            version: history.contents.next_version(),
            name: history.name_of(self.out),
            sum: sum_of(plan),
            former: self.former.map(sum_of),
            replaced: self.replaced.map(sum::of),
            text: self.text,
            staged: self.staged.map(|staged| staged as u32),
            size: plan.size,
            sent: plan.sent,
            is_finished: plan.verdict == Verdict::Finished,
            copies: cluster.replication,
            zones: cluster.redundancy,
            bits: cluster.bits,
            boxes: boxes
                .map(|(node, label)| KeptBox {
                    id: node.id,
                    zone: label.zone.clone(),
                    capacity: node.capacity,
                    ceiling: node.ceiling,
                })
                .collect(),
        }
    }
}

/// A line to be added to a history.
pub struct Addition {
    path: PathBuf,
    /// Where the layout of the line goes.
    out: PathBuf,
    found: Option<Vec<u8>>,
    bytes: String,
    version: u32,
}

impl Addition {
    /// Where the line goes, and the number of its layout.
    pub fn json(&self) -> Json {
        Json::Object(vec![
            ("path", self.path.as_path().into()),
            ("version", self.version.into()),
        ])
    }

    /// Adds the line, and makes it last through a loss of power; a warning where that fails.
    pub fn add(&self) -> Option<String> {
        let error = self.append().err()?;
        Some(self.not_added(&error))
    }

    fn not_added(&self, error: &io::Error) -> String {
        format!(
            "{}: not written: {error}; {} stands in no history",
            shown(&self.path),
            shown(&self.out)
        )
    }

    fn append(&self) -> io::Result<()> {
        let now = match fs::read(&self.path) {
            Ok(bytes) => Some(bytes),
            Err(error) if error.kind() == ErrorKind::NotFound => None,
            Err(error) => return Err(error),
        };
        if now != self.found {
            return Err(output::changed_meanwhile());
        }
        let mut options = OpenOptions::new();
        let mut file = options.append(true).create(true).open(&self.path)?;
        file.write_all(self.bytes.as_bytes())?;
        file.sync_all()?;
        output::sync_folder(&self.path);
        Ok(())
    }
}
