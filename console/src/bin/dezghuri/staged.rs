//! Changes that the owner has staged for a text file: kept beside it until they are applied.

mod file;
mod line;
mod made;
mod zones;

use crate::failure::Failure;
use crate::files;
use crate::output::{self, Kind, Output, Removal};
use crate::sum;
use crate::terminal::shown;
use crate::units::count;
use dezghuri::{Change, Description};
use file::Sums;
use std::path::{Path, PathBuf};

pub use file::{Entry, LONGEST};
pub use line::entry as read_line;
pub use made::{Made, Step};

/// A text file, and what is staged for it.
pub struct Staged {
    /// The text file, as the owner calls it.
    pub file: PathBuf,
    /// The file of what is staged.
    pub path: PathBuf,
    pub text: Vec<u8>,
    /// The bytes of the file of what is staged, if there is one.
    found: Option<Vec<u8>>,
    /// The changes that stand.
    pub entries: Vec<Entry>,
    /// Whether all was written into the text, and only the file is left over.
    pub was_applied: bool,
}

/// The file of what is staged for a text file.
pub fn path_of(file: &Path) -> PathBuf {
    output::with_ending(file, ".staged")
}

/// Whether the bytes are those of a file of staged changes.
pub fn is_staged(bytes: &[u8]) -> bool {
    file::parse(bytes).is_ok()
}

impl Staged {
    /// Reads what is staged for a text file; whether the text describes a cluster is not asked yet.
    /// A text that may have all of it already goes to the warnings.
    pub fn read(file: &Path, warnings: &mut Vec<String>) -> Result<Staged, Failure> {
        let path = path_of(file);
        let (text, found) = read_both(file, &path)?;
        let mut staged = Staged {
            file: file.into(),
            found,
            path,
            text,
            entries: Vec::new(),
            was_applied: false,
        };
        if let Some(bytes) = staged.found.clone() {
            warnings.extend(staged.take(&bytes)?);
        }
        Ok(staged)
    }

    /// Takes the changes that stand; what is to be warned of.
    fn take(&mut self, bytes: &[u8]) -> Result<Option<String>, Failure> {
        let contents = file::parse(bytes).map_err(|fault| {
            let (path, text) = (shown(&self.path), shown(&self.file));
            Failure::Bad(vec![
                format!("{path}: this is not a whole file of staged changes: {fault}"),
                format!(
                    "Nothing was touched, and {text} is as it was. Move {path} away, and stage anew."
                ),
            ])
        })?;
        let now = sum::of(&self.text);
        self.was_applied = contents.sums.is_some_and(|sums| sums.after == now);
        if self.was_applied {
            return Ok(None);
        }
        self.entries = contents.entries;
        let was_edited = contents.sums.is_some_and(|sums| sums.before != now);
        Ok(was_edited.then(|| self.edited()))
    }

    /// Neither text of an `apply` that was cut short is there.
    fn edited(&self) -> String {
        let (path, text) = (shown(&self.path), shown(&self.file));
        format!(
            "{path}: `apply` was cut short, and {text} was edited since: what is staged may be in it \
             already; `dezghuri stage {text} show` shows it, `dezghuri undo {text}` takes the last \
             one back"
        )
    }

    /// The cluster that the text describes.
    pub fn known(&self) -> Result<Description, Failure> {
        files::described(&self.file, &self.text)
    }

    /// All changes made on the cluster of the text; told where one is refused.
    pub fn made(&self, known: &Description) -> Result<Made, Failure> {
        let made = Made::new(known, &self.entries);
        match self.told(&made) {
            Some(failure) => Err(failure),
            None => Ok(made),
        }
    }

    /// What is to be said of a change that is refused, where one is.
    pub fn told(&self, made: &Made) -> Option<Failure> {
        let not = made.refused.as_ref()?;
        let (path, text) = (shown(&self.path), shown(&self.file));
        let words = &made.steps[not.number - 1].words;
        let place = not.refused.place.map(|place| format!(", at {place}"));
        let line = format!(
            "{path}: change {}, {words}, cannot be made: {}{} (refused {}); `dezghuri undo {text}` \
             takes the last one back",
            not.number,
            not.why,
            place.unwrap_or_default(),
            not.refused.refusal.number()
        );
        Some(Failure::Refused(line, not.refused))
    }

    /// One more change at the end; `known` is the cluster of the text.
    pub fn push(&mut self, known: &Description, entry: Entry) -> Result<(), Failure> {
        let before = file::fields(&self.entries).len();
        self.entries.push(entry);
        let (_, changes) = zones::numbered(known, &self.entries);
        let entry = self.entries.last_mut().expect("it was pushed");
        entry.change = *changes.last().expect("there are as many");
        let room = LONGEST.saturating_sub(file::LAST_BYTES + before);
        let Some(bytes) = entry.to_bytes().filter(|bytes| bytes.len() <= room) else {
            return Err(self.too_long());
        };
        entry.byte = before + bytes.len() - entry.change.to_field().len();
        Ok(())
    }

    /// Takes the last change away.
    pub fn pop(&mut self) {
        self.entries.pop();
    }

    fn too_long(&self) -> Failure {
        let what = format!("{}: this is too long to be staged", shown(&self.path));
        Failure::bad(what)
    }

    /// The file of what is staged, written with the changes as they are here.
    pub fn output(&self) -> Result<Output, Failure> {
        self.output_of(file::whole(&file::fields(&self.entries)))
    }

    /// The file of what is staged, written with the sums of the text and of the one that the changes
    /// lead to; and the same file removed.
    pub fn sealed(&self, text: &[u8]) -> Result<(Output, Removal), Failure> {
        let bytes = file::sealed(&file::fields(&self.entries), Sums::new(&self.text, text));
        let removal = Removal::later(&self.path, Kind::Staged, bytes.clone());
        Ok((self.output_of(bytes)?, removal))
    }

    /// Boxes that were staged before version 0.6.0 grow by their ceilings: what would be too long to be
    /// read again is not written.
    fn output_of(&self, bytes: Vec<u8>) -> Result<Output, Failure> {
        if bytes.len() > LONGEST {
            return Err(self.too_long());
        }
        let output = Output::new(&self.path, Kind::Staged, bytes)?;
        output.stands_on(self.found.as_deref())?;
        Ok(output)
    }

    /// The file of what is staged, removed; nothing where there is none.
    pub fn removal(&self) -> Result<Option<Removal>, Failure> {
        let removal = |bytes: &Vec<u8>| Removal::new(&self.path, Kind::Staged, bytes.clone());
        self.found.as_ref().map(removal).transpose()
    }

    /// How many changes are staged, in words.
    pub fn count(&self) -> String {
        count(self.entries.len() as u64, "staged change", "staged changes")
    }
}

/// The bytes of a text file and of what is staged for it. A call that only reads has no lock, and an
/// `apply` may come between the two: what was read beside a text that stayed as it was belongs to it.
fn read_both(file: &Path, path: &Path) -> Result<(Vec<u8>, Option<Vec<u8>>), Failure> {
    loop {
        let text = files::read_text(file)?;
        let found = files::read_beside(path, LONGEST, Kind::Staged.name());
        if files::read_text(file)? == text {
            return Ok((text, found?));
        }
    }
}

/// A change that is no new box has no words with it.
pub fn plain(change: Change) -> Entry {
    Entry {
        byte: 0,
        change,
        zone: None,
        name: None,
    }
}
