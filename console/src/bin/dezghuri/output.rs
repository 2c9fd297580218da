//! The file that a call writes: what may stand there, and how none of it is lost.

mod kept;

use crate::before;
use crate::begun;
use crate::failure::Failure;
use crate::files;
use crate::json::Json;
use crate::report;
use crate::sheet;
use crate::staged;
use crate::terminal::shown;
use dezghuri::{ffi, Cluster, Description, Plan};
pub use kept::old_of;
use std::fs::{self, File, Metadata, OpenOptions};
use std::io::{self, ErrorKind, Read, Write};
use std::os::unix::fs::{fchown, MetadataExt, OpenOptionsExt, PermissionsExt};
use std::path::{Path, PathBuf};
use std::time::SystemTime;

/// The files that are written; only one of the same kind is ever replaced.
#[derive(Clone, Copy, Debug, PartialEq, Eq)]
pub enum Kind {
    Layout,
    Cluster,
    Page,
    /// The prices of a certificate.
    Certificate,
    /// The owner's text file.
    Text,
    Staged,
}

impl Kind {
    /// The words for a file of this kind.
    pub fn name(self) -> &'static str {
        match self {
            Kind::Layout => "layout record",
            Kind::Cluster => "cluster record",
            Kind::Page => "report page",
            Kind::Certificate => "certificate",
            Kind::Text => "cluster description",
            Kind::Staged => "file of staged changes",
        }
    }

    fn is_of(self, bytes: &[u8]) -> bool {
        match self {
            Kind::Layout => Plan::from_record(bytes).is_ok(),
            Kind::Cluster => is_cluster_record(bytes),
            Kind::Page => report::is_page(bytes),
            Kind::Certificate => sheet::is_certificate(bytes),
            Kind::Text => Description::parse(bytes).is_ok(),
            Kind::Staged => staged::is_staged(bytes),
        }
    }

    /// Whether a replaced one is kept. Of what is staged each change can be taken back by itself.
    fn is_kept(self) -> bool {
        self != Kind::Staged
    }

    /// What is longer than this is no file of this kind.
    fn longest(self) -> u64 {
        match self {
            Kind::Layout | Kind::Cluster => ffi::CLUSTER_RECORD_BYTES as u64,
            Kind::Page => report::LONGEST_PAGE,
            Kind::Certificate => sheet::LONGEST_CERTIFICATE,
            Kind::Text => files::LONGEST_TEXT,
            Kind::Staged => staged::LONGEST as u64,
        }
    }
}

/// Whether the bytes are a cluster record, of this version or of one before 0.6.0.
fn is_cluster_record(bytes: &[u8]) -> bool {
    let is_record = |bytes: &[u8]| Cluster::from_record(bytes).is_ok();
    is_record(bytes) || before::record_with_ceilings(bytes).is_some_and(|bytes| is_record(&bytes))
}

/// A record or page to be written, and what stands in its place.
pub struct Output {
    /// As the owner calls it.
    path: PathBuf,
    kind: Kind,
    bytes: Vec<u8>,
    found: Option<Found>,
}

/// A record of the right kind that may be replaced.
#[derive(PartialEq, Eq)]
struct Found {
    /// What the name leads to, where it is a link: the link stays.
    target: PathBuf,
    bytes: Vec<u8>,
    mode: u32,
    owner: (u32, u32),
    modified: Option<SystemTime>,
}

impl Output {
    /// Looks at the place; refused where what stands there must not be replaced.
    pub fn new(path: &Path, kind: Kind, bytes: Vec<u8>) -> Result<Output, Failure> {
        let found = look(path, kind).map_err(|error| not_written(path, &error))?;
        if let Some(found) = found.as_ref().filter(|_| kind.is_kept()) {
            let old = old_of(&found.target);
            look_at_old(&old, kind).map_err(|error| not_written(&old, &error))?;
        }
        Ok(Output {
            path: path.into(),
            kind,
            bytes,
            found,
        })
    }

    /// An error unless these bytes stand there: what is to be written was made from them.
    pub fn stands_on(&self, bytes: Option<&[u8]>) -> Result<(), Failure> {
        match self.replaced() == bytes {
            true => Ok(()),
            false => Err(not_written(&self.path, &changed_meanwhile())),
        }
    }

    /// Whether a record stands there already.
    pub fn replaces(&self) -> bool {
        self.found.is_some()
    }

    /// The record that stands there.
    pub fn replaced(&self) -> Option<&[u8]> {
        self.found.as_ref().map(|found| &found.bytes[..])
    }

    /// As the owner calls it.
    pub fn path(&self) -> &Path {
        &self.path
    }

    /// Where the record that stands there is kept once it is replaced.
    pub fn old(&self) -> PathBuf {
        match &self.found {
            Some(found) => old_of(&found.target),
            None => old_of(&self.path),
        }
    }

    /// Where it goes, and where the one that it replaces is kept.
    pub fn json(&self) -> Json {
        let old = self.old();
        let kept = self.replaces().then_some(old.as_path());
        Json::Object(vec![
            ("path", self.path.as_path().into()),
            ("kept_as", kept.into()),
        ])
    }

    /// Writes the record; what to say of it. Whatever fails, power included, at every instant the
    /// one record or the other stands whole under the name.
    pub fn write(&self) -> Result<String, Failure> {
        let moved = self
            .put()
            .map_err(|error| not_written(&self.path, &error))?;
        let mut told = format!("Written to {}.\n", shown(&self.path));
        if self.found.is_some() && self.kind.is_kept() {
            told += &kept::in_words(self.kind.name(), &self.old(), moved);
        }
        Ok(told)
    }

    /// Puts the bytes there; how many older records had to make room for the one that is kept.
    fn put(&self) -> io::Result<u32> {
        match &self.found {
            None => fill_free_name(&self.path, &self.bytes, None).map(|()| 0),
            Some(found) => with_begun(&found.target, &self.bytes, Some(found), |begun| {
                self.replace(found, begun)
            }),
        }
    }

    /// Gives the new file the name, once what has it is kept.
    fn replace(&self, found: &Found, begun: &Path) -> io::Result<u32> {
        if look(&self.path, self.kind)?.as_ref() != Some(found) {
            return Err(changed_meanwhile());
        }
        let moved = match self.kind.is_kept() {
            true => kept::keep(found)?,
            false => 0,
        };
        rename(begun, &found.target)?;
        Ok(moved)
    }
}

/// A file to be removed, as it is then.
pub struct Removal {
    path: PathBuf,
    kind: Kind,
    bytes: Vec<u8>,
}

impl Removal {
    /// Of a file that stands there as it is to be removed.
    pub fn new(path: &Path, kind: Kind, bytes: Vec<u8>) -> Result<Removal, Failure> {
        let removal = Removal::later(path, kind, bytes);
        let found = removal.look();
        found.map_err(|error| not_removed(path, &error))?;
        Ok(removal)
    }

    /// Of a file that will be written before.
    pub fn later(path: &Path, kind: Kind, bytes: Vec<u8>) -> Removal {
        let path = path.into();
        Removal { path, kind, bytes }
    }

    /// What stands there; an error unless it has these bytes and may be removed.
    fn look(&self) -> io::Result<Found> {
        let found = look(&self.path, self.kind)?;
        let found = found.filter(|found| found.bytes == self.bytes);
        found.ok_or_else(changed_meanwhile)
    }

    /// Removes the file, and the link to it where the name is one; what to say of it.
    pub fn remove(&self) -> Result<String, Failure> {
        let removed = self.look().and_then(|found| {
            fs::remove_file(&self.path)?;
            sync_folder(&self.path);
            match found.target == self.path {
                true => Ok(()),
                false => fs::remove_file(&found.target),
            }
        });
        removed.map_err(|error| not_removed(&self.path, &error))?;
        Ok(format!("{} is removed.\n", shown(&self.path)))
    }
}

fn not_removed(path: &Path, error: &io::Error) -> Failure {
    Failure::bad(format!("{}: not removed: {error}", shown(path)))
}

pub fn changed_meanwhile() -> io::Error {
    io::Error::other("it was changed meanwhile")
}

fn made_meanwhile() -> io::Error {
    io::Error::other("it was made meanwhile, and nothing was written over it")
}

/// Only without a lock: who holds it has removed what was left over.
fn in_the_way(begun: &Path) -> io::Error {
    io::Error::other(format!(
        "{} is in the way: remove it if no other call is writing",
        shown(begun)
    ))
}

fn not_written(path: &Path, error: &io::Error) -> Failure {
    Failure::bad(format!("{}: not written: {error}", shown(path)))
}

/// What stands at the place: nothing, or a record of the kind that may be replaced.
fn look(path: &Path, kind: Kind) -> io::Result<Option<Found>> {
    let is_link = match fs::symlink_metadata(path) {
        Ok(there) => there.is_symlink(),
        Err(error) if error.kind() == ErrorKind::NotFound => {
            fs::metadata(folder_of(path))?;
            return Ok(None);
        }
        Err(error) => return Err(error),
    };
    let there = fs::metadata(path).map_err(|error| match error.kind() {
        ErrorKind::NotFound => io::Error::other("it is a link to a file that is not there"),
        _ => error,
    })?;
    let bytes = read_record(path, &there, kind)?;
    // Root may write every file, so the mode is asked first and the system then.
    if there.permissions().readonly() {
        return Err(io::Error::other("it is read-only"));
    }
    OpenOptions::new().write(true).open(path)?;
    Ok(Some(Found {
        target: match is_link {
            true => fs::canonicalize(path)?,
            false => path.into(),
        },
        bytes,
        mode: there.mode() & 0o7777,
        owner: (there.uid(), there.gid()),
        modified: there.modified().ok(),
    }))
}

/// The bytes of a record of the kind; anything else that stands there is an error.
fn read_record(path: &Path, there: &Metadata, kind: Kind) -> io::Result<Vec<u8>> {
    if !there.is_file() {
        return Err(io::Error::other(
            "there is something there that is not a file",
        ));
    }
    let mut bytes = Vec::new();
    File::open(path)?
        .take(kind.longest() + 1)
        .read_to_end(&mut bytes)?;
    match kind.is_of(&bytes) {
        true => Ok(bytes),
        false => Err(io::Error::other(format!(
            "there is a file there that is not a {}, and nothing else is replaced",
            kind.name()
        ))),
    }
}

/// An error where something else than a record has the name of an old one.
fn look_at_old(old: &Path, kind: Kind) -> io::Result<()> {
    match fs::symlink_metadata(old) {
        Ok(there) => read_record(old, &there, kind).map(drop),
        Err(error) if error.kind() == ErrorKind::NotFound => Ok(()),
        Err(error) => Err(error),
    }
}

/// A file of this name with these bytes, where there is none; what was made there meanwhile stays.
fn fill_free_name(path: &Path, bytes: &[u8], like: Option<&Found>) -> io::Result<()> {
    with_begun(path, bytes, like, |begun| {
        // A second name is never given where there is a file; then the first one goes.
        match fs::hard_link(begun, path) {
            Ok(()) => {
                sync_folder(path);
                // It is all there. What is left over the next call removes.
                let _ = fs::remove_file(begun);
                Ok(())
            }
            Err(error) if error.kind() == ErrorKind::AlreadyExists => Err(made_meanwhile()),
            // Not every file system gives a file two names.
            Err(_) if fs::symlink_metadata(path).is_ok() => Err(made_meanwhile()),
            Err(_) => rename(begun, path),
        }
    })
}

/// Renames a file, so that it lasts.
fn rename(from: &Path, to: &Path) -> io::Result<()> {
    fs::rename(from, to)?;
    sync_folder(to);
    Ok(())
}

/// Writes a new file beside the target and hands it over; where that fails, none is left.
fn with_begun<T>(
    target: &Path,
    bytes: &[u8],
    like: Option<&Found>,
    put: impl FnOnce(&Path) -> io::Result<T>,
) -> io::Result<T> {
    let begun = begun::name_for(target)?;
    write_new(&begun, bytes, like).map_err(|error| match error.kind() {
        ErrorKind::AlreadyExists => in_the_way(&begun),
        _ => error,
    })?;
    let put = put(&begun);
    if put.is_err() {
        // The first error is the one to tell.
        let _ = fs::remove_file(&begun);
    }
    put
}

/// A new file with these bytes, as open to others as the one found; where it fails, none is left.
fn write_new(path: &Path, bytes: &[u8], like: Option<&Found>) -> io::Result<()> {
    let mode = like.map_or(0o666, |_| 0o600);
    let mut options = OpenOptions::new();
    let mut file = options.write(true).create_new(true).mode(mode).open(path)?;
    let filled = fill(&mut file, bytes, like);
    if filled.is_err() {
        let _ = fs::remove_file(path);
    }
    filled
}

fn fill(file: &mut File, bytes: &[u8], like: Option<&Found>) -> io::Result<()> {
    file.write_all(bytes)?;
    if let Some(like) = like {
        // Only root may give a file away; for others it is theirs already.
        let _ = fchown(&*file, Some(like.owner.0), Some(like.owner.1));
        file.set_permissions(fs::Permissions::from_mode(like.mode))?;
    }
    file.sync_all()
}

pub fn with_ending(path: &Path, ending: &str) -> PathBuf {
    let mut name = path.as_os_str().to_os_string();
    name.push(ending);
    name.into()
}

/// The folder in which a file has its name.
pub fn folder_of(path: &Path) -> &Path {
    match path.parent() {
        Some(parent) if parent != Path::new("") => parent,
        _ => Path::new("."),
    }
}

/// Makes the names in the folder last through a loss of power, where the file system can.
pub fn sync_folder(path: &Path) {
    let _ = File::open(folder_of(path)).and_then(|folder| folder.sync_all());
}
