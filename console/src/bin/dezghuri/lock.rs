//! The folders that a call writes in, locked from before it first reads until all is written: of calls
//! at once that write in one folder, each reads what the one before it has left.

use crate::begun;
use crate::failure::Failure;
use crate::output::folder_of;
use crate::terminal::{escaped, shown};
use std::fs::{self, File, Metadata, TryLockError};
use std::io;
use std::os::unix::fs::MetadataExt;
use std::path::{Path, PathBuf};
use std::thread;
use std::time::{Duration, Instant};

/// How long a call waits for others.
const PATIENCE: Duration = Duration::from_secs(10);

/// How long it waits until it asks again.
const PAUSE: Duration = Duration::from_millis(20);

/// Folders that are locked as long as this lives. What is locked is the open folder itself: there is no
/// file to be left behind, and with the process its locks go too.
pub struct Lock {
    _held: Vec<File>,
}

impl Lock {
    /// Locks the folders of files that will be written, and of what they lead to where they are links.
    /// One that cannot be locked goes to the warnings, and so does what was left over in those that are.
    pub fn take(files: &[PathBuf], warnings: &mut Vec<String>) -> Result<Lock, Failure> {
        let mut folders: Vec<Folder> = files.iter().flat_map(|file| folders(file)).collect();
        // In one order for all, so that no two calls wait for each other.
        folders.sort_by_key(|folder| folder.identity);
        folders.dedup_by_key(|folder| folder.identity);
        let until = Instant::now() + PATIENCE;
        let mut held = Vec::new();
        for folder in &folders {
            match folder.lock(until) {
                Ok(Some(file)) => {
                    warnings.extend(begun::remove_left_over(&folder.path));
                    held.push(file);
                }
                Ok(None) => return Err(folder.held()),
                Err(error) => warnings.push(folder.unlocked(&error)),
            }
        }
        Ok(Lock { _held: held })
    }
}

/// A folder that is to be locked.
struct Folder {
    path: PathBuf,
    /// The file that will be written, as the owner calls it.
    file: PathBuf,
    /// Device and inode: a folder may have several names.
    identity: (u64, u64),
}

/// The folder of the file's name, and that of what the name leads to. One that is not there is told
/// by whoever writes.
fn folders(file: &Path) -> impl Iterator<Item = Folder> + '_ {
    let target = fs::canonicalize(file).ok();
    let paths = [
        Some(folder_of(file).into()),
        target.map(|target| folder_of(&target).into()),
    ];
    paths.into_iter().flatten().filter_map(|path: PathBuf| {
        let there = fs::metadata(&path).ok().filter(Metadata::is_dir)?;
        let identity = (there.dev(), there.ino());
        Some(Folder {
            path,
            file: file.into(),
            identity,
        })
    })
}

impl Folder {
    /// The locked folder; none where another holds it all the time.
    fn lock(&self, until: Instant) -> io::Result<Option<File>> {
        let file = File::open(&self.path)?;
        loop {
            match file.try_lock() {
                Ok(()) => return Ok(Some(file)),
                Err(TryLockError::Error(error)) => return Err(error),
                Err(TryLockError::WouldBlock) if Instant::now() >= until => return Ok(None),
                Err(TryLockError::WouldBlock) => thread::sleep(PAUSE),
            }
        }
    }

    fn held(&self) -> Failure {
        let holder = fs::read_to_string("/proc/locks")
            .ok()
            .and_then(|locks| holder(&locks, self.identity));
        let holder = match holder {
            Some(process) => in_words(process),
            None => "another call of dezghuri".into(),
        };
        Failure::bad(format!(
            "{}: not written: after {} seconds of waiting its folder is still locked by {holder}; \
             call again once that has ended",
            shown(&self.file),
            PATIENCE.as_secs()
        ))
    }

    fn unlocked(&self, error: &io::Error) -> String {
        format!(
            "{}: its folder cannot be locked ({error}): let no other call write there meanwhile",
            shown(&self.file)
        )
    }
}

/// The process that holds the folder, by the system's list of locks. Some file systems have other
/// numbers for their devices there: then the inode alone tells, if it is that of one lock only.
fn holder(locks: &str, (device, inode): (u64, u64)) -> Option<u32> {
    let lock = |line: &str| -> Option<(u32, String)> {
        let words: Vec<&str> = line.split_whitespace().collect();
        let (device, of) = words.get(5)?.rsplit_once(':')?;
        let is_this = words[1] == "FLOCK" && of.parse() == Ok(inode);
        let process = words[4].parse().ok()?;
        is_this.then(|| (process, device.into()))
    };
    let locks: Vec<(u32, String)> = locks.lines().filter_map(lock).collect();
    let device = device_in_locks(device);
    match locks.iter().find(|(_, of)| *of == device) {
        Some((process, _)) => Some(*process),
        None => match locks[..] {
            [(process, _)] => Some(process),
            _ => None,
        },
    }
}

/// A device as the list of locks writes it.
fn device_in_locks(device: u64) -> String {
    let major = (device >> 8 & 0xfff) | (device >> 32 & 0xffff_f000);
    let minor = (device & 0xff) | (device >> 12 & 0xffff_ff00);
    format!("{major:02x}:{minor:02x}")
}

/// The process and the words that it was called with, as far as they can be had and printed.
fn in_words(process: u32) -> String {
    let words = fs::read(format!("/proc/{process}/cmdline")).unwrap_or_default();
    let words = String::from_utf8_lossy(&words).replace('\0', " ");
    let words = escaped(words.trim_end());
    match &words[..] {
        "" => format!("process {process}"),
        words => format!("process {process} ({words})"),
    }
}

#[cfg(test)]
mod tests {
    use super::*;

    /// A lock that is waited for has an arrow.
    const LOCKS: &str = "\
1: POSIX  ADVISORY  WRITE 11 fe:00:77 0 EOF
2: FLOCK  ADVISORY  WRITE 12 08:01:77 0 EOF
2: -> FLOCK  ADVISORY  WRITE 13 fe:00:77 0 EOF
3: FLOCK  ADVISORY  READ 14 fe:00:77 0 EOF
4: FLOCK  ADVISORY  WRITE 15 fe:00:78 0 EOF
5: FLOCK  ADVISORY  WRITE 16 00:2a:79 0 EOF
6: FLOCK  ADVISORY  WRITE 17 00:2b:79 0 EOF
";

    #[test]
    fn the_holder_is_found_in_the_list_of_locks() {
        assert_eq!(holder(LOCKS, (0xfe00, 77)), Some(14));
        assert_eq!(holder(LOCKS, (0x0801, 77)), Some(12));
        assert_eq!(holder(LOCKS, (0xfe00, 80)), None);
        assert_eq!(holder("", (0xfe00, 77)), None);
    }

    #[test]
    fn a_device_of_another_number_is_no_obstacle_where_the_inode_tells() {
        assert_eq!(holder(LOCKS, (0x2c, 78)), Some(15));
        assert_eq!(holder(LOCKS, (0x2c, 79)), None);
        assert_eq!(holder(LOCKS, (0x2b, 79)), Some(17));
    }

    /// Twelve bits of the major number stand above eight of the minor one, and the rest of both higher up.
    #[test]
    fn devices_have_two_numbers() {
        assert_eq!(device_in_locks(0xfe00), "fe:00");
        assert_eq!(device_in_locks(0x0000_1000_0010_3045), "1030:145");
    }
}
