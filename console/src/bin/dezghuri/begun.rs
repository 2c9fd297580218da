//! Files that a call begins beside those that it writes, and what a call that was cut short leaves of
//! them.

use crate::output::with_ending;
use crate::terminal::shown;
use std::ffi::OsStr;
use std::fs;
use std::io::{self, ErrorKind};
use std::os::unix::ffi::OsStrExt;
use std::path::{Path, PathBuf};

/// How their names end; no owner names a file so.
const ENDING: &str = ".dezghuri-new";

/// The name for a file that takes the other name once it is whole.
pub fn name_for(target: &Path) -> io::Result<PathBuf> {
    let Some(_) = target.file_name() else {
        return Err(io::Error::other("this names no file"));
    };
    let ending = format!(".{}{ENDING}", std::process::id());
    Ok(with_ending(target, &ending))
}

/// Whether [`name_for`] makes such a name, in a process of whatever number.
fn is_begun(name: &OsStr) -> bool {
    let name = name.as_bytes().strip_suffix(ENDING.as_bytes());
    let mut parts = name.unwrap_or_default().rsplitn(2, |byte| *byte == b'.');
    let number = parts.next().unwrap_or_default();
    let target = parts.next().unwrap_or_default();
    !target.is_empty() && !number.is_empty() && number.iter().all(u8::is_ascii_digit)
}

/// Removes what calls that were cut short have left in a folder; what to say of it. Only who holds the
/// lock of the folder may do so: what is begun there by a call that goes on is not left over.
pub fn remove_left_over(folder: &Path) -> Vec<String> {
    let entries = fs::read_dir(folder).into_iter().flatten().flatten();
    let begun = entries.filter(|entry| is_begun(&entry.file_name()));
    let mut files: Vec<PathBuf> = begun
        .filter(|entry| entry.file_type().is_ok_and(|kind| kind.is_file()))
        .map(|entry| entry.path())
        .collect();
    files.sort();
    files.iter().filter_map(|file| removed(file)).collect()
}

/// Removes the file; what to say of it.
fn removed(file: &Path) -> Option<String> {
    let end = match fs::remove_file(file) {
        Ok(()) => "removed".into(),
        Err(error) if error.kind() == ErrorKind::NotFound => return None,
        Err(error) => format!("it cannot be removed: {error}"),
    };
    // In the folder that the owner is in, its name is enough.
    let file = shown(file.strip_prefix(".").unwrap_or(file));
    Some(format!("{file}: left by a call that was cut short; {end}"))
}

#[cfg(test)]
mod tests {
    use super::*;

    #[test]
    fn only_names_that_are_made_for_it_are_left_over() {
        let made = name_for(Path::new("here/shop.txt")).unwrap();
        assert!(is_begun(made.file_name().unwrap()));
        for name in [
            "x.1.dezghuri-new",
            "x.old.4711.dezghuri-new",
            "..7.dezghuri-new",
        ] {
            assert!(is_begun(OsStr::new(name)), "{name}");
        }
        for name in [
            "dezghuri-new",
            ".dezghuri-new",
            "7.dezghuri-new",
            ".7.dezghuri-new",
            "x.dezghuri-new",
            "x..dezghuri-new",
            "x.7a.dezghuri-new",
            "x.7.dezghuri-new.old",
            "x.7.new",
            "shop.txt",
        ] {
            assert!(!is_begun(OsStr::new(name)), "{name}");
        }
        assert!(name_for(Path::new("here/..")).is_err());
    }
}
