//! Files that were replaced, kept by age: NAME.old is the newest, NAME.old.1 the one before it, and on.

use super::{fill_free_name, sync_folder, with_ending, Found};
use crate::terminal::shown;
use std::fs;
use std::io::{self, ErrorKind};
use std::os::unix::fs::PermissionsExt;
use std::path::{Path, PathBuf};

/// The name for a file that is replaced.
pub fn old_of(path: &Path) -> PathBuf {
    with_ending(path, ".old")
}

/// The name for the one that is older by so many.
fn older(old: &Path, by: u32) -> PathBuf {
    match by {
        0 => old.into(),
        by => with_ending(old, &format!(".{by}")),
    }
}

/// Gives the file that is to be replaced its second name; how many older ones made room for it. One
/// that holds the same bytes need not.
pub fn keep(found: &Found) -> io::Result<u32> {
    let old = old_of(&found.target);
    let moved = match fs::read(&old) {
        Ok(bytes) if bytes == found.bytes => {
            // As open to others as the one that is replaced, where that can be.
            let _ = fs::set_permissions(&old, fs::Permissions::from_mode(found.mode));
            return Ok(0);
        }
        Err(error) if error.kind() == ErrorKind::NotFound => 0,
        _ => make_room(&old)?,
    };
    // Not every file system gives a file two names; a copy serves as well.
    fs::hard_link(&found.target, &old)
        .or_else(|_| fill_free_name(&old, &found.bytes, Some(found)))?;
    sync_folder(&old);
    Ok(moved)
}

/// Moves files on by one name each, beginning at the first gap, until this name is free; how many.
/// Each takes a name that is free: a loss of power leaves a gap, and all of them in their order.
fn make_room(old: &Path) -> io::Result<u32> {
    let is_free = |by: &u32| fs::symlink_metadata(older(old, *by)).is_err();
    let gap = (1..u32::MAX).find(is_free);
    let gap = gap.ok_or_else(|| io::Error::other("too many old ones are kept"))?;
    for by in (0..gap).rev() {
        fs::rename(older(old, by), older(old, by + 1))?;
    }
    Ok(gap)
}

/// Where the replaced file is kept, and where those are that made room.
pub fn in_words(kind: &str, old: &Path, moved: u32) -> String {
    let told = format!("The {kind} before it is kept as {}", shown(old));
    let first = older(old, 1);
    let first = shown(&first);
    match moved {
        0 => told + ".\n",
        1 => format!("{told}, the one before that as {first}.\n"),
        moved => {
            let last = older(old, moved);
            format!(
                "{told}, the {moved} before that as {first} to {}.\n",
                shown(&last)
            )
        }
    }
}
