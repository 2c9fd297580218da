//! What stands in the place of the files, and what is kept of it.

use super::{changes, done, fails, shop, staged_shop, whole, CHANGES, FILE};
use crate::folder::Folder;
use std::fs;
use std::os::unix::fs::{symlink, PermissionsExt};

fn mode(folder: &Folder, file: &str) -> u32 {
    let there = fs::metadata(folder.path(file)).expect("the file is there");
    there.permissions().mode() & 0o7777
}

fn set_mode(folder: &Folder, file: &str, mode: u32) {
    let mode = fs::Permissions::from_mode(mode);
    fs::set_permissions(folder.path(file), mode).expect("it is the test's own file");
}

#[test]
fn a_read_only_file_is_not_replaced() {
    let folder = staged_shop("read-only");
    set_mode(&folder, "shop.txt", 0o444);
    let told = "shop.txt: not written: it is read-only";
    fails(&folder, "apply shop.txt", 2, told);
    done(&folder, "stage shop.txt resize 1 8T");
    done(&folder, "undo shop.txt");
    set_mode(&folder, "shop.txt", 0o644);
    set_mode(&folder, "shop.txt.staged", 0o444);
    let told = "shop.txt.staged: not written: it is read-only";
    for line in ["stage shop.txt remove 1", "undo shop.txt", "apply shop.txt"] {
        fails(&folder, line, 2, told);
    }
    folder.write("other", whole(&changes()[..33]));
    fs::rename(folder.path("other"), folder.path("shop.txt.staged")).unwrap();
    set_mode(&folder, "shop.txt.staged", 0o444);
    let told = "shop.txt.staged: not removed: it is read-only";
    fails(&folder, "undo shop.txt", 2, told);
    set_mode(&folder, "shop.txt.staged", 0o644);
    done(&folder, "undo shop.txt");
}

#[test]
fn modes_are_kept() {
    let folder = staged_shop("modes");
    set_mode(&folder, "shop.txt", 0o640);
    set_mode(&folder, "shop.txt.staged", 0o600);
    done(&folder, "stage shop.txt resize 1 8T");
    assert_eq!(mode(&folder, "shop.txt.staged"), 0o600);
    done(&folder, "apply shop.txt");
    assert_eq!(mode(&folder, "shop.txt"), 0o640);
    assert_eq!(mode(&folder, "shop.txt.old"), 0o640);
}

#[test]
fn what_is_no_file_of_staged_changes_is_not_replaced() {
    let folder = shop("directory");
    fs::create_dir(folder.path("shop.txt.staged")).unwrap();
    let told = "shop.txt.staged: there is something there that is not a file";
    for line in [
        "stage shop.txt",
        CHANGES[0],
        "undo shop.txt",
        "apply shop.txt",
        "plan shop.txt --staged",
    ] {
        fails(&folder, line, 2, told);
    }
    fs::remove_dir(folder.path("shop.txt.staged")).unwrap();
    symlink("nowhere", folder.path("shop.txt.staged")).unwrap();
    let told = "shop.txt.staged: it is a link to a file that is not there";
    fails(&folder, CHANGES[0], 2, told);
    fails(&folder, "stage shop.txt", 2, told);
}

#[test]
fn what_has_the_name_of_the_old_text_is_not_replaced() {
    let folder = staged_shop("old-name");
    folder.write("shop.txt.old", "dear diary");
    let told =
        "shop.txt.old: not written: there is a file there that is not a cluster description, \
                and nothing else is replaced";
    fails(&folder, "apply shop.txt", 2, told);
}

#[test]
fn what_links_point_to_is_replaced() {
    let folder = shop("links");
    fs::rename(folder.path("shop.txt"), folder.path("real.txt")).unwrap();
    symlink("real.txt", folder.path("shop.txt")).unwrap();
    for line in CHANGES {
        done(&folder, line);
    }
    done(&folder, "apply shop.txt");
    assert!(folder.path("shop.txt").is_symlink());
    assert_eq!(folder.names(), ["real.txt", "real.txt.old", "shop.txt"]);
    assert_eq!(folder.read("real.txt.old"), FILE.as_bytes());

    done(&folder, "stage shop.txt remove 1");
    fs::rename(folder.path("shop.txt.staged"), folder.path("staged")).unwrap();
    symlink("staged", folder.path("shop.txt.staged")).unwrap();
    done(&folder, "stage shop.txt remove 3");
    assert!(folder.path("shop.txt.staged").is_symlink());
    done(&folder, "undo shop.txt");
    done(&folder, "undo shop.txt");
    assert_eq!(folder.names(), ["real.txt", "real.txt.old", "shop.txt"]);
}

#[test]
fn what_is_staged_is_no_text() {
    let folder = staged_shop("no-text");
    let told = "shop.txt.staged: this is what is staged for a text file; name that file";
    fails(&folder, "stage shop.txt.staged", 2, told);
    fails(&folder, "plan shop.txt.staged", 2, told);
}

#[test]
fn files_that_were_begun_are_not_left() {
    let folder = staged_shop("no-rest");
    done(&folder, "undo shop.txt");
    assert_eq!(folder.names(), ["shop.txt", "shop.txt.staged"]);
}
