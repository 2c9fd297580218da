//! What may be replaced, and what is kept of it.

use crate::folder::{Folder, Library};
use crate::{one_box, planned_home, size_of, HOME};
use std::fs;
use std::os::unix::fs::{symlink, PermissionsExt};

fn mode(folder: &Folder, file: &str) -> u32 {
    let there = fs::metadata(folder.path(file)).expect("the file is there");
    there.permissions().mode() & 0o7777
}

fn set_mode(folder: &Folder, file: &str, mode: u32) {
    let mode = fs::Permissions::from_mode(mode);
    fs::set_permissions(folder.path(file), mode).expect("it is the test's own file");
}

/// Calls that must leave all as it is, each with what it says.
fn refused(folder: &Folder, line: &str, told: &str) {
    let names = folder.names();
    let before: Vec<_> = names
        .iter()
        .map(|name| fs::read(folder.path(name)).ok())
        .collect();
    let done = folder.call(line);
    assert_eq!(
        (done.status, done.err.as_str(), done.out.as_str()),
        (2, told, ""),
        "{line}"
    );
    assert_eq!(folder.names(), names, "{line}");
    let after: Vec<_> = names
        .iter()
        .map(|name| fs::read(folder.path(name)).ok())
        .collect();
    assert!(before == after, "{line}");
}

#[test]
fn a_forgotten_former_layout_replaces_nothing() {
    let folder = planned_home("forgotten");
    fs::copy(folder.path("last"), folder.path("copy")).unwrap();
    for line in [
        "plan next.txt --out last",
        "plan next.txt --former copy --out last",
    ] {
        refused(&folder, line, include_str!("forgotten.txt"));
    }
}

/// The layout of the sample's boxes as they are next is forced, as that after a replaced box is.
#[test]
fn with_replace_the_old_layout_is_kept() {
    let folder = planned_home("replace");
    let before = folder.read("last");
    let done = folder.call("plan next.txt --out last --replace");
    assert_eq!((done.status, done.err.as_str()), (0, ""));
    assert_eq!(done.out, include_str!("replaced.txt"));
    assert!(folder.read("last.old") == before);
    assert_eq!(folder.call("check next.txt last").status, 0);
    let names = ["home.txt", "home.txt.history", "last", "last.old"];
    let of_next = ["next.txt", "next.txt.history"];
    assert_eq!(folder.names(), [&names[..], &of_next].concat());
}

#[test]
fn the_former_layout_is_replaced_and_kept() {
    let folder = planned_home("former");
    let before = folder.read("last");
    let done = folder.call("plan next.txt --former ./last --out last");
    assert_eq!((done.status, done.err.as_str()), (0, ""));
    let told = "Written to last.\nThe layout record before it is kept as last.old.\n";
    assert!(done.out.ends_with(told), "{}", done.out);
    assert!(folder.read("last.old") == before);
}

/// A plan made twice must not cost the layout that tells where the data is.
#[test]
fn an_older_layout_is_not_lost_either() {
    let folder = planned_home("older");
    let first = folder.read("last");
    assert_eq!(
        folder.call("plan next.txt --former last --out last").status,
        0
    );
    let second = folder.read("last");
    let done = folder.call("plan home.txt --former last.old --out last --replace");
    assert_eq!((done.status, done.err.as_str()), (0, ""));
    let told = "Written to last.\nThe layout record before it is kept as last.old, the one before \
                that as last.old.1.\n";
    assert!(done.out.ends_with(told), "{}", done.out);
    assert!(folder.read("last.old") == second);
    assert!(folder.read("last.old.1") == first);
    // From here on nothing changes any more, and no more names are taken.
    let third = folder.read("last");
    for _ in 0..3 {
        assert_eq!(
            folder.call("plan home.txt --former last --out last").status,
            0
        );
    }
    assert!(folder.read("last") == third);
    assert!(folder.read("last.old") == third);
    assert!(folder.read("last.old.1") == second);
    assert!(folder.read("last.old.2") == first);
    let old = ["last.old", "last.old.1", "last.old.2"];
    let (home, next) = (
        ["home.txt", "home.txt.history", "last"],
        ["next.txt", "next.txt.history"],
    );
    let names = [&home[..], &old, &next];
    assert_eq!(folder.names(), names.concat());
}

/// The sizes of the layouts that have these names, in this order.
fn sizes<const N: usize>(folder: &Folder, names: [&str; N]) -> [u32; N] {
    names.map(|name| size_of(&folder.read(name)))
}

/// Each layout moves on by one name, up to the first that is free; those behind it stay.
#[test]
fn old_layouts_are_kept_by_age() {
    let folder = Folder::new("by-age");
    let plan = |capacity: u32, words: &str| {
        folder.write("home.txt", one_box(capacity));
        let done = folder.call(&format!("plan home.txt --out last {words}"));
        assert_eq!((done.status, done.err.as_str()), (0, ""));
        done.out
    };
    plan(160, "");
    plan(176, "--former last");
    plan(192, "--former last");
    let told =
        "The layout record before it is kept as last.old, the 2 before that as last.old.1 to \
                last.old.2.\n";
    assert!(plan(208, "--former last").ends_with(told));
    let names = ["last", "last.old", "last.old.1", "last.old.2"];
    assert_eq!(sizes(&folder, names), [195, 180, 165, 150]);

    fs::remove_file(folder.path("last.old.1")).unwrap();
    let told = "kept as last.old, the one before that as last.old.1.\n";
    assert!(plan(224, "--replace").ends_with(told));
    assert_eq!(sizes(&folder, names), [210, 195, 180, 150]);

    fs::remove_file(folder.path("last.old")).unwrap();
    assert!(plan(240, "--replace").ends_with("kept as last.old.\n"));
    assert_eq!(sizes(&folder, names), [225, 210, 180, 150]);
    assert_eq!(folder.names_but_histories().len(), names.len() + 1);
}

/// Where no file gets a second name, a copy is kept, and a new file is renamed; nothing else differs.
#[test]
fn without_links_copies_are_kept() {
    let library = Library::new("without-links");
    let folder = planned_home("without-links").without(&library, "links");
    let before = folder.read("last");
    set_mode(&folder, "last", 0o640);
    for line in [
        "plan next.txt --former last --out last",
        "plan home.txt --out new",
    ] {
        let done = folder.call(line);
        assert_eq!((done.status, done.err.as_str()), (0, ""), "{line}");
    }
    assert!(folder.read("last.old") == before);
    assert!(folder.read("new") == before);
    assert_eq!(mode(&folder, "last.old"), 0o640);
    let names = ["home.txt", "last", "last.old", "new", "next.txt"];
    assert_eq!(folder.names_but_histories(), names);
}

#[test]
fn only_a_layout_is_replaced_by_a_layout() {
    let folder = planned_home("kinds");
    folder.write("empty", "");
    folder.write("long", [0; 20_000]);
    assert_eq!(folder.call("record home.txt --out record").status, 0);
    for file in ["next.txt", "empty", "long", "record"] {
        let told = format!(
            "{file}: not written: there is a file there that is not a layout record, and nothing \
             else is replaced\n"
        );
        for line in [
            format!("plan home.txt --out {file}"),
            format!("plan home.txt --out {file} --replace"),
            format!("plan home.txt --former last --out {file} --replace"),
        ] {
            refused(&folder, &line, &told);
        }
    }
}

/// Example A's record as version 0.5.0 wrote it: its boxes have ten bytes.
#[test]
fn a_cluster_record_without_ceilings_is_replaced_and_kept() {
    let folder = Folder::new("records-before");
    folder.write("home.txt", crate::THREE);
    let before = [
        &[1, 0, 1, 1, 2, 0, 1, 3, 3, 0, 1, 2][..],
        &[4, 0, 10, 0, 0, 0, 1, 0, 0, 0, 0, 0, 100],
        &[4, 0, 10, 0, 0, 0, 2, 0, 0, 0, 0, 0, 70],
        &[4, 0, 10, 0, 0, 0, 3, 0, 1, 0, 0, 0, 50],
    ]
    .concat();
    folder.write("record", &before);
    let planned = folder.call("plan --record record");
    assert_eq!((planned.status, planned.out.as_str()), (1, "refused 3\n"));
    assert_eq!(folder.call("record home.txt --out record").status, 0);
    assert_eq!(folder.read("record").len(), 57);
    assert_eq!(folder.read("record.old"), before);
    for other in [&before[..before.len() - 1], &before[1..], &[]] {
        folder.write("other", other);
        let done = folder.call("record home.txt --out other");
        assert_eq!((done.status, folder.read("other")), (2, other.to_vec()));
    }
}

#[test]
fn only_a_cluster_record_is_replaced_by_one() {
    let folder = planned_home("records");
    let told =
        "last: not written: there is a file there that is not a cluster record, and nothing \
                else is replaced\n";
    refused(&folder, "record home.txt --out last", told);
    assert_eq!(folder.call("record home.txt --out record").status, 0);
    let before = folder.read("record");
    let done = folder.call("record next.txt --former last --out record");
    let told = "next.txt makes a cluster record of 4,439 bytes.\nWritten to record.\n\
                The cluster record before it is kept as record.old.\n";
    assert_eq!((done.status, done.out.as_str()), (0, told));
    assert!(folder.read("record.old") == before);
    assert!(folder.read("record").starts_with(&before[..12]));
}

#[test]
fn what_has_the_name_of_an_old_layout_is_not_replaced() {
    let folder = planned_home("old-name");
    folder.write("last.old", HOME);
    let told = "last.old: not written: there is a file there that is not a layout record, and \
                nothing else is replaced\n";
    refused(&folder, "plan next.txt --former last --out last", told);
    fs::remove_file(folder.path("last.old")).unwrap();
    fs::create_dir(folder.path("last.old")).unwrap();
    let told = "last.old: not written: there is something there that is not a file\n";
    refused(&folder, "plan next.txt --former last --out last", told);
}

#[test]
fn the_mode_of_a_replaced_file_is_kept() {
    let folder = planned_home("mode");
    for bits in [0o600, 0o640, 0o664] {
        set_mode(&folder, "last", bits);
        let done = folder.call("plan home.txt --former last --out last");
        assert_eq!(done.status, 0, "{}", done.err);
        assert_eq!(mode(&folder, "last"), bits);
        assert_eq!(mode(&folder, "last.old"), bits);
    }
}

#[test]
fn a_read_only_file_is_not_replaced() {
    let folder = planned_home("read-only");
    for bits in [0o400, 0o444] {
        set_mode(&folder, "last", bits);
        let told = "last: not written: it is read-only\n";
        refused(&folder, "plan home.txt --former last --out last", told);
        refused(&folder, "plan home.txt --out last --replace", told);
        assert_eq!(mode(&folder, "last"), bits);
    }
}

#[test]
fn what_a_link_points_to_is_replaced() {
    let folder = planned_home("link");
    symlink("last", folder.path("link")).unwrap();
    let before = folder.read("last");
    let done = folder.call("plan next.txt --former last --out link");
    assert_eq!((done.status, done.err.as_str()), (0, ""));
    assert!(folder.path("link").is_symlink());
    assert!(folder.read("last") != before);
    assert!(folder.read("last.old") == before);
    let names = ["home.txt", "home.txt.history", "last", "last.old", "link"];
    let of_next = ["next.txt", "next.txt.history"];
    assert_eq!(folder.names(), [&names[..], &of_next].concat());
}

#[test]
fn a_link_to_nothing_is_not_replaced() {
    let folder = planned_home("dangling");
    symlink("nowhere", folder.path("link")).unwrap();
    let told = "link: not written: it is a link to a file that is not there\n";
    refused(&folder, "plan home.txt --out link", told);
    refused(&folder, "plan home.txt --out link --replace", told);
    refused(&folder, "record home.txt --out link", told);
    assert!(folder.path("link").is_symlink());
}
