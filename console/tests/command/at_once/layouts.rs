//! Layouts, pages and cluster records that are written at once, to one name.

use super::{is_written, written};
use crate::folder::{Done, Folder, Library};
use crate::{one_box, size_of};
use std::fs::{self, File};
use std::thread::{sleep, spawn};
use std::time::Duration;

/// How many calls there are at once.
const CALLS: u32 = 12;

/// The size that the layout of text number N has.
fn size(number: u32) -> u32 {
    150 + 15 * number
}

/// A folder with a text for each call; each leads to another layout, page and record.
fn shops(name: &str) -> Folder {
    let folder = Folder::new(&format!("at-once-{name}"));
    for number in 0..CALLS {
        folder.write(&format!("{number}.txt"), one_box(160 + 16 * number));
    }
    folder
}

/// The line for each text, which is named N in it.
fn lines(line: &str) -> Vec<String> {
    let line = |number: u32| line.replace('N', &number.to_string());
    (0..CALLS).map(line).collect()
}

/// The number of the text that a call is about.
fn number(line: &str) -> u32 {
    let text = line.split(' ').find_map(|word| word.strip_suffix(".txt"));
    text.and_then(|text| text.parse().ok()).expect("a text")
}

/// The bytes of the file of this name and of all that it replaced.
fn all_of(folder: &Folder, name: &str) -> Vec<Vec<u8>> {
    let is_one = |other: &String| *other == name || other.starts_with(&format!("{name}.old"));
    let names = folder.names().into_iter().filter(is_one);
    names.map(|name| folder.read(&name)).collect()
}

/// Why a call does not take a new name.
const NOT_TAKEN: [&str; 3] = [
    ": not written: there is a layout already. ",
    ": not written: it was made meanwhile, and nothing was written over it",
    ": not written: after 10 seconds of waiting its folder is still locked by process ",
];

/// One call takes the new name, and its layout is there; each of the others says that it is taken.
fn one_takes_the_name(folder: &Folder, lines: &[String], done: &[Done]) {
    let (written, refused): (Vec<_>, Vec<_>) = lines
        .iter()
        .zip(done)
        .partition(|(_, done)| done.status == 0);
    let [(line, _)] = written[..] else {
        panic!("{} calls took the name", written.len());
    };
    assert_eq!(size_of(&folder.read("last")), size(number(line)));
    for (line, done) in refused {
        let told = done.err.lines().last().unwrap_or_default();
        let is_told = NOT_TAKEN.iter().any(|why| told.contains(why));
        assert!(done.status == 2 && is_told, "{line}: {}", done.err);
        assert!(!done.out.contains("Written"), "{line}: {}", done.out);
    }
    assert_eq!(all_of(folder, "last").len(), 1);
}

#[test]
fn a_new_name_is_taken_once() {
    let folder = shops("new");
    let lines = lines("plan N.txt --out last");
    let done = folder.call_at_once(&lines);
    one_takes_the_name(&folder, &lines, &done);
    // The layout, and the history of its text.
    assert_eq!(folder.names().len(), 2 + CALLS as usize);
}

/// Without locks the name is taken by a link, which one call alone can make; each tells that there are none.
#[test]
fn a_new_name_is_taken_once_without_locks_too() {
    let library = Library::new("at-once-new-without");
    let lines = lines("plan N.txt --out last");
    for _ in 0..5 {
        let folder = shops("new-without").without(&library, "locks");
        let done = folder.call_at_once(&lines);
        one_takes_the_name(&folder, &lines, &done);
        for (line, done) in lines.iter().zip(&done) {
            let told =
                "txt: its folder cannot be locked (Operation not supported (os error 95)): let no \
                        other call write there meanwhile\n";
            assert_eq!(done.err.matches(told).count(), 1, "{line}: {}", done.err);
        }
        assert_eq!(folder.names_but_histories().len(), 1 + CALLS as usize);
    }
}

/// Each layout that was written is there, under the name or as an old one, and no other.
#[test]
fn every_layout_that_was_replaced_is_kept() {
    let folder = shops("replaced");
    assert_eq!(folder.call("plan 0.txt --out last").status, 0);
    let first = folder.read("last");
    let lines = lines("plan N.txt --former last --out last");
    let done = folder.call_at_once(&lines);
    let written = written(&lines, &done);
    let mut sizes: Vec<u32> = written.iter().map(|line| size(number(line))).collect();
    sizes.push(size_of(&first));
    sizes.sort();
    let mut found: Vec<u32> = all_of(&folder, "last")
        .iter()
        .map(|it| size_of(it))
        .collect();
    found.sort();
    assert_eq!(found, sizes);
}

/// What the line writes of each text by itself, once each.
fn alone(name: &str, line: &str, out: &str) -> Vec<Vec<u8>> {
    let folder = shops(name);
    let alone = |line: &String| {
        assert_eq!(folder.call(line).status, 0, "{line}");
        let bytes = folder.read(out);
        fs::remove_file(folder.path(out)).unwrap();
        bytes
    };
    lines(line).iter().map(alone).collect()
}

/// Each file that was written is there, under the name or as an old one, and no other.
fn every_one_is_kept(name: &str, line: &str, out: &str) {
    let alone = alone(&format!("{name}-alone"), line, out);
    let folder = shops(name);
    let done = folder.call_at_once(&lines(line));
    let written = alone
        .into_iter()
        .zip(&done)
        .filter(|(_, done)| is_written(done));
    let mut written: Vec<Vec<u8>> = written.map(|(bytes, _)| bytes).collect();
    written.sort();
    let mut found = all_of(&folder, out);
    found.sort();
    assert!(!found.is_empty() && found == written, "{out}");
}

#[test]
fn every_page_and_every_record_is_kept() {
    every_one_is_kept("page", "report N.txt --out page.html", "page.html");
    every_one_is_kept("record", "record N.txt --out record", "record");
}

/// Two folders are locked in one order, whichever is named first: no call waits for one that waits for
/// it. All are at their first lock or their second when the folder is free.
#[test]
fn calls_that_write_in_two_folders_go_on() {
    let folder = Folder::new("at-once-folders");
    for place in ["a", "b"] {
        fs::create_dir(folder.path(place)).unwrap();
        folder.write(&format!("{place}/{place}.txt"), one_box(160));
    }
    let held = File::open(folder.path("b")).unwrap();
    held.lock().unwrap();
    let free = spawn(move || {
        sleep(Duration::from_millis(500));
        held.unlock().unwrap();
    });
    let line = |number: u32| match number {
        0 => "plan a/a.txt --out b/0".into(),
        _ => format!("plan b/b.txt --out a/{number}"),
    };
    let lines: Vec<String> = (0..CALLS).map(line).collect();
    let done = folder.call_at_once(&lines);
    free.join().unwrap();
    let told: Vec<&str> = done.iter().map(|done| done.err.as_str()).collect();
    assert_eq!(told, [""; CALLS as usize]);
}
