//! Calls that write at the same time: each comes after another, and what was told as written is there.

mod held;
mod layouts;

use crate::folder::{Done, Folder, Library};
use crate::read_json::{read, Value};
use std::process::Stdio;
use std::thread::sleep;
use std::time::Duration;

/// Three boxes, and room for many more.
const SHOP: &str = "copies 2\nzones 1\nbits 1\nbox 1 home 4T\nbox 2 shop 2T\nbox 3 home 4T\n";

/// A folder with a text file.
fn shop(name: &str) -> Folder {
    let folder = Folder::new(&format!("at-once-{name}"));
    folder.write("shop.txt", SHOP);
    folder
}

/// Calls that each stage one more box, from this id on.
fn stages(first: u32, count: u32) -> Vec<String> {
    let line = |id| format!("stage shop.txt add {id} attic 1T");
    (first..first + count).map(line).collect()
}

/// Whether the call said that it has written; one that has not says who was in its way, and why.
fn is_written(done: &Done) -> bool {
    let has_waited = done.err.contains("its folder is still locked by ");
    assert!(
        done.status == 0 || done.status == 2 && has_waited,
        "{}",
        done.err
    );
    assert_eq!(done.status == 0, done.err.is_empty(), "{}", done.err);
    assert_eq!(
        done.status == 0,
        done.out.contains("\nWritten to "),
        "{}",
        done.out
    );
    done.status == 0
}

/// The calls that said that they have written; there is one at least.
fn written<'a>(lines: &'a [String], done: &[Done]) -> Vec<&'a String> {
    assert_eq!(lines.len(), done.len());
    let both = lines.iter().zip(done).filter(|(_, done)| is_written(done));
    let written: Vec<&String> = both.map(|(line, _)| line).collect();
    assert!(!written.is_empty());
    written
}

fn ids(boxes: &Value) -> Vec<String> {
    let mut ids: Vec<String> = boxes
        .list()
        .iter()
        .map(|item| item.get("id").line())
        .collect();
    ids.sort();
    ids
}

/// The ids of the boxes as they are with all that is staged, sorted.
fn boxes(folder: &Folder) -> Vec<String> {
    ids(read(&folder.call("stage shop.txt --json").out).get("boxes"))
}

/// The ids of the boxes that these calls stage, and those of the text, sorted.
fn boxes_with(staged: &[&String]) -> Vec<String> {
    let id = |line: &&String| line.split(' ').nth(3).expect("an id").to_string();
    let text = ["1", "2", "3"].map(String::from);
    let mut ids: Vec<String> = staged.iter().map(id).chain(text).collect();
    ids.sort();
    ids
}

#[test]
fn every_change_that_was_staged_is_there() {
    let folder = shop("stage");
    let lines = stages(10, 20);
    let done = folder.call_at_once(&lines);
    assert_eq!(boxes(&folder), boxes_with(&written(&lines, &done)));
    assert_eq!(folder.names(), ["shop.txt", "shop.txt.staged"]);
}

/// Each takes another change back, and those that are left are the first ones.
#[test]
fn every_change_is_taken_back_once() {
    let folder = shop("undo");
    let lines = stages(10, 16);
    for line in &lines {
        assert_eq!(folder.call(line).status, 0);
    }
    let undos = vec![String::from("undo shop.txt"); 9];
    let done = folder.call_at_once(&undos);
    let taken = written(&undos, &done).len();
    let left: Vec<&String> = lines.iter().take(16 - taken).collect();
    assert_eq!(boxes(&folder), boxes_with(&left));
    let first_line = |done: &Done| done.out.lines().next().map(String::from);
    let mut told: Vec<String> = done.iter().filter_map(first_line).collect();
    told.sort();
    told.dedup();
    assert_eq!(told.len(), taken);
}

/// Whatever the order: a change is applied or still staged, and is in one of the two once.
#[test]
fn what_is_staged_while_it_is_applied_is_not_lost() {
    let folder = shop("apply");
    let (before, during) = (stages(10, 4), stages(20, 8));
    for line in &before {
        assert_eq!(folder.call(line).status, 0);
    }
    let mut lines = during;
    lines.insert(4, "apply shop.txt".into());
    let done = folder.call_at_once(&lines);
    let mut all = written(&lines, &done);
    let is_applied = all.iter().any(|line| line.starts_with("apply"));
    all.retain(|line| line.starts_with("stage"));
    all.extend(&before);
    assert_eq!(boxes(&folder), boxes_with(&all));
    let text = String::from_utf8(folder.read("shop.txt")).unwrap();
    for line in &before {
        let id = line.split(' ').nth(3).unwrap();
        assert_eq!(
            text.contains(&format!("box {id} attic")),
            is_applied,
            "{text}"
        );
    }
    assert_eq!(folder.path("shop.txt.old").exists(), is_applied);
}

/// Who only reads waits for nobody, and sees each change once, staged or in the text: also where all is
/// applied between its look at the one and at the other.
#[test]
fn whoever_reads_while_all_is_applied_sees_all() {
    let folder = shop("apply-read");
    let before = stages(10, 4);
    for line in &before {
        assert_eq!(folder.call(line).status, 0);
    }
    let slow = folder.without(&Library::new("at-once-apply-read"), "speed");
    let reader = slow.start("stage shop.txt --json", Stdio::piped());
    sleep(Duration::from_millis(300));
    assert_eq!(folder.call("apply shop.txt").status, 0);
    let done = Done::from(reader.wait_with_output().unwrap());
    assert_eq!((done.status, done.err.as_str()), (0, ""));
    let expected = boxes_with(&before.iter().collect::<Vec<_>>());
    assert_eq!(ids(read(&done.out).get("boxes")), expected);
}
