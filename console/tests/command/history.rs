//! The history of a text file: what it keeps, and what it tells of layouts.

mod cut_short;
mod damaged;
mod kept;
mod listed;
mod told;

use crate::folder::{Done, Folder};
use crate::read_json::{read, Value};
use crate::THREE;
use std::fs;

/// Three boxes, of which any two may hold a partition.
const SHOP: &str = "copies 2\nzones 1\nbits 2\nbox 1 shop 4G tower\nbox 2 shop 4G\nbox 3 home 8G\n";

/// The same cluster after box 2 was replaced.
const NEXT: &str =
    "copies 2\nzones 1\nbits 2\nbox 1 shop 4G tower\nbox 3 home 8G\nbox 4 attic 4G\n";

fn shop(name: &str) -> Folder {
    let folder = Folder::new(&format!("history-{name}"));
    folder.write("shop.txt", SHOP);
    folder
}

/// The shop with three versions: `first`, then `last`, planned from it after a box was replaced, and
/// `last` planned again.
fn three_versions(name: &str) -> Folder {
    let folder = shop(name);
    done(&folder, "plan shop.txt --out first");
    folder.write("shop.txt", NEXT);
    done(&folder, "plan shop.txt --former first --out last");
    done(&folder, "plan shop.txt --former last --out last");
    folder
}

/// A call that does what it is asked for, without a word of warning.
fn done(folder: &Folder, line: &str) -> Done {
    let done = folder.call(line);
    assert_eq!((done.status, done.err.as_str()), (0, ""), "{line}");
    done
}

/// A call that does what it is asked for with this warning alone.
fn warned(folder: &Folder, line: &str, warning: &str) {
    let done = folder.call(line);
    let told = (done.status, done.err.as_str(), done.notes.as_str());
    assert_eq!(told, (0, &*format!("warning: {warning}\n"), ""), "{line}");
}

/// A call that does what it is asked for with this note alone.
fn noted(folder: &Folder, line: &str, note: &str) {
    let told = done(folder, line).notes;
    assert_eq!(told, format!("note: {note}\n"), "{line}");
}

/// A call that does what it is asked for and has nothing else to say.
fn quiet(folder: &Folder, line: &str) {
    assert_eq!(done(folder, line).notes, "", "{line}");
}

fn copy(folder: &Folder, from: &str, to: &str) {
    fs::copy(folder.path(from), folder.path(to)).expect("both can be had");
}

fn remove(folder: &Folder, file: &str) {
    fs::remove_file(folder.path(file)).expect("it is there");
}

/// The lines of the history of the shop.
fn lines(folder: &Folder) -> Vec<String> {
    let text = String::from_utf8(folder.read("shop.txt.history")).expect("text");
    text.lines().map(String::from).collect()
}

/// What `history` lists.
fn listed(folder: &Folder) -> Value {
    read(&folder.call("history shop.txt --json").out)
}

/// One member of each listed layout.
fn of_each(folder: &Folder, name: &str) -> Vec<String> {
    let listed = listed(folder);
    let layouts = listed.get("layouts").list().iter();
    layouts.map(|layout| layout.get(name).line()).collect()
}

/// A sum of bytes, by the book, in hexadecimal digits.
fn sum(bytes: &[u8]) -> String {
    let mut hash: u64 = 14_695_981_039_346_656_037;
    for byte in bytes {
        hash = (hash ^ u64::from(*byte)).wrapping_mul(1_099_511_628_211);
    }
    format!("{hash:016x}")
}

/// The record with another number of improvements, whose low byte is the 29th: it reads, and is not what
/// was written.
fn with_another_bit(record: &[u8]) -> Vec<u8> {
    let mut record = record.to_vec();
    record[28] ^= 1;
    record
}
