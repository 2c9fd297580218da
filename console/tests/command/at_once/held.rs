//! Folders that another process has locked, or that cannot be locked.

use super::shop;
use crate::folder::{Done, Folder};
use crate::read_json::{read, Value};
use std::fs::{self, File, TryLockError};
use std::io::{ErrorKind, Write};
use std::os::fd::OwnedFd;
use std::os::unix::fs::symlink;
use std::os::unix::net::UnixStream;
use std::process::{Child, Stdio};
use std::thread::sleep;
use std::time::{Duration, Instant};

/// Calls that write, each with the first file that it writes in the folder.
const WRITING: [(&str, &str); 8] = [
    ("stage shop.txt remove 1", "shop.txt"),
    ("stage shop.txt resize 3 8T --json", "shop.txt"),
    ("undo shop.txt", "shop.txt"),
    ("apply shop.txt", "shop.txt"),
    ("plan shop.txt --out next", "shop.txt"),
    ("plan shop.txt --former last --out last", "shop.txt"),
    ("report shop.txt --out page.html", "page.html"),
    ("record shop.txt --out record", "record"),
];

const READING: [&str; 9] = [
    "stage shop.txt",
    "plan shop.txt",
    "plan shop.txt --staged --former last",
    "check shop.txt last",
    "show shop.txt last",
    "loss shop.txt last",
    "diff shop.txt last last",
    "what-if shop.txt --remove 1",
    "record shop.txt",
];

/// A shop with a layout and a staged change.
fn full_shop(name: &str) -> Folder {
    let folder = shop(name);
    for line in ["plan shop.txt --out last", "stage shop.txt resize 2 4T"] {
        assert_eq!(folder.call(line).status, 0);
    }
    folder
}

/// A stream that takes no byte more; it is open as long as both ends live.
fn full_stream() -> (UnixStream, OwnedFd) {
    let (reader, mut writer) = UnixStream::pair().unwrap();
    writer.set_nonblocking(true).unwrap();
    let full = loop {
        if let Err(error) = writer.write(&[0; 4096]) {
            break error.kind();
        }
    };
    assert_eq!(full, ErrorKind::WouldBlock);
    writer.set_nonblocking(false).unwrap();
    (reader, writer.into())
}

/// Starts a call that cannot print, and so holds its lock; and waits until it does.
fn start_held(folder: &Folder, line: &str, out: OwnedFd) -> Child {
    let child = folder.start(line, Stdio::from(out));
    let is_locked = || {
        let file = File::open(folder.path(".")).unwrap();
        matches!(file.try_lock(), Err(TryLockError::WouldBlock))
    };
    let began = Instant::now();
    while !is_locked() {
        assert!(began.elapsed() < Duration::from_secs(8), "it takes no lock");
        sleep(Duration::from_millis(50));
    }
    child
}

/// All that is in the folder.
fn contents(folder: &Folder) -> Vec<(String, Vec<u8>)> {
    let names = folder.names().into_iter();
    names
        .map(|name| (name.clone(), folder.read(&name)))
        .collect()
}

/// A call that cannot go on holds its folder: others that write wait ten seconds and name it, those that
/// read do not wait. Once it is killed, nothing is in the way.
#[test]
fn who_holds_the_folder_is_named() {
    let folder = full_shop("held");
    let before = contents(&folder);
    let (_reader, writer) = full_stream();
    let mut holder = start_held(&folder, "plan shop.txt --former last --out last", writer);
    let began = Instant::now();
    for line in READING {
        assert_eq!(folder.call(line).status, 0, "{line}");
    }
    assert!(began.elapsed() < Duration::from_secs(8));
    let lines = WRITING.map(|(line, _)| String::from(line));
    let done = folder.call_at_once(&lines);
    assert!(began.elapsed() >= Duration::from_secs(10));
    let by = format!("locked by process {} (", holder.id());
    let with = "dezghuri plan shop.txt --former last --out last)";
    for ((line, file), done) in WRITING.iter().zip(&done) {
        let told =
            format!("{file}: not written: after 10 seconds of waiting its folder is still {by}");
        assert_eq!(done.status, 2, "{line}");
        assert!(done.err.starts_with(&told), "{line}: {}", done.err);
        let end = format!("{with}; call again once that has ended\n");
        assert!(done.err.ends_with(&end), "{line}: {}", done.err);
        in_object(done, line.ends_with("--json"));
    }
    holder.kill().unwrap();
    holder.wait().unwrap();
    assert!(contents(&folder) == before);
    for (line, _) in WRITING {
        assert_eq!(folder.call(line).status, 0, "{line}");
    }
}

/// What is told stands in the object too, where one is asked for.
fn in_object(done: &Done, is_object: bool) {
    if !is_object {
        assert_eq!(done.out, "");
        return;
    }
    let object = read(&done.out);
    let told = Value::Text(done.err.trim_end().into());
    assert_eq!(object.get("error").get("lines").list(), [told]);
}

/// The folder that a link leads to is locked by a process that is no call of the command.
#[test]
fn a_link_leads_to_a_folder_that_is_locked() {
    let folder = full_shop("held-link");
    fs::create_dir(folder.path("far")).unwrap();
    fs::rename(folder.path("last"), folder.path("far/last")).unwrap();
    symlink("far/last", folder.path("last")).unwrap();
    let far = File::open(folder.path("far")).unwrap();
    far.lock().unwrap();
    let done = folder.call("plan shop.txt --former last --out last");
    let told =
        "last: not written: after 10 seconds of waiting its folder is still locked by process ";
    let process = format!("{told}{} (", std::process::id());
    assert_eq!((done.status, done.out.as_str()), (2, ""));
    assert!(done.err.starts_with(&process), "{}", done.err);
    drop(far);
    let done = folder.call("plan shop.txt --former last --out last");
    assert_eq!((done.status, done.err.as_str()), (0, ""));
    assert!(folder.path("far/last.old").exists());
}
