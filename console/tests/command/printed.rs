//! A report that cannot be printed.

use crate::folder::{Done, Folder};
use crate::planned_home;
use std::fs::OpenOptions;
use std::os::fd::OwnedFd;
use std::os::unix::net::UnixStream;
use std::process::Stdio;

/// A file that is always full.
fn full() -> Stdio {
    let full = OpenOptions::new().write(true).open("/dev/full");
    full.expect("Linux has it").into()
}

/// An output whose reader has gone away.
fn deserted() -> Stdio {
    let (ours, theirs) = UnixStream::pair().expect("a pair of sockets");
    drop(theirs);
    OwnedFd::from(ours).into()
}

/// The call with each output that cannot be printed to, and why it cannot.
fn unprinted(folder: &Folder, line: &str) -> [(Done, &'static str); 3] {
    [
        (
            folder.call_into(line, full()),
            "No space left on device (os error 28)",
        ),
        (
            folder.call_into(line, deserted()),
            "Broken pipe (os error 32)",
        ),
        (folder.call_closed(line, ">"), "standard output is closed"),
    ]
}

#[test]
fn without_its_report_no_layout_is_written() {
    let folder = planned_home("unprinted");
    let before = folder.read("last");
    for line in [
        "plan next.txt --former last --out last",
        "plan next.txt --out last --replace",
        "plan next.txt --former last --out next",
        "record next.txt --former last --out record",
    ] {
        for (done, why) in unprinted(&folder, line) {
            let told = format!("not printed, so nothing was written: {why}\n");
            assert_eq!((done.status, done.err), (2, told), "{line}");
            assert!(folder.read("last") == before, "{line}");
            let names = ["home.txt", "home.txt.history", "last", "next.txt"];
            assert_eq!(folder.names(), names, "{line}");
        }
    }
}

#[test]
fn what_is_not_printed_ends_with_status_2() {
    let folder = planned_home("unprinted-others");
    for line in [
        "plan home.txt",
        "check home.txt last",
        "show home.txt last",
        "show home.txt last 7",
        "loss home.txt last",
        "loss home.txt last --json",
        "record home.txt",
        "help",
        "--version",
    ] {
        for (done, why) in unprinted(&folder, line) {
            let told = format!("not printed: {why}\n");
            assert_eq!((done.status, done.err), (2, told), "{line}");
        }
    }
}

/// What is thrown away is printed all the same.
#[test]
fn the_output_may_be_thrown_away() {
    let folder = planned_home("thrown-away");
    let away = || OpenOptions::new().read(true).write(true).open("/dev/null");
    for away in [Stdio::null(), away().expect("Linux has it").into()] {
        let done = folder.call_into("plan next.txt --former last --out last", away);
        assert_eq!((done.status, done.err.as_str()), (0, ""));
    }
}

/// Messages that cannot be told leave the status as it is.
#[test]
fn a_fault_that_nobody_hears_keeps_its_status() {
    let folder = planned_home("unheard");
    for (line, status) in [
        ("plan nowhere.txt", 2),
        ("check next.txt last", 1),
        ("plan home.txt --speed 7", 2),
    ] {
        assert_eq!(folder.call_closed(line, "2>").status, status, "{line}");
        let line = format!("{line} 2>/dev/full");
        assert_eq!(folder.call_closed(&line, "3>").status, status, "{line}");
    }
}
