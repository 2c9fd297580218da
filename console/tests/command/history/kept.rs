//! What is written into the history, under which names, and where it cannot be.

use super::*;
use crate::folder::NOW;
use std::ffi::OsStr;
use std::os::unix::ffi::OsStrExt;
use std::os::unix::fs::{symlink, PermissionsExt};
use std::process::Command;

/// Of 4 and 8 GB 3,750 and 7,500 MB may be filled. Box 3 can take all 4 partitions and the other two 4
/// together: at 1,875 MB each takes two. After box 2 is replaced nothing but its two copies is sent.
#[test]
fn each_layout_has_a_line() {
    let folder = three_versions("lines");
    let boxes = [
        "1:shop:4000:-,2:shop:4000:-,3:home:8000:-",
        "1:shop:4000:-,3:home:8000:-,4:attic:4000:-",
    ];
    let [old, new] = [SHOP, NEXT].map(|text| sum(text.as_bytes()));
    let first = sum(&folder.read("first"));
    let [second, third] = ["last.old", "last"].map(|name| sum(&folder.read(name)));
    let expected = [
        format!(
            "1 first {first} - - {old} 1875 8 finished 2 1 2 {}",
            boxes[0]
        ),
        format!(
            "2 last {second} {first} - {new} 1875 2 finished 2 1 2 {}",
            boxes[1]
        ),
        format!(
            "3 last {third} {second} {second} {new} 1875 0 finished 2 1 2 {}",
            boxes[1]
        ),
    ];
    let with_check = |line: &String| {
        let line = format!("2026-11-17T21:23:02Z {line}");
        format!("{line} {}", sum(line.as_bytes()))
    };
    let expected: Vec<String> = expected.iter().map(with_check).collect();
    let found = lines(&folder);
    assert_eq!(found[0], "dezghuri history 1");
    assert_eq!(found[1..], expected);
    let names = ["first", "last", "last.old", "shop.txt", "shop.txt.history"];
    assert_eq!(folder.names(), names);
}

/// A word of the last line, counted from 1 on as in the document.
fn word(folder: &Folder, number: usize) -> String {
    let lines = lines(folder);
    let mut words = lines.last().expect("a line").split(' ');
    words.nth(number - 1).expect("a word").into()
}

#[test]
fn staged_changes_and_ceilings_are_kept() {
    let folder = shop("words");
    folder.write("shop.txt", format!("{SHOP}ceiling 1 3\n"));
    done(&folder, "plan shop.txt --out first");
    done(&folder, "stage shop.txt add 7 my:attic 4G --ceiling 1");
    done(&folder, "stage shop.txt remove 2");
    done(&folder, "plan shop.txt --staged --former first --out last");
    let text = sum(&folder.read("shop.txt"));
    assert_eq!(word(&folder, 7), format!("{text}+2"));
    assert_eq!(
        word(&folder, 14),
        "1:shop:4000:3,3:home:8000:-,7:my%3Aattic:4000:1"
    );
}

/// Names are seen from the folder of the text file, wherever the command is called, and are those of
/// files and not of links.
#[test]
fn layouts_are_named_from_the_folder_of_the_text() {
    let folder = shop("names");
    for sub in ["sub", "sub/deep", "aside"] {
        fs::create_dir(folder.path(sub)).unwrap();
    }
    folder.write("sub/shop.txt", SHOP);
    let named = |line: &str, name: &str| {
        done(&folder, line);
        let history = fs::read_to_string(folder.path("sub/shop.txt.history")).unwrap();
        let last = history.lines().last().unwrap().split(' ').nth(2).unwrap();
        assert_eq!(last, name, "{line}");
    };
    named("plan sub/shop.txt --out sub/last", "last");
    named(
        "plan sub/../sub/shop.txt --out ./sub/deep/last",
        "deep/last",
    );
    let aside = folder.path("aside/last");
    let aside = aside.canonicalize().unwrap_or(aside);
    named(
        "plan sub/shop.txt --out aside/last",
        aside.to_str().unwrap(),
    );
    folder.write("sub/shop.txt", NEXT);
    symlink("last", folder.path("sub/link")).unwrap();
    named("plan sub/shop.txt --out sub/link --replace", "last");
    // Told as the owner may call it from here. The layout beside is the very same one, and newer.
    let told = "sub/deep/last is version 3 of 2026-11-17; the newest is version 4, sub/last";
    warned(&folder, "show sub/shop.txt sub/deep/last", told);
    let out = done(&folder, "history sub/shop.txt").out;
    assert!(out.contains("  sub/deep/last  "), "{out}");
}

#[test]
fn any_name_is_one_word() {
    let folder = shop("any-name");
    let name = OsStr::from_bytes(b"my \xff\n%layout");
    let status = Command::new(env!("CARGO_BIN_EXE_dezghuri"))
        .current_dir(folder.path("."))
        .args(["plan", "shop.txt", "--out"])
        .arg(name)
        .output()
        .expect("it is built")
        .status;
    assert!(status.success());
    assert_eq!(word(&folder, 3), "my%20%FF%0A%25layout");
    assert_eq!(lines(&folder).len(), 2);
    assert_eq!(of_each(&folder, "state"), [r#""here""#]);
}

/// The date is that of the clock, where no other one is given, or one that is no number.
#[test]
fn the_date_is_that_of_the_clock() {
    let folder = shop("clock");
    let now = || {
        let printed = Command::new("date")
            .args(["-u", "+%Y-%m-%dT%H:%M:%SZ"])
            .output();
        String::from_utf8(printed.expect("it is there").stdout)
            .unwrap()
            .trim()
            .to_string()
    };
    for clock in ["", "soon"] {
        let before = now();
        let done = folder.call_at("plan shop.txt --out last --replace", clock);
        assert_eq!(done.status, 0, "{}", done.err);
        let date = word(&folder, 1);
        assert!(before <= date && date <= now(), "{date}");
    }
    folder.call_at("plan shop.txt --out last --replace", NOW);
    assert_eq!(word(&folder, 1), "2026-11-17T21:23:02Z");
    folder.call_at("plan shop.txt --out last --replace", "18446744073709551615");
    assert_eq!(word(&folder, 1), "9999-12-31T23:59:59Z");
}

/// Each call reads the history that the one before it has left.
#[test]
fn layouts_that_are_written_at_once_have_a_line_each() {
    let folder = shop("at-once");
    let lines = (1..=12).map(|number| format!("plan shop.txt --out layout-{number}"));
    let lines: Vec<String> = lines.collect();
    for done in folder.call_at_once(&lines) {
        assert_eq!((done.status, done.err.as_str()), (0, ""));
    }
    let versions: Vec<String> = (1..=12).map(|version| version.to_string()).collect();
    assert_eq!(of_each(&folder, "version"), versions);
    let states = of_each(&folder, "state");
    assert!(
        states.iter().all(|state| state == r#""here""#),
        "{states:?}"
    );
}

/// A plan that is refused, or not printed, has no line.
#[test]
fn what_is_not_written_has_no_line() {
    let folder = shop("no-line");
    folder.write("taken", SHOP);
    for line in [
        "plan shop.txt",
        "plan shop.txt --out taken",
        "plan shop.txt --out no/such",
    ] {
        folder.call(line);
        assert_eq!(folder.names(), ["shop.txt", "taken"], "{line}");
    }
    folder.call_closed("plan shop.txt --out last", ">");
    assert_eq!(folder.names(), ["shop.txt", "taken"]);
}

/// What stands in the place of a history and is none is left as it is; the layout is written.
#[test]
fn another_file_is_not_added_to() {
    let folder = shop("other-file");
    let not = "shop.txt.history: not written: it cannot be read; last stands in no history\n";
    for other in [&b"What I did in May.\n"[..], &[0; 60]] {
        folder.write("shop.txt.history", other);
        let done = folder.call("plan shop.txt --out last --replace");
        let none =
            "shop.txt.history: this is not a history of layouts, and is left as it is; move it \
                    away, and a new one begins\n";
        let told = format!("warning: {none}warning: {not}");
        assert_eq!((done.status, done.err, done.notes.as_str()), (0, told, ""));
        assert_eq!(folder.read("shop.txt.history"), other);
        let failed = folder.call("history shop.txt");
        assert_eq!((failed.status, failed.err.as_str()), (2, none));
    }
}

#[test]
fn what_is_no_file_is_not_added_to() {
    let folder = shop("no-file");
    let path = folder.path("shop.txt.history");
    let planned = |what: &str| {
        let done = folder.call("plan shop.txt --out last --replace");
        let told = format!(
            "warning: shop.txt.history: {what}\nwarning: shop.txt.history: not written: it cannot be \
             read; last stands in no history\n"
        );
        assert_eq!((done.status, done.err, done.notes.as_str()), (0, told, ""));
    };
    fs::create_dir(&path).unwrap();
    planned("there is something there that is not a file");
    fs::remove_dir(&path).unwrap();
    symlink("nowhere", &path).unwrap();
    planned("it is a link to a file that is not there");
    assert!(!folder.path("nowhere").exists());
}

#[test]
fn a_read_only_history_is_not_added_to() {
    let folder = three_versions("read-only");
    let before = lines(&folder);
    let path = folder.path("shop.txt.history");
    fs::set_permissions(&path, fs::Permissions::from_mode(0o444)).unwrap();
    let told = "shop.txt.history: not written: it is read-only; next stands in no history";
    warned(&folder, "plan shop.txt --former last --out next", told);
    assert_eq!(lines(&folder), before);
    let object = read(&folder.call("plan shop.txt --out next --replace --json").out);
    assert_eq!(object.get("history"), &Value::Null);
}

/// That no more fits is known only when the line is written; the layout, which is shorter, is written all
/// the same. A line that was begun is told, and the next one is whole.
#[test]
fn a_history_that_cannot_grow_costs_no_plan() {
    let folder = three_versions("no-room");
    while folder.read("shop.txt.history").len() < 1_024 {
        done(&folder, "plan shop.txt --former last --out last");
    }
    let planned = folder.shell("trap '' XFSZ; ulimit -f 1; exec \"$0\" plan shop.txt --out next");
    let told =
        "warning: shop.txt.history: not written: File too large (os error 27); next stands in \
                no history\n";
    assert_eq!((planned.status, planned.err.as_str()), (0, told));
    assert!(
        planned.out.ends_with("Written to next.\n"),
        "{}",
        planned.out
    );
    let told =
        "shop.txt.history does not know next: whether it is whole and the newest is not known";
    warned(&folder, "plan shop.txt --former next --out next", told);
    quiet(&folder, "plan shop.txt --former next");
}

/// With eight letters more the name would be too long; a stream has no name to which any could be added.
#[test]
fn a_text_beside_which_nothing_can_stand_is_planned() {
    let folder = shop("no-name");
    let name = "s".repeat(250);
    folder.write(&name, SHOP);
    let planned = folder.call(&format!("plan {name} --out last"));
    let long = format!("{name}.history");
    let told = format!(
        "warning: {long}: File name too long (os error 36)\nwarning: {long}: not written: it cannot \
         be read; last stands in no history\n"
    );
    assert_eq!((planned.status, planned.err), (0, told));
    for (line, name) in [
        ("\"$0\" plan /dev/stdin --out piped <shop.txt", "piped"),
        ("cat shop.txt | \"$0\" plan /dev/stdin --out file", "file"),
    ] {
        let planned = folder.shell(line);
        let told = format!(
            "warning: /dev/stdin.history: not written: its text is a stream; {name} stands in no \
             history\n"
        );
        assert_eq!((planned.status, planned.err), (0, told));
    }
    let checked = folder.shell("\"$0\" check /dev/stdin piped <shop.txt");
    assert_eq!((checked.status, checked.err.as_str()), (0, ""));
}

#[test]
fn the_history_is_no_place_for_a_layout_and_no_text() {
    let folder = shop("place");
    for line in [
        "plan shop.txt --out shop.txt.history",
        "plan shop.txt --out ./shop.txt.history",
    ] {
        let done = folder.call(line);
        let told = format!(
            "dezghuri: --out {} would take the place of the history\n",
            &line[20..]
        );
        assert_eq!(done.status, 2);
        assert!(done.err.starts_with(&told), "{}", done.err);
        assert_eq!(folder.names(), ["shop.txt"]);
    }
    done(&folder, "plan shop.txt --out last");
    let told = "shop.txt.history: this is the history of a text file; name that file\n";
    assert_eq!(folder.call("plan shop.txt.history").err, told);
}
