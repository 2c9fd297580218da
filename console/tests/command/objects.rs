//! What `--json` prints: one object, whatever happens.

use crate::compared::two_layouts;
use crate::folder::{layout_record, Done, Folder};
use crate::read_json::{read, Value};
use crate::schema;
use crate::tried::{two_boxes, CHANGES};
use crate::{planned_home, THREE};
use std::fs::File;
use std::process::Command;

/// Example E of the paper: both partitions lie on box 2 and have to move to box 1, whose half takes
/// 5 MB; 14 MB for two copies let hope for 7. Box 1 then costs both partitions, with or without box 2.
fn moving(name: &str) -> Folder {
    let folder = Folder::new(name);
    folder.write(
        "home.txt",
        "copies 1\nzones 1\nbits 1\nbox 1 a 10 big\nbox 2 a 4\n",
    );
    folder.write("last", layout_record(1, 2, &[&[2], &[2]]));
    folder
}

/// A call whose object is the stored one; nothing else is said.
fn prints(folder: &Folder, words: &[&str], stored: &str) {
    let done = folder.call_words(words);
    assert_eq!((done.status, done.err.as_str()), (0, ""));
    assert_eq!(done.out, stored);
    read(&done.out);
}

fn words(line: &str) -> Vec<&str> {
    line.split_whitespace().collect()
}

#[test]
fn a_plan_is_an_object() {
    let folder = moving("object-plan");
    let line = "plan home.txt --former last --out last --json";
    prints(&folder, &words(line), include_str!("plan.json"));
    assert_eq!(
        folder.names(),
        ["home.txt", "home.txt.history", "last", "last.old"]
    );
}

/// The rows, boxes and losses of a plan are those of its text.
#[test]
fn a_plan_after_a_loss_is_an_object() {
    let folder = planned_home("object-loss");
    let done = folder.call("plan next.txt --former last --json");
    assert_eq!((done.status, done.err.as_str()), (0, ""));
    let object = read(&done.out);
    assert_eq!(object.get("rows").list().len(), 256);
    assert_eq!(object.get("gone").line(), "154");
    assert_eq!(
        object.get("gone_boxes").line(),
        r#"[{"copies":154,"id":5}]"#
    );
    assert_eq!(object.get("sent").line(), "198");
    assert_eq!(object.get("sent_mb").line(), "3867138");
    assert_eq!(object.get("out"), &Value::Null);
    let small = "copies 1\nzones 1\nbits 1\nbox 1 a 9\nbox 2 a 9\n";
    folder.write("small.txt", small);
    folder.write("lost", layout_record(1, 4, &[&[7, 8], &[1, 8]]));
    let object = read(&folder.call("plan small.txt --former lost --json").out);
    assert_eq!(object.get("lost").line(), "[0]");
    assert_eq!(object.get("at_risk").line(), "[1]");
}

#[test]
fn a_check_is_an_object() {
    let folder = moving("object-check");
    let good = words("check home.txt last --json");
    prints(&folder, &good, include_str!("check.json"));
    folder.write("last", layout_record(1, 3, &[&[2], &[2]]));
    let done = folder.call("check home.txt last --json");
    let told =
        "not valid: box 2 is to hold 2 copies of 3 MB, 6 MB together, and has 4 MB (refused \
                12)\n";
    assert_eq!((done.status, done.err.as_str()), (1, told));
    assert_eq!(done.out, include_str!("check-not.json"));
}

#[test]
fn what_is_shown_is_an_object() {
    let folder = two_layouts("object-show");
    for (line, stored) in [
        ("show home.txt old --json", include_str!("show.json")),
        (
            "show home.txt old 1 --json",
            include_str!("show-partition.json"),
        ),
        (
            "show home.txt old --box 3 --json",
            include_str!("show-box.json"),
        ),
        (
            "show home.txt old --all --json",
            include_str!("show-all.json"),
        ),
    ] {
        prints(&folder, &words(line), stored);
    }
}

#[test]
fn a_comparison_is_an_object() {
    let folder = two_layouts("object-diff");
    let line = "diff home.txt old new --json";
    prints(&folder, &words(line), include_str!("diff.json"));
}

#[test]
fn tried_changes_are_an_object() {
    let folder = two_boxes("object-tried");
    let line = ["what-if", "home.txt", "--former", "last", "--json"];
    let line = [&line, &CHANGES[..]].concat();
    prints(&folder, &line, include_str!("what-if.json"));
    let done = folder.call("what-if home.txt --remove 1 --remove 2 --json");
    assert_eq!(done.status, 1);
    let object = read(&done.out);
    let last = object.get("lines").list().last().unwrap();
    assert_eq!(last.get("refusal").line(), "9");
    assert_eq!(last.get("sent"), &Value::Null);
    let done = folder.call("what-if home.txt --ceiling 1=1 --json");
    let object = read(&done.out);
    let last = object.get("lines").list().last().unwrap();
    let change = r#"{"ceiling":1,"id":1,"kind":"ceiling"}"#;
    assert_eq!(last.get("change").line(), change);
    assert_eq!(last.get("size_mb").line(), "2");
}

#[test]
fn every_name_is_in_the_document() {
    let document = include_str!("../../../docs/FORMATS.md");
    let (_, document) = document.split_once("## The objects of `--json`").unwrap();
    let names = schema::names();
    assert!(names.len() > 50, "{names:?}");
    for name in names {
        assert!(document.contains(&format!("`{name}`")), "{name}");
    }
}

fn error_of(done: &Done) -> String {
    read(&done.out).get("error").line()
}

/// The lines of an error are those of standard error, and the status is the exit status.
#[test]
fn errors_are_objects_too() {
    let folder = planned_home("object-error");
    folder.write("none.txt", THREE.replace("zones 2", "zones 3"));
    folder.write("bad.txt", "copies 9\nzones 1\nbox 1 a 5\n");
    for (line, command, status, refusal) in [
        ("plan none.txt --json", "\"plan\"", 1, "9"),
        ("plan bad.txt --json", "\"plan\"", 2, "null"),
        ("check home.txt nowhere --json", "\"check\"", 2, "null"),
        ("plan home.txt --json --out last", "\"plan\"", 2, "null"),
        ("diff home.txt last --json", "\"diff\"", 2, "null"),
        ("plam home.txt --json", "null", 2, "null"),
        ("record home.txt --json", "\"record\"", 2, "null"),
    ] {
        let done = folder.call(line);
        assert_eq!(done.status, status, "{line}");
        assert_eq!(read(&done.out).get("command").line(), command, "{line}");
        let told: Vec<Value> = done.err.lines().map(|l| Value::Text(l.into())).collect();
        let lines = Value::List(told).line();
        let expected = format!(r#"{{"lines":{lines},"refusal":{refusal},"status":{status}}}"#);
        assert_eq!(error_of(&done), expected, "{line}");
    }
}

#[test]
fn warnings_are_in_the_object_and_told() {
    let folder = Folder::new("object-warning");
    folder.write(
        "home.txt",
        "copies 1\nzones 1\nbox 1 home 5T\nbox 2 hmoe 5T\n",
    );
    let done = folder.call("plan home.txt --json");
    let warning =
        "home.txt, line 4: zone 'hmoe' is nearly 'home' of line 3: if they are one, write \
                   it one way";
    assert_eq!(
        (done.status, done.err),
        (0, format!("warning: {warning}\n"))
    );
    let object = read(&done.out);
    assert_eq!(object.get("warnings").list(), [Value::Text(warning.into())]);
}

/// An object that cannot be printed is an error as a text is, and nothing is written.
#[test]
fn an_object_that_is_not_printed_is_told() {
    let folder = moving("object-unprinted");
    let full = || File::options().write(true).open("/dev/full").unwrap();
    let line = "plan home.txt --former last --out next --json";
    let done = folder.call_into(line, full().into());
    let told = "not printed, so nothing was written: No space left on device (os error 28)\n";
    assert_eq!((done.status, done.err.as_str()), (2, told));
    assert_eq!(folder.names(), ["home.txt", "last"]);
    let done = folder.call_closed("plan nowhere.txt --json", ">");
    let told = "nowhere.txt: No such file or directory (os error 2)\nnot printed: standard output \
                is closed\n";
    assert_eq!((done.status, done.err.as_str()), (2, told));
}

/// Python's own reader and writer come to the same values.
#[test]
fn another_program_reads_the_objects() {
    let program =
        "import json, sys\nprint(json.dumps(json.load(open(sys.argv[1], encoding='utf-8')), \
                   sort_keys=True, separators=(',', ':')))";
    if Command::new("python3").arg("--version").output().is_err() {
        eprintln!("python3 is missing: the objects are read by the tests' own reader only");
        return;
    }
    let folder = two_layouts("object-python");
    folder.write(
        "b\u{fc}ro.txt",
        "copies 1\nzones 1\nbits 0\nbox 1 b\u{fc}ro 5 \"the\\ \u{1f5c4}\n",
    );
    for line in [
        "show home.txt old --json",
        "diff home.txt old new --json",
        "loss home.txt old --json",
        "plan home.txt --former old --json",
        "plan b\u{fc}ro.txt --json",
        "plan nowhere\u{fc} --json",
        "what-if home.txt --former old --remove 2 --remove 3 --json",
        "stage home.txt add 77 b\u{fc}ro 4T \"the\\ --json",
        "stage home.txt --json",
        "apply home.txt --json",
        "undo home.txt --json",
        "history home.txt --json",
    ] {
        let done = folder.call(line);
        folder.write("object", &done.out);
        let read_back = Command::new("python3")
            .args(["-c", program])
            .arg(folder.path("object"))
            .output()
            .expect("it is there");
        let told = String::from_utf8_lossy(&read_back.stderr);
        assert!(read_back.status.success(), "{line}: {told}");
        let dumped = String::from_utf8(read_back.stdout).unwrap();
        assert_eq!(dumped.trim_end(), read(&done.out).line(), "{line}");
    }
}
