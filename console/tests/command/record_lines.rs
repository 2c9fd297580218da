//! `plan --record`: the lines of the program `plan`, with an exit status.

use crate::folder::Folder;
use std::fs;
use std::path::{Path, PathBuf};

/// The stored runs of the program `plan`.
fn samples() -> PathBuf {
    Path::new(env!("CARGO_MANIFEST_DIR")).join("../samples/plan")
}

/// The names of all stored records.
fn names() -> Vec<String> {
    let files = fs::read_dir(samples()).expect("the samples are there");
    let files = files.map(|file| file.unwrap().file_name().into_string().unwrap());
    let mut names: Vec<String> = files
        .filter_map(|file| file.strip_suffix(".record").map(String::from))
        .collect();
    names.sort();
    names
}

/// The outputs of which one must be printed.
fn expected(name: &str) -> Vec<String> {
    let numbered = (1..=9).map(|number| format!("{name}.{number}.out"));
    let files = [format!("{name}.out")].into_iter().chain(numbered);
    let texts = files.filter_map(|file| fs::read_to_string(samples().join(file)).ok());
    texts.collect()
}

/// The printed text, with N for its number of improvements where the expected one has that.
fn printed_like(printed: &str, expected: &str) -> String {
    let Some(free) = expected.lines().position(|line| line == "improvements N") else {
        return printed.into();
    };
    let line = |(place, line): (usize, &str)| match line.strip_prefix("improvements ") {
        Some(number) if place == free => {
            assert!(number.parse::<u16>().expect("a number") <= 2048);
            "improvements N\n".into()
        }
        _ => format!("{line}\n"),
    };
    printed.lines().enumerate().map(line).collect()
}

#[test]
fn the_stored_runs_are_printed_with_their_status() {
    let folder = Folder::new("record-lines");
    let names = names();
    assert!(names.len() >= 9, "{names:?}");
    for name in names {
        let expected = expected(&name);
        assert!(!expected.is_empty(), "{name}");
        let record = fs::read(samples().join(format!("{name}.record"))).unwrap();
        folder.write("record", &record);
        let done = folder.call("plan --record record");
        let is_one = |text: &String| printed_like(&done.out, text) == *text;
        assert!(expected.iter().any(is_one), "{name}: {}", done.out);
        let status = i32::from(expected[0].starts_with("refused "));
        assert_eq!((done.status, done.err.as_str()), (status, ""), "{name}");
        let fed = folder.call_with("plan --record -", &record);
        assert_eq!(
            (fed.status, fed.out, fed.err.as_str()),
            (status, done.out, ""),
            "{name}"
        );
    }
}

#[test]
fn an_input_or_output_that_fails_has_status_2() {
    let folder = Folder::new("record-fails");
    fs::copy(samples().join("A.record"), folder.path("A")).unwrap();
    let told = |line: &str| {
        let done = folder.call(line);
        assert_eq!((done.status, done.out.as_str()), (2, ""), "{line}");
        done.err
    };
    assert_eq!(
        told("plan --record nowhere"),
        "nowhere: No such file or directory (os error 2)\n"
    );
    assert_eq!(told("plan --record ."), ".: Is a directory (os error 21)\n");
    let closed = folder.call_closed("plan --record -", "<");
    assert_eq!(
        (closed.status, closed.err.as_str()),
        (2, "standard input is closed\n")
    );
    let unprinted = folder.call_closed("plan --record A", ">");
    assert_eq!(
        (unprinted.status, unprinted.err.as_str()),
        (2, "not printed: standard output is closed\n")
    );
}

/// A record that `record` writes is planned as its file is.
#[test]
fn a_written_record_is_planned() {
    let folder = Folder::new("record-round");
    folder.write("home.txt", crate::THREE);
    assert_eq!(folder.call("record home.txt --out record").status, 0);
    let done = folder.call("plan --record record");
    let expected = fs::read_to_string(samples().join("A.out")).unwrap();
    assert_eq!((done.status, done.out), (0, expected));
}
