//! Messages and warnings for what owners get wrong.

use crate::folder::{layout_record, Folder};
use crate::{planned_home, HOME, THREE};

#[test]
fn a_layout_in_the_place_of_the_file_is_told_in_one_line() {
    let folder = planned_home("swapped");
    for line in [
        "check last home.txt",
        "show last home.txt",
        "show last home.txt 7",
        "loss last home.txt",
        "plan last --former home.txt --out next",
        "record last",
    ] {
        let done = folder.call(line);
        let told = "last: this is a layout record; the text file comes first\n";
        assert_eq!((done.status, done.err.as_str()), (2, told), "{line}");
    }
    let names = ["home.txt", "home.txt.history", "last", "next.txt"];
    assert_eq!(folder.names(), names);
}

#[test]
fn what_is_no_text_at_all_is_told_in_one_line() {
    let folder = planned_home("no-text");
    assert_eq!(folder.call("record home.txt --out record").status, 0);
    let damaged = folder.read("last")[..1000].to_vec();
    folder.write("damaged", damaged);
    folder.write(
        "wide.txt",
        HOME.bytes().flat_map(|byte| [byte, 0]).collect::<Vec<u8>>(),
    );
    for (file, what) in [
        (
            "record",
            "this is a cluster record; `plan --record` plans it, all else takes a text file",
        ),
        ("damaged", "this is not a text file"),
        ("wide.txt", "this is not a text file"),
    ] {
        let done = folder.call(&format!("plan {file}"));
        assert_eq!((done.status, done.err), (2, format!("{file}: {what}\n")));
    }
}

#[test]
fn a_text_in_the_place_of_the_layout_is_told() {
    let folder = planned_home("two-texts");
    for line in [
        "check home.txt next.txt",
        "show home.txt next.txt",
        "plan home.txt --former next.txt --out next",
    ] {
        let done = folder.call(line);
        let told = "next.txt: this is a text file, and not a layout record\n";
        assert_eq!((done.status, done.err.as_str()), (2, told), "{line}");
    }
}

/// There are lines with a box, so none is told to be missing.
#[test]
fn boxes_that_are_all_at_fault_are_told_by_line() {
    let folder = Folder::new("all-bad");
    folder.write("home.txt", include_str!("all-bad.txt"));
    let done = folder.call("plan home.txt --out next");
    assert_eq!((done.status, done.out.as_str()), (2, ""));
    assert_eq!(done.err, include_str!("all-bad-told.txt"));
}

/// Each slip is warned of, and nothing else; all is done all the same. Nine boxes make a record of
/// 12 + 9 * 15 bytes.
#[test]
fn slips_are_warned_of() {
    let folder = Folder::new("slips");
    folder.write("home.txt", include_str!("slips.txt"));
    let done = folder.call("record home.txt --out record");
    assert_eq!(done.err, include_str!("slips-told.txt"));
    let told = "home.txt makes a cluster record of 147 bytes.\nWritten to record.\n";
    assert_eq!((done.status, done.out.as_str()), (0, told));
    let planned = folder.call("plan home.txt");
    assert_eq!(
        (planned.status, planned.err.as_str()),
        (0, include_str!("slips-told.txt"))
    );
}

/// Warnings come before a refusal, which they may explain.
#[test]
fn warnings_come_with_a_refusal_too() {
    let folder = Folder::new("slips-refused");
    folder.write("home.txt", THREE.replace("2 shop 70", "2 shap 0"));
    let done = folder.call("plan home.txt");
    let told =
        "warning: home.txt, line 5: zone 'shap' is nearly 'shop' of line 4: if they are one, \
                write it one way\nthere is no layout: 3 copies need 3 boxes with disk space, and 2 \
                have any (refused 9)\n";
    assert_eq!((done.status, done.err.as_str()), (1, told));
}

#[test]
fn a_former_layout_of_quite_other_boxes_is_warned_of() {
    let folder = Folder::new("other-boxes");
    folder.write("home.txt", THREE);
    folder.write("last", layout_record(1, 5, &[&[7, 8], &[8, 9]]));
    let done = folder.call("plan home.txt --former last");
    let told = "warning: last: none of its boxes is in home.txt: is it the layout of another \
                cluster?\n";
    assert_eq!((done.status, done.err.as_str()), (0, told));
    assert!(done
        .out
        .starts_with("Lost: 2 of 2 partitions have no surviving copy: 0, 1.\n"));
    assert_eq!(done.notes, "");
    folder.write("last", layout_record(1, 5, &[&[7, 8], &[3, 9]]));
    assert_eq!(folder.call("plan home.txt --former last").err, "");
}

/// A file of so many lines that say nothing; three more faults are that copies, zones and boxes are missing.
#[test]
fn twenty_faults_are_listed_and_the_others_counted() {
    let folder = Folder::new("many-faults");
    let told = |lines: usize| {
        folder.write("bad.txt", "nonsense\n".repeat(lines));
        let done = folder.call("plan bad.txt");
        assert_eq!(done.status, 2);
        done.err.lines().map(String::from).collect::<Vec<String>>()
    };
    let of_all = "bad.txt: there is no line with a box: box 1 home 2T";
    assert_eq!(told(17).len(), 20);
    assert_eq!(told(17)[19], of_all);
    assert_eq!(told(18).len(), 21);
    assert_eq!(told(18)[20], "bad.txt: 1 more fault is not listed");
    let many = told(1_200);
    assert!(
        many[19].starts_with("bad.txt, line 20: a line begins with"),
        "{many:?}"
    );
    assert_eq!(many[20..], ["bad.txt: 1,183 more faults are not listed"]);
}

/// 4 TiB are 4,398,046,511,104 bytes.
#[test]
fn a_unit_by_1024_is_told_by_thousands() {
    let folder = Folder::new("binary-unit");
    folder.write("home.txt", THREE);
    folder.write(
        "bad.txt",
        THREE.replace("100", "4TiB").replace("70", "4 TiB"),
    );
    let told = "4TiB is 4,398,046 MB: write 4398046, or 4.398046T";
    for (words, before) in [
        (&["plan", "bad.txt"][..], "bad.txt, line 4: "),
        (
            &["stage", "home.txt", "add", "7", "a", "4TiB"],
            "add 7 a 4TiB: ",
        ),
        (&["stage", "home.txt", "resize", "3", "4TiB"], "dezghuri: "),
        (&["what-if", "home.txt", "--resize", "3=4TiB"], "dezghuri: "),
        (
            &["what-if", "home.txt", "--add", "a 4TiB"],
            "--add \"a 4TiB\": ",
        ),
    ] {
        let done = folder.call_words(words);
        assert_eq!(done.status, 2, "{words:?}");
        let line = done.err.lines().next();
        assert_eq!(line, Some(&format!("{before}{told}")[..]));
    }
    let apart = format!("bad.txt, line 5: {told}\n");
    assert!(folder.call("plan bad.txt").err.ends_with(&apart));
}
