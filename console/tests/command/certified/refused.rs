//! Layouts that have no certificate, and the file of one.

use super::{example_e, example_f, shop};
use crate::folder::{layout_record, Folder};
use crate::read_json::{read, Value};
use dezghuri::Plan;

/// What is told of `next`, which has no certificate; nothing is printed, and nothing written.
fn refused(folder: &Folder, told: &str) {
    let done = folder.call("certify next.txt --former last next --out prices");
    assert_eq!(
        (done.status, done.err, done.out.as_str()),
        (1, format!("{told}\n"), "")
    );
    assert!(!folder.names().contains(&"prices".into()));
}

const LARGER: &str = "A larger size is possible: plan again (refused 19).";
const FEWER: &str = "Another layout of this size sends fewer copies: plan again (refused 20).";

/// At 9 MB both partitions could stay on box 1 if their size did not matter: the size comes first.
#[test]
fn a_layout_that_is_not_the_best_is_told() {
    let folder = example_f("certify-f-not");
    folder.write("next", layout_record(1, 9, &[&[1], &[2]]));
    refused(&folder, LARGER);
    folder.write("next", layout_record(1, 5, &[&[1], &[1]]));
    refused(&folder, LARGER);
    folder.write("last", layout_record(1, 1, &[&[1], &[2]]));
    folder.write("next", layout_record(1, 10, &[&[2], &[1]]));
    refused(&folder, FEWER);
    // It sends both copies from the one layout, and the first one only from the other.
    folder.write("last", layout_record(1, 1, &[&[1], &[1]]));
    assert_eq!(folder.call("certify next.txt --former last next").status, 0);
}

#[test]
fn a_stopped_plan_has_no_certificate() {
    let folder = shop("certify-stopped");
    let line = "plan next.txt --former last --out next --replace --allowance 1";
    assert_eq!(folder.call(line).status, 0);
    refused(&folder, FEWER);
    // Without a former layout it is as good as any other.
    assert_eq!(folder.call("certify next.txt next").status, 0);
}

/// What `check` refuses is told as `check` tells it.
#[test]
fn a_layout_that_is_not_valid_is_told() {
    let folder = example_f("certify-not-valid");
    for (size, rows) in [
        (10, [&[1u32][..], &[1]]),
        (10, [&[1], &[3]]),
        (10, [&[1, 2], &[1, 2]]),
        (11, [&[1], &[2]]),
    ] {
        folder.write("next", layout_record(1, size, &rows));
        let told = folder.call("check next.txt next");
        assert_eq!(told.status, 1);
        assert!(told.err.starts_with("not valid: "), "{}", told.err);
        refused(&folder, told.err.trim_end());
    }
    folder.write("next", layout_record(0, 10, &[&[1]]));
    refused(
        &folder,
        "not valid: it has bits 0, 1 are wanted (refused 10)",
    );
}

#[test]
fn files_at_fault_are_told() {
    let folder = example_f("certify-faults");
    folder.write("small", layout_record(0, 10, &[&[1]]));
    for (words, told) in [
        (
            "nowhere next",
            "nowhere: No such file or directory (os error 2)\n",
        ),
        (
            "next.txt nowhere",
            "nowhere: No such file or directory (os error 2)\n",
        ),
        (
            "next.txt next.txt",
            "next.txt: this is a text file, and not a layout record\n",
        ),
        (
            "next.txt --former small next",
            "small was planned with bits 0, next.txt has bits 1: they cannot change\n",
        ),
    ] {
        let done = folder.call(&format!("certify {words} --out prices"));
        assert_eq!(
            (done.status, done.err.as_str(), done.out.as_str()),
            (2, told, "")
        );
    }
    assert_eq!(folder.names(), ["last", "next", "next.txt", "small"]);
}

/// A former layout of other boxes is as good as none: all copies are sent, and a warning tells of it.
#[test]
fn a_former_layout_of_other_boxes_is_warned_of() {
    let folder = example_f("certify-foreign");
    folder.write("last", layout_record(1, 1, &[&[8], &[9]]));
    let done = folder.call("certify next.txt --former last next");
    let told =
        "warning: last: none of its boxes is in next.txt: is it the layout of another cluster?\n";
    assert_eq!((done.status, done.err.as_str()), (0, told));
    assert!(
        done.out
            .contains("\n  none              2  1*              1                  2\n"),
        "{}",
        done.out
    );
    assert!(done.out.contains("2 - 0 = 2 or more"), "{}", done.out);
}

/// With a second box of 10 MB that is staged, the layout on both is the best one.
#[test]
fn staged_changes_count_where_they_are_asked_for() {
    let folder = example_f("certify-staged");
    folder.write("next.txt", "copies 1\nzones 1\nbits 1\nbox 1 a 10\n");
    assert_eq!(folder.call("stage next.txt add 2 a 10").status, 0);
    assert_eq!(folder.call("certify next.txt --former last next").status, 1);
    let done = folder.call("certify next.txt --staged --former last next");
    assert_eq!((done.status, done.err.as_str()), (0, ""));
    let heading =
        "next.txt with 1 staged change: 1 copy of each of 2 partitions, in at least 1 zone\n";
    assert!(done.out.starts_with(heading), "{}", done.out);
    let told = " It takes next.txt as it is:\nwhat is staged has to be applied first.\n";
    assert!(done.out.contains(told), "{}", done.out);
}

#[test]
fn only_a_certificate_is_replaced_by_one_and_it_is_kept() {
    let folder = example_f("certify-replaced");
    folder.write("notes", "size 3\nshoes\n");
    for file in ["notes", "last", "next"] {
        let before = folder.read(file);
        let done = folder.call(&format!("certify next.txt --former last next --out {file}"));
        let told = format!(
            "{file}: not written: there is a file there that is not a certificate, and nothing else is \
             replaced\n"
        );
        assert_eq!((done.status, done.err, done.out.as_str()), (2, told, ""));
        assert_eq!(folder.read(file), before);
    }
    let done = folder.call("certify next.txt next --out next.txt");
    assert!(
        done.err.contains("would replace the description"),
        "{}",
        done.err
    );
    assert_eq!(folder.call("certify next.txt next --out prices").status, 0);
    let first = folder.read("prices");
    assert_eq!(first, b"size 10\nsent 2\nprice 1 0\nprice 2 0\n");
    let done = folder.call("certify next.txt --former last next --out prices");
    let told = "Written to prices.\nThe certificate before it is kept as prices.old.\n";
    assert!(done.out.ends_with(told), "{}", done.out);
    assert_eq!(
        folder.read("prices"),
        b"size 10\nsent 1\nprice 1 1\nprice 2 0\n"
    );
    assert_eq!(folder.read("prices.old"), first);
}

#[test]
fn a_certificate_is_an_object() {
    let folder = example_e("certify-object");
    let done = folder.call("certify next.txt --former last next --out prices --json");
    assert_eq!((done.status, done.err.as_str()), (0, ""));
    assert_eq!(done.out, include_str!("certify.json"));
    assert_eq!(
        folder.read("prices"),
        b"size 5\nsent 2\nprice 1 0\nprice 2 1\n"
    );
    let done = folder.call("certify next.txt next --json");
    let object = read(&done.out);
    assert_eq!(object.get("former"), &Value::Null);
    assert_eq!(
        (object.get("sent").line(), object.get("out")),
        ("2".into(), &Value::Null)
    );
}

#[test]
fn a_refusal_is_an_object_too() {
    let folder = example_e("certify-object-not");
    let mut plan = Plan::from_record(&folder.read("next")).expect("a layout");
    plan.size = 4;
    folder.write("next", plan.to_record().expect("a layout"));
    let done = folder.call("certify next.txt --former last next --json");
    assert_eq!((done.status, done.err), (1, format!("{LARGER}\n")));
    assert_eq!(done.out, include_str!("certify-not.json"));
}
