//! Partitions whose former copies are gone.

use crate::folder::{layout_record, Folder};
use crate::read_json::read;

/// Three boxes hold two copies of each partition; box 3 is left, boxes 4 and 5 are new.
const NEW: &str = "copies 2\nzones 1\nbox 3 home 1.7T study\nbox 4 shop 1.71T\nbox 5 shop 1.71T\n";

/// Partitions 0, 3, 6 and on lie on boxes 1 and 2, the others on one of them and box 3.
fn two_of_three_replaced(name: &str) -> Folder {
    let pairs: [&[u32]; 3] = [&[1, 2], &[1, 3], &[2, 3]];
    let rows: Vec<&[u32]> = (0..256).map(|partition| pairs[partition % 3]).collect();
    let folder = Folder::new(name);
    folder.write("new.txt", NEW);
    folder.write("last", layout_record(8, 10_000, &rows));
    folder
}

/// Of 1.7 and 1.71 TB 1,593,750 and 1,603,125 MB may be filled. At 9,375 MB they take 170 + 171 + 171 =
/// 512 copies, all that there are; at 9,376 MB each takes one less. Box 3 can keep all 170 that it has, and the other boxes then take the 86
/// partitions without it and half of the 170 others each; so no plan sends fewer than 342. The 86 lie on
/// boxes 4 and 5 alone, which are the shop; with box 3 each of these has 85.
#[test]
fn lost_partitions_are_told_first() {
    let folder = two_of_three_replaced("lost");
    let done = folder.call("plan new.txt --former last --out next");
    assert_eq!((done.status, done.err.as_str()), (0, ""));
    assert_eq!(done.out, include_str!("lost.txt"));
}

#[test]
fn a_record_is_written_with_a_warning_of_what_is_lost() {
    let folder = two_of_three_replaced("lost-record");
    let done = folder.call("record new.txt --former last --out record");
    let told: Vec<&str> = include_str!("lost.txt").lines().take(3).collect();
    let [lost, hint, risk] = told[..] else {
        panic!("three lines")
    };
    assert_eq!(done.status, 0);
    assert_eq!(
        done.err,
        format!("warning: {lost}\n{hint}\nwarning: {risk}\n")
    );
}

/// Whatever keeps a plan from being printed, what is lost and at risk is told before it.
#[test]
fn what_is_lost_is_told_where_nothing_is_printed() {
    let folder = two_of_three_replaced("lost-unwritten");
    folder.write("small.txt", NEW.replace("copies 2", "copies 4"));
    let told: Vec<&str> = include_str!("lost.txt").lines().take(3).collect();
    let lost = format!("warning: {}\n{}\nwarning: {}\n", told[0], told[1], told[2]);
    for (line, status, failure) in [
        (
            "plan new.txt --former last --out no/such/x",
            2,
            "no/such/x: not written: No such file or directory (os error 2)\n",
        ),
        (
            "plan small.txt --former last",
            1,
            "there is no layout: 4 copies need 4 boxes with disk space, and 3 have any (refused 9)\n",
        ),
    ] {
        let done = folder.call(line);
        assert_eq!((done.status, done.err), (status, lost.clone() + failure));
        let object = read(&folder.call(&format!("{line} --json")).out);
        // A note of the history, what is lost, and what is at risk.
        assert_eq!(object.get("warnings").list().len(), 3, "{line}");
    }
    assert_eq!(folder.names(), ["last", "new.txt", "small.txt"]);
}

/// Boxes 4 and 5 are missing. Of the partitions that they held, 0 has boxes 1 and 2 left, in two zones;
/// 1 and 2 have boxes 1 and 3, in one; 3 has box 1 left; 4 has none; 5 has lost nothing.
#[test]
fn missing_boxes_are_told_by_what_is_left() {
    let folder = Folder::new("lost-missing");
    let text = "copies 3\nzones 2\nbits 3\nbox 1 a 900\nbox 2 b 900\nbox 3 a 900\n";
    folder.write("new.txt", text);
    let whole: &[u32] = &[1, 2, 3];
    let lost: [&[u32]; 5] = [&[1, 2, 4], &[1, 3, 4], &[1, 3, 5], &[1, 4, 5], &[4, 5, 6]];
    let rows = [&lost[..], &[whole; 3]].concat();
    let missing = |file: &str, rows: &[&[u32]]| {
        folder.write("last", layout_record(3, 9, rows));
        let out = folder.call(&format!("plan {file} --former last")).out;
        let mut lines = out.lines().filter(|line| line.contains("missing"));
        let line = lines.next().map(String::from);
        assert_eq!(lines.next(), None);
        line
    };
    let told =
        "Boxes 4, 5 and 6 are missing: 3 partitions have 2 of 3 copies, 2 of them in one zone \
                only; 1 partition has 1 of 3 copies; 1 partition has no copy.";
    assert_eq!(missing("new.txt", &rows).as_deref(), Some(told));
    let rows = [&lost[1..3], &[whole; 6]].concat();
    let told =
        "Boxes 4 and 5 are missing: 2 partitions have 2 of 3 copies, all of them in one zone \
                only.";
    assert_eq!(missing("new.txt", &rows).as_deref(), Some(told));
    let rows = [&lost[1..2], &[whole; 7]].concat();
    let told = "Box 4 is missing: 1 partition has 2 of 3 copies, in one zone only.";
    assert_eq!(missing("new.txt", &rows).as_deref(), Some(told));
    assert_eq!(missing("new.txt", &[whole; 8]), None);
    // Who wants no second zone is told nothing of zones.
    folder.write("one.txt", text.replace("zones 2", "zones 1"));
    let told = "Box 4 is missing: 1 partition has 2 of 3 copies.";
    assert_eq!(missing("one.txt", &rows).as_deref(), Some(told));
    // A box that is taken away by a staged change is called as the text calls it.
    folder.write("old.txt", text.to_owned() + "box 4 b 900 cellar two\n");
    assert_eq!(folder.call("stage old.txt remove 4").status, 0);
    let told = "Box 4 (cellar two) is missing: 1 partition has 2 of 3 copies, in one zone only.";
    assert_eq!(missing("old.txt --staged", &rows).as_deref(), Some(told));
}

#[test]
fn one_lost_partition_is_told_as_one() {
    let folder = Folder::new("lost-one");
    folder.write("new.txt", "copies 1\nzones 1\nbits 1\nbox 2 a 9\n");
    folder.write("last", layout_record(1, 4, &[&[1], &[2]]));
    let done = folder.call("plan new.txt --former last");
    let told =
        "Lost: 1 of 2 partitions has no surviving copy: 0.\nNo box can send them: bring back \
                a box that held them, or restore them from elsewhere.\n\nnew.txt: 1 copy of each";
    assert!(done.out.starts_with(told), "{}", done.out);
    assert!(!done.out.contains("At risk"), "{}", done.out);
}

/// What is planned from a layout whose boxes are all there loses nothing, and says nothing of it.
#[test]
fn nothing_is_told_where_nothing_is_lost() {
    let folder = two_of_three_replaced("lost-none");
    folder.write(
        "new.txt",
        NEW.to_string() + "box 1 shop 2T\nbox 2 shop 2T\n",
    );
    let done = folder.call("plan new.txt --former last");
    assert!(done.out.starts_with("new.txt: 2 copies"), "{}", done.out);
}
