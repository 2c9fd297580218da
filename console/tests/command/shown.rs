//! An old layout, shown after its file was edited.

use crate::folder::{layout_record, Folder};
use crate::{planned_home, HOME};

/// Box 1 is gone, box 2 has a smaller disk, box 4 is new.
const EDITED: &str =
    "copies 2\nzones 1\nbits 2\nbox 2 shop 20 tower\nbox 3 home 30 study\nbox 4 home 30\n";

/// Box 1 held partitions 0, 1 and 2, box 2 holds 0, 1 and 3, box 3 holds 2 and 3.
fn edited(name: &str) -> Folder {
    let folder = Folder::new(name);
    folder.write("home.txt", EDITED);
    folder.write(
        "last",
        layout_record(2, 10, &[&[1, 2], &[1, 2], &[1, 3], &[2, 3]]),
    );
    folder
}

#[test]
fn boxes_that_are_gone_are_shown_and_marked() {
    let done = edited("gone").call("show home.txt last");
    assert_eq!((done.status, done.err.as_str()), (0, ""));
    assert_eq!(done.out, include_str!("show-gone.txt"));
}

#[test]
fn one_partition_of_an_old_layout_is_shown() {
    let done = edited("gone-row").call("show home.txt last 2");
    let row = "Partition 2 lies on\n\n  box  name   zone\n    1         not there any more\n    \
               3  study  home\n";
    assert_eq!((done.status, done.out.as_str()), (0, row));
}

#[test]
fn the_partitions_of_one_box_are_shown() {
    let folder = edited("one-box");
    let shown = |id: u32| {
        let done = folder.call(&format!("show home.txt last --box {id}"));
        (done.status, done.out + &done.err)
    };
    let gone = "Box 1 (not there any more) holds 3 of 4 partitions:\n\n    0    1    2\n";
    assert_eq!(shown(1), (0, gone.into()));
    let tower = "Box 2 (tower, shop) holds 3 of 4 partitions:\n\n    0    1    3\n";
    assert_eq!(shown(2), (0, tower.into()));
    let unused = "Box 4 (home) holds none of 4 partitions.\n";
    assert_eq!(shown(4), (0, unused.into()));
    let other = "there is no box 9 in home.txt, and last has no copy on one\n";
    assert_eq!(shown(9), (2, other.into()));
}

/// At the sample's size box 1 has 205 of 256 partitions: twelve lines of sixteen and one of
/// thirteen, all of them different and rising.
#[test]
fn many_partitions_are_shown_in_lines() {
    let done = planned_home("many").call("show home.txt last --box 1");
    let (head, list) = done.out.split_once("\n\n").unwrap();
    let expected = "Box 1 (big tower, workshop) holds 205 of 256 partitions:";
    assert_eq!((done.status, head), (0, expected));
    let lines: Vec<Vec<u8>> = list
        .lines()
        .map(|line| {
            line.split_whitespace()
                .map(|n| n.parse().unwrap())
                .collect()
        })
        .collect();
    let lengths: Vec<usize> = lines.iter().map(Vec::len).collect();
    assert_eq!(lengths, [[16; 12].as_slice(), &[13]].concat());
    assert!(lines.concat().windows(2).all(|pair| pair[0] < pair[1]));
}

#[test]
fn every_partition_is_shown() {
    let done = edited("all").call("show home.txt last --all");
    assert_eq!((done.status, done.err.as_str()), (0, ""));
    assert_eq!(done.out, include_str!("show-all.txt"));
}

/// All boxes are there, and the layout does not fit them for another reason.
#[test]
fn a_layout_that_fits_no_more_is_shown() {
    let folder = planned_home("fits-not");
    let shown = |from: &str, to: &str| {
        assert!(HOME.contains(from));
        folder.write("edited.txt", HOME.replace(from, to));
        let done = folder.call("show edited.txt last");
        assert_eq!((done.status, done.err.as_str()), (0, ""));
        done.out
    };
    let smaller = shown("archive   3T", "archive   2T");
    assert_eq!(smaller, include_str!("show-smaller.txt"));
    let heading =
        "last: 3 copies of each of 256 partitions\nNot valid for edited.txt as it is now: ";
    for (from, to, why) in [
        (
            "copies 3",
            "copies 4",
            "it has 3 copies of each partition, 4 are wanted (refused 10).\n",
        ),
        (
            "copies 3",
            "bits 7\ncopies 3",
            "it has bits 8, 7 are wanted (refused 10).\n",
        ),
    ] {
        let told = shown(from, to);
        assert!(told.starts_with(&format!("{heading}{why}")), "{told}");
    }
}
