//! Changes of the boxes that are tried, and not made.

use crate::folder::{layout_record, Folder};

/// Two boxes of 8 MB hold two of four partitions each, so the size is 4.
const FILE: &str = "copies 1\nzones 1\nbits 2\nbox 1 home 8 study\nbox 2 shop 8\n";

pub fn two_boxes(name: &str) -> Folder {
    let folder = Folder::new(name);
    folder.write("home.txt", FILE);
    folder.write("last", layout_record(2, 4, &[&[1], &[1], &[2], &[2]]));
    folder
}

/// The changes of the stored table.
pub const CHANGES: [&str; 8] = [
    "--add",
    "attic 8",
    "--add",
    "home 17 big",
    "--remove",
    "2",
    "--resize",
    "1=17",
];

/// With a third box of 8 MB the disks take three copies of 5 MB, and four are wanted: nothing is
/// gained. One of 17 MB, of which 16 may be filled, takes two copies of 8 MB and leaves one to each of
/// the others: two are sent. Without box 2 box 1 takes all four, two of which were on box 2 alone. With
/// 17 MB box 1 takes three of 5 MB. All together the disks take 1 + 2 + 2 copies of 8 MB, and at 9 MB only 0 + 1 + 1; box 1
/// keeps its two, and the two of box 2 are sent.
#[test]
fn each_change_is_tried_alone_and_all_together() {
    let folder = two_boxes("tried");
    let words = [&["what-if", "home.txt", "--former", "last"], &CHANGES[..]].concat();
    let done = folder.call_words(&words);
    assert_eq!((done.status, done.err.as_str()), (0, ""));
    assert_eq!(done.out, include_str!("what-if.txt"));
    assert_eq!(folder.names(), ["home.txt", "last"]);
}

/// Without a former layout there is nothing to send.
#[test]
fn one_change_is_tried_without_a_layout() {
    let done = two_boxes("tried-first").call("what-if home.txt --resize 1=17");
    assert_eq!((done.status, done.err.as_str()), (0, ""));
    assert_eq!(done.out, include_str!("what-if-first.txt"));
}

#[test]
fn changes_that_leave_no_layout_are_told() {
    let folder = two_boxes("tried-none");
    let done = folder.call("what-if home.txt --former last --remove 1 --remove 2");
    assert_eq!((done.status, done.err.as_str()), (1, ""));
    assert_eq!(done.out, include_str!("what-if-none.txt"));
}

/// With at most one copy on box 1 box 2 has three, of 2 MB each, and one is sent. With none on box 2 box 1
/// has all four, of 2 MB, and two are sent. The highest ceiling limits nothing. Of 25 MB 24 may be filled:
/// three copies of 8 MB, and box 1 has one. Of two ceilings of one box the later counts.
#[test]
fn ceilings_are_tried() {
    let folder = two_boxes("tried-ceilings");
    let changes = "--ceiling 1=1 --ceiling 2=0 --ceiling 2=256 --resize 2=25";
    let done = folder.call(&format!("what-if home.txt --former last {changes}"));
    assert_eq!((done.status, done.err.as_str()), (0, ""));
    assert_eq!(done.out, include_str!("what-if-ceilings.txt"));
    assert_eq!(folder.names(), ["home.txt", "last"]);
    let done = folder.call("what-if home.txt --ceiling 1=0 --ceiling 2=1");
    let told =
        "\nall together: there is no layout: the ceilings are too low: the boxes may hold 1 copy \
                together, and 4 are wanted (refused 9).\n";
    assert_eq!((done.status, done.err.as_str()), (1, ""));
    assert!(done.out.contains(told), "{}", done.out);
}

#[test]
fn changes_that_cannot_be_made_are_told() {
    let folder = two_boxes("tried-bad");
    let told = |words: &[&str]| {
        let done = folder.call_words(&[&["what-if", "home.txt"], words].concat());
        assert_eq!((done.status, done.out.as_str()), (2, ""));
        done.err
    };
    assert_eq!(told(&["--remove", "9"]), "--remove 9: there is no box 9\n");
    assert_eq!(
        told(&["--remove", "2", "--resize", "2=9"]),
        "--resize 2=..: there is no box 2\n"
    );
    assert_eq!(
        told(&["--ceiling", "3=40"]),
        "--ceiling 3=..: there is no box 3\n"
    );
    assert_eq!(
        told(&["--add", "my attic 4T", "--add", "attic x"]),
        "--add \"my attic 4T\": a zone is one word: write my-attic, and not 'my attic'\n\
         --add \"attic x\": 'x' is not a capacity: write megabytes, or a number that ends in G or T, \
         as 500G\n"
    );
}

#[test]
fn slips_in_a_change_are_warned_of() {
    let folder = two_boxes("tried-slip");
    let done = folder.call_words(&["what-if", "home.txt", "--add", "hmoe 8"]);
    let told =
        "warning: --add \"hmoe 8\": zone 'hmoe' is nearly 'home' of line 4: if they are one, \
                write it one way\n";
    assert_eq!((done.status, done.err.as_str()), (0, told));
}
