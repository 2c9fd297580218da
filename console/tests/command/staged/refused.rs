//! Changes that cannot be made, or are not written well.

use super::{changes, done, fails, shop, staged_shop, untouched, whole, FILE};
use crate::folder::Folder;
use crate::read_json::read;

#[test]
fn a_change_that_cannot_be_made_is_not_staged() {
    let folder = shop("refused");
    for nothing_staged in [true, false] {
        for (line, told) in [
            (
                "add 1 attic 4T",
                "add box 1 in attic, 4T: not staged: box 1 is there already (refused 13)",
            ),
            (
                "remove 9",
                "remove box 9: not staged: there is no box 9 (refused 14)",
            ),
            (
                "resize 9 8T",
                "resize box 9 to 8T: not staged: there is no box 9 (refused 14)",
            ),
        ] {
            fails(&folder, &format!("stage shop.txt {line}"), 1, told);
        }
        if nothing_staged {
            done(&folder, "stage shop.txt add 7 attic 4T");
        }
    }
    done(&folder, "stage shop.txt remove 1");
    let told = "remove box 1: not staged: there is no box 1 (refused 14)";
    fails(&folder, "stage shop.txt remove 1", 1, told);
    let object = read(&untouched(&folder, "stage shop.txt remove 1 --json").out);
    assert_eq!(object.get("error").get("refusal").line(), "14");
    assert_eq!(object.get("command").line(), "\"stage\"");
}

#[test]
fn there_are_32_boxes_at_most() {
    let folder = Folder::new("staged-32");
    let boxes: String = (1..=31).map(|id| format!("box {id} home 4T\n")).collect();
    folder.write("shop.txt", format!("copies 2\nzones 1\n{boxes}"));
    done(&folder, "stage shop.txt add 40 attic 4T last");
    let told = "add box 41 in attic, 4T: not staged: there are 32 boxes already, and no more are \
                possible (refused 6)";
    fails(&folder, "stage shop.txt add 41 attic 4T", 1, told);
    let told = "add box 40 in attic, 4T: not staged: box 40 is there already (refused 13)";
    fails(&folder, "stage shop.txt add 40 attic 4T", 1, told);
    let told = "add box 31 in attic, 4T: not staged: box 31 is there already (refused 13)";
    fails(&folder, "stage shop.txt add 31 attic 4T", 1, told);
    done(&folder, "stage shop.txt remove 3");
    done(&folder, "stage shop.txt add 41 attic 4T");
    done(&folder, "apply shop.txt");
    let text = String::from_utf8(folder.read("shop.txt")).unwrap();
    assert_eq!(text.matches("box ").count(), 32);
}

#[test]
fn words_are_read_as_a_line_of_the_file() {
    let folder = shop("words");
    done(&folder, "stage shop.txt add 7 attic 4T");
    for (words, told) in [
        (
            "x attic 4T",
            "the id of a box is a number from 1 to 4294967295, and not 'x'",
        ),
        (
            "0 attic 4T",
            "the id of a box is a number from 1 to 4294967295, and not '0'",
        ),
        (
            "8 my attic 4T",
            "a zone is one word: write my-attic, and not 'my attic'",
        ),
        (
            "8 attic 4 T",
            "write the unit at the number, without a space: 4T",
        ),
        (
            "8 Home 4T",
            "zone 'Home' is written 'home' at box 1: write it one way",
        ),
        (
            "8 ATTIC 4T",
            "zone 'ATTIC' is written 'attic' at box 7: write it one way",
        ),
        (
            "8 65536 4T",
            "a zone's number is at most 65535, and not 65536",
        ),
    ] {
        let line = format!("stage shop.txt add {words}");
        fails(&folder, &line, 2, &format!("add {words}: {told}"));
    }
    let call = folder.call("stage shop.txt add 8 #attic 4T");
    assert_eq!(call.status, 2, "{}", call.err);
}

#[test]
fn slips_are_warned_of() {
    let folder = shop("slips");
    let slip = "zone 'hmoe' is nearly 'home' of box 1: if they are one, write it one way";
    let done = folder.call("stage shop.txt add 8 hmoe 4T");
    let told = format!("warning: add 8 hmoe 4T: {slip}\n");
    assert_eq!((done.status, done.err), (0, told));
    let done = folder.call_words(&["stage", "shop.txt", "add", "9 home 400", "tower #2"]);
    let told = "warning: add 9 home 400 tower #2: box 9 has 400 MB, a thousandth of what others \
                have, or less: is a G or T missing?\nwarning: add 9 home 400 tower #2: # begins a \
                remark, so box 9 has the name 'tower'; a remark has a space before and after its \
                #\n";
    assert_eq!((done.status, done.err.as_str()), (0, told));
    let shown = folder.call("stage shop.txt").out;
    assert!(
        shown.contains("  2  add box 9 in home, 400M, tower\n"),
        "{shown}"
    );
}

/// The text was edited since: the change that fails is told, and can be taken back.
#[test]
fn a_change_that_the_text_does_not_allow_any_more_is_told() {
    let folder = staged_shop("edited");
    folder.write("shop.txt", FILE.replace("box 2 ", "box 5 "));
    let told =
        "shop.txt.staged: change 2, remove box 2, cannot be made: there is no box 2, at byte \
                33 (refused 14); `dezghuri undo shop.txt` takes the last one back";
    for line in [
        "plan shop.txt --staged",
        "check shop.txt shop.txt --staged",
        "stage shop.txt remove 1",
        "apply shop.txt",
    ] {
        fails(&folder, line, 1, told);
    }
    let shown = untouched(&folder, "stage shop.txt");
    assert_eq!((shown.status, shown.err), (1, format!("{told}\n")));
    let listed = "  2  remove box 2\n  3  resize box 3 (home) from 4T to 8T\n\n\
                  `dezghuri undo shop.txt` takes the last one back.\n";
    assert!(shown.out.contains(listed), "{}", shown.out);
    let object = read(&untouched(&folder, "stage shop.txt --json").out);
    assert_eq!(object.get("refusal").line(), "14");
    done(&folder, "undo shop.txt");
    let undone = done(&folder, "undo shop.txt");
    assert!(
        undone.starts_with("Taken back: remove box 2.\n"),
        "{undone}"
    );
    done(&folder, "apply shop.txt");
}

#[test]
fn a_box_that_the_text_has_by_now_is_told() {
    let folder = staged_shop("edited-present");
    folder.write("shop.txt", FILE.to_owned() + "box 7 attic 4T\n");
    let told = "shop.txt.staged: change 1, add box 7 in attic, 4T, new box, cannot be made: box 7 is \
                there already, at byte 18 (refused 13); `dezghuri undo shop.txt` takes the last one \
                back";
    fails(&folder, "plan shop.txt --staged", 1, told);
}

/// A change can be taken back whatever the text has become.
#[test]
fn a_text_that_is_at_fault_keeps_no_change() {
    let folder = staged_shop("edited-fault");
    folder.write("shop.txt", "copies 2\n");
    assert_eq!(untouched(&folder, "stage shop.txt").status, 2);
    assert_eq!(untouched(&folder, "apply shop.txt").status, 2);
    let object = read(&done(&folder, "undo shop.txt --json"));
    assert_eq!(object.get("boxes").line(), "null");
    assert_eq!(folder.read("shop.txt.staged"), whole(&changes()[..40]));
    let undone = done(&folder, "undo shop.txt");
    assert!(
        undone.starts_with("Taken back: remove box 2.\n"),
        "{undone}"
    );
    done(&folder, "undo shop.txt");
    assert_eq!(folder.names(), ["shop.txt"]);
}

#[test]
fn without_a_text_nothing_is_staged() {
    let folder = Folder::new("staged-no-text");
    for line in ["stage shop.txt", "stage shop.txt remove 1", "undo shop.txt"] {
        let told = "shop.txt: No such file or directory (os error 2)";
        fails(&folder, line, 2, told);
    }
}
