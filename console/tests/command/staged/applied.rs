//! What is staged, written into the text; and what a loss of power leaves.

use super::{changes, done, fails, shop, staged_shop, sum, untouched, whole, CHANGES, FILE};
use crate::folder::Folder;
use crate::read_json::read;

/// The text with all three changes.
pub const APPLIED: &str =
    "# The shop.\ncopies 2\nzones 1\nbits 1\n\nbox 1 home 4T study   # since May\n\
                       box 3 home 8T\nbox 7 attic 4T new box\n";

/// All three changes, as `apply` leaves them before it replaces the text: with the sums of both.
pub fn sealed() -> Vec<u8> {
    let [before, after] = [FILE, APPLIED].map(|text| sum(text.as_bytes()));
    whole(&[&changes()[..], &[242, 0, 16], &before, &after].concat())
}

#[test]
fn the_text_is_rewritten_and_the_old_one_kept() {
    let folder = staged_shop("apply");
    let told =
        "shop.txt with 3 staged changes:\n\n  1  add box 7 in attic, 4T, new box\n  2  remove \
                box 2 (old tower, shop, 2T)\n  3  resize box 3 (home) from 4T to 8T\n\n\
                Written to shop.txt.\nThe cluster description before it is kept as shop.txt.old.\n\
                shop.txt.staged is removed.\n";
    assert_eq!(done(&folder, "apply shop.txt"), told);
    assert_eq!(folder.names(), ["shop.txt", "shop.txt.old"]);
    assert_eq!(folder.read("shop.txt"), APPLIED.as_bytes());
    assert_eq!(folder.read("shop.txt.old"), FILE.as_bytes());
    done(&folder, "stage shop.txt remove 1");
    let told = done(&folder, "apply shop.txt");
    let kept = "The cluster description before it is kept as shop.txt.old, the one before that as \
                shop.txt.old.1.\n";
    assert!(told.contains(kept), "{told}");
    assert_eq!(folder.read("shop.txt.old"), APPLIED.as_bytes());
    assert_eq!(folder.read("shop.txt.old.1"), FILE.as_bytes());
    let text = String::from_utf8(folder.read("shop.txt")).unwrap();
    assert!(text.contains("# since May"), "{text}");
}

#[test]
fn a_text_that_says_so_already_stays() {
    let folder = shop("apply-same");
    done(&folder, "stage shop.txt add 7 attic 4T");
    done(&folder, "stage shop.txt remove 7");
    done(&folder, "stage shop.txt resize 1 4T");
    let told = done(&folder, "apply shop.txt");
    let end = "\nshop.txt says so already.\nshop.txt.staged is removed.\n";
    assert!(told.ends_with(end), "{told}");
    assert_eq!(folder.names(), ["shop.txt"]);
    assert_eq!(folder.read("shop.txt"), FILE.as_bytes());
}

/// The text has room for ten bytes more, and the new line needs more.
#[test]
fn a_text_that_would_be_too_long_is_not_written() {
    let folder = shop("apply-long");
    let remark = "#".repeat((1 << 20) - FILE.len() - 11);
    let long = format!("{FILE}{remark}\n");
    folder.write("shop.txt", long.as_bytes());
    done(&folder, "stage shop.txt add 7 attic 4T new box");
    let told = "shop.txt: not written: it would be too long to describe a cluster";
    fails(&folder, "apply shop.txt", 2, told);
    assert_eq!(folder.names(), ["shop.txt", "shop.txt.staged"]);
    assert_eq!(folder.read("shop.txt"), long.as_bytes());
}

#[test]
fn the_last_box_is_not_removed() {
    let folder = shop("apply-none");
    for id in [1, 2, 3] {
        done(&folder, &format!("stage shop.txt remove {id}"));
    }
    let told = "shop.txt: not written: no box would be left in it";
    fails(&folder, "apply shop.txt", 2, told);
    let planned = untouched(&folder, "plan shop.txt --staged");
    assert_eq!(planned.status, 1, "{}", planned.err);
}

/// The power went after the sums were written and before the text was.
#[test]
fn what_was_about_to_be_applied_stands() {
    let folder = staged_shop("power-before");
    folder.write("shop.txt.staged", sealed());
    let shown = done(&folder, "stage shop.txt");
    assert!(shown.starts_with("shop.txt with 3 staged changes:\n"));
    assert_eq!(folder.read("shop.txt.staged"), sealed());
    done(&folder, "undo shop.txt");
    assert_eq!(folder.read("shop.txt.staged"), whole(&changes()[..40]));
    folder.write("shop.txt.staged", sealed());
    done(&folder, "stage shop.txt resize 1 8T");
    let grown = [22, 0, 8, 0, 0, 0, 1, 0, 0x7a, 0x12, 0];
    let expected = whole(&[&changes()[..], &grown].concat());
    assert_eq!(folder.read("shop.txt.staged"), expected);
    folder.write("shop.txt.staged", sealed());
    done(&folder, "apply shop.txt");
    assert_eq!(folder.read("shop.txt"), APPLIED.as_bytes());
    assert_eq!(folder.names(), ["shop.txt", "shop.txt.old"]);
}

/// The power went after the text was written and before the file of what was staged was removed.
fn left_over(name: &str) -> Folder {
    let folder = shop(name);
    folder.write("shop.txt", APPLIED);
    folder.write("shop.txt.staged", sealed());
    folder
}

#[test]
fn what_was_applied_is_not_staged_any_more() {
    let folder = left_over("power-after");
    let planned = untouched(&folder, "plan shop.txt --staged");
    let told = "warning: nothing is staged for shop.txt\n";
    assert_eq!((planned.status, planned.err.as_str()), (0, told));
    let shown = untouched(&folder, "stage shop.txt");
    let told = "Nothing is staged for shop.txt: all that was is written into it. `dezghuri apply \
                shop.txt` removes shop.txt.staged, which is left over.\n";
    assert_eq!((shown.status, shown.out.as_str()), (0, told));

    let folder = left_over("power-after-apply");
    let told = "All that was staged for shop.txt is written into it already.\n\
                shop.txt.staged is removed.\n";
    assert_eq!(done(&folder, "apply shop.txt"), told);
    assert_eq!(folder.names(), ["shop.txt"]);
    let folder = left_over("power-after-object");
    let object = read(&done(&folder, "apply shop.txt --json"));
    assert_eq!(object.get("applied").line(), "true");
    assert_eq!(object.get("changes").line(), "[]");

    let folder = left_over("power-after-undo");
    let undone = folder.call("undo shop.txt");
    let told = "nothing is staged for shop.txt: all that was is written into it. \
                shop.txt.staged is removed.\n";
    assert_eq!((undone.status, undone.err.as_str()), (2, told));
    assert_eq!(folder.names(), ["shop.txt"]);
    assert_eq!(folder.read("shop.txt"), APPLIED.as_bytes());
}

#[test]
fn a_new_change_replaces_what_was_applied() {
    let folder = left_over("power-after-stage");
    done(&folder, "stage shop.txt remove 7");
    assert_eq!(
        folder.read("shop.txt.staged"),
        whole(&[21, 0, 4, 0, 0, 0, 7])
    );
}

/// What is told where the text is neither that of before an `apply` nor that of after it.
const EDITED: &str =
    "shop.txt.staged: `apply` was cut short, and shop.txt was edited since: what is \
                      staged may be in it already; `dezghuri stage shop.txt show` shows it, \
                      `dezghuri undo shop.txt` takes the last one back";

/// The power went while all was applied, and then the owner edited the text.
fn edited(name: &str, text: &str) -> Folder {
    let folder = shop(name);
    folder.write("shop.txt", text.to_owned() + "# Edited.\n");
    folder.write("shop.txt.staged", sealed());
    folder
}

/// The power went before the text was written: all changes can be made still.
#[test]
fn an_edited_text_keeps_what_was_about_to_be_applied() {
    let warned = |folder: &Folder, line: &str| {
        let done = folder.call(line);
        let told = format!("warning: {EDITED}\n");
        assert_eq!((done.status, done.err), (0, told), "{line}");
        done.out
    };
    let folder = edited("edited-before", FILE);
    let shown = warned(&folder, "stage shop.txt show");
    assert!(shown.starts_with("shop.txt with 3 staged changes:\n"));
    let planned = warned(&folder, "plan shop.txt --staged");
    assert!(planned.starts_with("shop.txt with 3 staged changes: "));
    assert_eq!(folder.read("shop.txt.staged"), sealed());
    let object = read(&warned(&folder, "stage shop.txt --json"));
    assert_eq!(object.get("warnings").line(), format!("[\"{EDITED}\"]"));
    warned(&folder, "undo shop.txt");
    assert_eq!(folder.read("shop.txt.staged"), whole(&changes()[..40]));
    done(&folder, "stage shop.txt");
    let folder = edited("edited-before-stage", FILE);
    warned(&folder, "stage shop.txt remove 1");
    let more = [&changes()[..], &[21, 0, 4, 0, 0, 0, 1]].concat();
    assert_eq!(folder.read("shop.txt.staged"), whole(&more));
    let folder = edited("edited-before-apply", FILE);
    warned(&folder, "apply shop.txt");
    let text = String::from_utf8(folder.read("shop.txt")).unwrap();
    assert!(text.contains("box 7 attic 4T new box\n"), "{text}");
    assert!(text.contains("# Edited.\n"), "{text}");
    assert_eq!(folder.names(), ["shop.txt", "shop.txt.old"]);
}

/// The power went after the text was written: the changes are in it, and nothing is made twice.
#[test]
fn an_edited_text_that_has_all_is_warned_of() {
    let folder = edited("edited-after", APPLIED);
    let refused =
        "shop.txt.staged: change 1, add box 7 in attic, 4T, new box, cannot be made: box 7 \
                   is there already, at byte 18 (refused 13); `dezghuri undo shop.txt` takes the \
                   last one back";
    let told = format!("warning: {EDITED}\n{refused}");
    for line in [
        "plan shop.txt --staged",
        "stage shop.txt remove 1",
        "apply shop.txt",
    ] {
        fails(&folder, line, 1, &told);
    }
    let shown = untouched(&folder, "stage shop.txt");
    assert_eq!((shown.status, shown.err), (1, told + "\n"));
    for id in [3, 2, 7] {
        let undone = folder.call("undo shop.txt");
        assert_eq!(undone.status, 0, "{id}: {}", undone.err);
        assert_eq!(undone.err.contains(EDITED), id == 3, "{}", undone.err);
    }
    assert_eq!(folder.names(), ["shop.txt"]);
}

/// All changes at once, again and again, come to the same text.
#[test]
fn applying_step_by_step_is_applying_at_once() {
    let folder = shop("apply-steps");
    for line in CHANGES {
        done(&folder, line);
        done(&folder, "stage shop.txt apply");
    }
    assert_eq!(folder.read("shop.txt"), APPLIED.as_bytes());
}
