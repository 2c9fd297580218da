//! The transfers between two layouts, one after another.

use crate::folder::{layout_record, Folder};
use crate::read_json::{read, Value};
use crate::{planned_home, THREE};

/// Boxes 2 and 9 are gone, box 4 is new.
const FILE: &str =
    "copies 2\nzones 1\nbits 2\nbox 1 shop 100 tower\nbox 3 home 100\nbox 4 home 100 new box\n";

/// Of partition 0 box 1 has a copy left, of 1 box 3, of 2 both, of 3 none. Box 4 gets all four, box 3 drops 2 and
/// gets 3. At 20 MB box 4 takes 80 of the 94 MB that may be filled.
pub fn moving(name: &str) -> Folder {
    let folder = Folder::new(name);
    folder.write("home.txt", FILE);
    let old: [&[u32]; 4] = [&[1, 2], &[3, 9], &[1, 3], &[2, 9]];
    let new: [&[u32]; 4] = [&[1, 4], &[3, 4], &[1, 4], &[3, 4]];
    folder.write("old", layout_record(2, 10, &old));
    folder.write("new", layout_record(2, 20, &new));
    folder
}

fn printed(folder: &Folder, words: &str) -> String {
    let done = folder.call(&format!("moves home.txt old new {words}"));
    assert_eq!((done.status, done.err.as_str()), (0, ""), "{words}");
    done.out
}

/// Each copy that is sent adds the 20 MB of the new layout.
#[test]
fn the_steps_are_listed_one_after_another() {
    let folder = moving("moves");
    assert_eq!(printed(&folder, ""), include_str!("moves.txt"));
    assert_eq!(folder.names(), ["home.txt", "new", "old"]);
}

#[test]
fn the_steps_are_listed_by_box() {
    let folder = moving("moves-by-box");
    let by_box = printed(&folder, "--by-box");
    assert_eq!(by_box, include_str!("moves-by-box.txt"));
}

/// Once box 3 has partition 3, box 4 can take it from there.
#[test]
fn what_is_left_is_made_afresh() {
    let folder = moving("moves-done");
    let left = printed(&folder, "--done 5");
    assert_eq!(left, include_str!("moves-done.txt"));
    let by_box = printed(&folder, "--done 5 --by-box");
    let told =
        "     6  receive partition 3 from box 3\n\nNothing to do at boxes 1 (tower) and 3.\n";
    assert!(by_box.contains(told), "{by_box}");
    assert!(!by_box.contains("Lost"), "{by_box}");
}

/// The lines that are left after each number of steps are those of the whole list, but for sources that are there
/// since.
#[test]
fn numbers_and_sums_go_on_after_any_step() {
    let folder = planned_home("moves-home");
    let planned = folder.call("plan next.txt --former last --out next");
    assert_eq!(planned.status, 0, "{}", planned.err);
    let lines = |words: &str| -> Vec<String> {
        let done = folder.call(&format!("moves next.txt last next {words}"));
        assert_eq!((done.status, done.err.as_str()), (0, ""), "{words}");
        let is_step = |line: &&str| line.contains(" partition ") && line.starts_with("  ");
        let line = |line: &str| line.split_whitespace().collect::<Vec<_>>().join(" ");
        done.out.lines().filter(is_step).map(line).collect()
    };
    let all = lines("");
    assert_eq!(all.len(), 198 + 44);
    for done in [0, 1, 2, 128, 129, 130, 131, 200, 241] {
        let left = lines(&format!("--done {done}"));
        assert_eq!(left, all[done..], "{done}");
    }
}

#[test]
fn all_steps_done_is_the_new_layout() {
    let folder = moving("moves-all");
    let told = "All 6 steps are done: the boxes hold new.\n";
    assert_eq!(printed(&folder, "--done 6"), told);
    assert_eq!(printed(&folder, "--done 6 --by-box"), told);
    let object = read(&printed(&folder, "--done 6 --json"));
    assert_eq!(object.get("moves").line(), "[]");
    assert_eq!(object.get("steps").line(), "6");
    let done = folder.call("moves home.txt old new --done 7");
    let told = "--done 7: there are 6 steps from old to new, and no more\n";
    assert_eq!((done.status, done.err.as_str()), (2, told));
    folder.write("old", folder.read("new"));
    let told = "Nothing has to be moved: the boxes hold new already.\n";
    assert_eq!(printed(&folder, ""), told);
    assert_eq!(printed(&folder, "--done 0"), told);
    let done = folder.call("moves home.txt old new --done 1");
    let told = "--done 1: there are 0 steps from old to new, and no more\n";
    assert_eq!((done.status, done.err.as_str()), (2, told));
}

#[test]
fn the_steps_are_an_object() {
    let folder = moving("moves-object");
    for by_box in ["", "--by-box "] {
        let object = printed(&folder, &format!("{by_box}--done 3 --json"));
        assert_eq!(object, include_str!("moves.json"));
    }
    let whole = read(&printed(&folder, "--json"));
    assert_eq!(whole.get("done"), &Value::Null);
    assert_eq!(whole.get("moves").list().len(), 6);
    let first = r#"{"id":4,"kind":"send","partition":0,"sent_mb":20,"source":1,"step":1}"#;
    assert_eq!(whole.get("moves").list()[0].line(), first);
}

/// Boxes of 100 MB take four copies of 20 MB, and not of 24 MB.
#[test]
fn a_layout_that_does_not_fit_is_none_to_go_to() {
    let folder = moving("moves-fault");
    let told = |rows: [&[u32]; 4], size: u32| {
        folder.write("new", layout_record(2, size, &rows));
        let done = folder.call("moves home.txt old new");
        assert_eq!((done.status, done.out.as_str()), (1, ""));
        let told = done
            .err
            .strip_prefix("new is not valid for home.txt as it is now: ");
        told.expect("it is told").to_string()
    };
    assert_eq!(
        told([&[1, 4], &[2, 4], &[1, 4], &[3, 4]], 20),
        "partition 1 lies on box 2, which is not there (refused 10)\n"
    );
    assert_eq!(
        told([&[1], &[3], &[1], &[3]], 20),
        "it has 1 copy of each partition, 2 are wanted (refused 10)\n"
    );
    assert_eq!(
        told([&[1, 4], &[3, 4], &[1, 4], &[3, 4]], 24),
        "box 4 (new box) is to hold 4 copies of 24 MB, 96 MB together, and may hold 94 MB of its 100 MB, since a sixteenth \
         stays free: plan again, with this layout as --former (refused 12)\n"
    );
    let object = read(&folder.call("moves home.txt old new --json").out);
    assert_eq!(object.get("error").get("refusal").line(), "12");
}

#[test]
fn layouts_of_other_partitions_are_refused() {
    let folder = moving("moves-bits");
    folder.write("three.txt", THREE);
    let done = folder.call("moves three.txt old new");
    let told = "old was planned with bits 2, three.txt has bits 1: they cannot change\n";
    assert_eq!((done.status, done.err.as_str()), (2, told));
    folder.write("new", layout_record(1, 20, &[&[1, 4], &[3, 4]]));
    let done = folder.call("moves home.txt old new");
    let told =
        "new is not valid for home.txt as it is now: it has bits 1, 2 are wanted (refused 10)\n";
    assert_eq!((done.status, done.err.as_str()), (1, told));
    let done = folder.call("moves home.txt home.txt new");
    let told = "home.txt: this is a text file, and not a layout record\n";
    assert_eq!((done.status, done.err.as_str()), (2, told));
}

/// Where no box of the old layout is there, it may be that of another cluster; then all has to come from elsewhere.
#[test]
fn an_old_layout_of_other_boxes_is_warned_of() {
    let folder = moving("moves-others");
    folder.write("old", layout_record(2, 10, &[&[7], &[7], &[7], &[7]]));
    let done = folder.call("moves home.txt old new");
    let told =
        "warning: old: none of its boxes is in home.txt: is it the layout of another cluster?\n";
    assert_eq!((done.status, done.err.as_str()), (0, told));
    let lost = "Lost: 4 of 4 partitions have no copy on any box: 0, 1, 2, 3.\n";
    assert!(done.out.starts_with(lost), "{}", done.out);
}

/// The new layout has a box that is staged; without it, it is not valid.
#[test]
fn staged_boxes_count_where_they_are_asked_for() {
    let folder = moving("moves-staged");
    let new: [&[u32]; 4] = [&[1, 5], &[3, 4], &[1, 4], &[3, 4]];
    folder.write("new", layout_record(2, 20, &new));
    assert_eq!(folder.call("moves home.txt old new").status, 1);
    let staged = folder.call("stage home.txt add 5 attic 100 shelf");
    assert_eq!(staged.status, 0, "{}", staged.err);
    let told = "send partition 0 to box 5 (shelf) from box 1 (tower)";
    let listed = printed(&folder, "--staged");
    assert!(listed.contains(told), "{listed}");
}
