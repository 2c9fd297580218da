//! What comes and goes between two layouts.

use crate::folder::{layout_record, Folder};
use crate::planned_home;

/// Box 1 is gone, box 4 is new.
const FILE: &str = "copies 2\nzones 1\nbits 2\nbox 2 shop 50 tower\nbox 3 home 50\nbox 4 home 50\n";

/// Three copies go with box 1; box 3 gets partition 0, box 4 gets 1 and 2; five copies stay.
pub fn two_layouts(name: &str) -> Folder {
    let folder = Folder::new(name);
    folder.write("home.txt", FILE);
    let old: [&[u32]; 4] = [&[1, 2], &[1, 2], &[1, 3], &[2, 3]];
    let new: [&[u32]; 4] = [&[2, 3], &[2, 4], &[3, 4], &[2, 3]];
    folder.write("old", layout_record(2, 10, &old));
    folder.write("new", layout_record(2, 15, &new));
    folder
}

/// What comes takes 15 MB a copy, what goes 10 MB.
#[test]
fn two_layouts_are_compared() {
    let done = two_layouts("compared").call("diff home.txt old new");
    assert_eq!((done.status, done.err.as_str()), (0, ""));
    assert_eq!(done.out, include_str!("diff.txt"));
}

#[test]
fn a_layout_is_compared_with_itself() {
    let done = two_layouts("itself-compared").call("diff home.txt new new");
    assert_eq!(done.status, 0, "{}", done.err);
    let told = "Comes: 0 copies, 0 MB. Goes: 0 copies, 0 MB. Stays: 8 copies.\n";
    assert!(done.out.contains(told), "{}", done.out);
}

/// The copies of each box before and after are those of the two plans. Box 6 gets 192 and box 3 six,
/// which it gives up in other rows; 192 * 19,531 MB are 3,749 GB, 6 * 19,531 MB are 117 GB, 19 * 18,262
/// MB are 346 GB, 154 * 18,262 MB are 2,812 GB.
#[test]
fn the_sample_is_compared_with_its_next_layout() {
    let folder = planned_home("compared-home");
    let planned = folder.call("plan next.txt --former last --out next");
    assert_eq!(planned.status, 0, "{}", planned.err);
    let done = folder.call("diff next.txt last next");
    assert_eq!((done.status, done.err.as_str()), (0, ""));
    assert_eq!(done.out, include_str!("diff-home.txt"));
}

#[test]
fn layouts_of_other_partitions_are_not_compared() {
    let folder = two_layouts("compared-bits");
    folder.write("new", layout_record(1, 15, &[&[2, 3], &[2, 4]]));
    let done = folder.call("diff home.txt old new");
    let told = "old was planned with bits 2, new with bits 1: their partitions have nothing in \
                common\n";
    assert_eq!((done.status, done.err.as_str()), (2, told));
}
