//! Why the size is no larger, and why boxes are not used.

use crate::folder::{layout_record, Folder};

fn planned(name: &str, text: &str) -> String {
    let folder = Folder::new(name);
    folder.write("home.txt", text);
    let done = folder.call("plan home.txt");
    assert_eq!((done.status, done.err.as_str()), (0, ""));
    done.out
}

/// Of 2 and 1 TB 1,875,000 and 937,500 MB may be filled. At 10,964 MB boxes 2 and 3 take 171 + 85 = 256
/// copies, at 10,965 MB box 2 takes one less; box 4 takes none. As each partition lies in both zones,
/// home holds all of them too: boxes 1 and 2 are all that 171 partitions have.
#[test]
fn a_zone_that_is_too_small_is_named() {
    let text = "copies 2\nzones 2\nbox 1 home 10T\nbox 2 shop 2T\nbox 3 shop 1T\nbox 4 shop 10G\n";
    assert_eq!(planned("why-zones", text), include_str!("why-zones.txt"));
}

/// Of 1 TB and 500 GB 937,500 and 468,750 MB may be filled. At 5,482 MB boxes 3 and 4 take 171 + 85 =
/// 256 copies, at 5,483 MB box 3 takes one less; boxes 1 and 2 take every partition, once.
#[test]
fn boxes_that_are_too_large_are_named() {
    let text =
        "copies 3\nzones 2\nbox 1 home 20T\nbox 2 shop 2T\nbox 3 shop 1T\nbox 4 attic 500G\n";
    assert_eq!(planned("why-boxes", text), include_str!("why-boxes.txt"));
}

/// Example A of the paper: at 24 MB box 3, of which 47 MB may be filled, takes one of two partitions,
/// and it is alone in home.
#[test]
fn both_are_named_where_both_fall_short() {
    let told = planned("why-both", crate::THREE);
    let why = "Why not more: each partition lies in at least 2 zones, and besides shop the other \
               zone, home, has no room for 1 more copy of each above 23 MB.\n\
               More disk in shop would not help.\n\
               Also, a box holds each partition once at most, and besides boxes 1 and 2 (tower) \
               the other box has no room for 1 more copy of each above 23 MB.\n\
               Larger disks in boxes 1 and 2 (tower) would not help.\n";
    assert!(told.contains(why), "{told}");
}

/// Example C of the paper: a partition of 10 MB fits no disk, though 14 MB are there.
#[test]
fn disks_that_fall_short_together_are_told_by_number() {
    let told = planned(
        "why-disks",
        "copies 1\nzones 1\nbits 0\nbox 1 a 5\nbox 2 a 9\n",
    );
    let why = "Upper bound: with nothing lost to rounding and zones it would be 14 MB a partition.\n\
               Why not more: at 10 MB a partition the disks together have room for 0 copies, and 1 \
               is wanted.\n\
               Unused: box 1 (a): what may be filled of its disk is smaller than one partition of 9 \
               MB.\n";
    assert!(told.contains(why), "{told}");
    assert!(!told.contains("sixteenth"), "{told}");
}

/// Box 2 has 16 MB, as much as a partition may grow to, and 15 of them may be filled.
#[test]
fn a_disk_that_is_too_small_by_what_stays_free_is_told() {
    let told = planned(
        "why-free",
        "copies 1\nzones 1\nbits 0\nbox 1 a 17\nbox 2 a 16\n",
    );
    let why =
        "Unused: box 2 (a): what may be filled of its disk is smaller than one partition of 16 \
               MB.\n";
    assert!(told.contains(why), "{told}");
}

/// Both zones hold the partition already, and a copy in box 3 would need a transfer. Box 4 is meant
/// to hold nothing.
#[test]
fn a_box_in_a_whole_zone_is_told() {
    let folder = Folder::new("why-unused");
    let text =
        "copies 2\nzones 2\nbits 0\nbox 1 home 9\nbox 2 shop 9\nbox 3 shop 9\nbox 4 attic 0\nbox 5 attic 9\n";
    folder.write("home.txt", text);
    folder.write("last", layout_record(0, 9, &[&[1, 2]]));
    let told = folder.call("plan home.txt --former last").out;
    let why = "Unused: box 3 (shop): shop holds every partition already, and none may lie there \
               twice.\n\
               Unused: box 5 (attic): all copies lie on other boxes, and with it the size would be \
               no larger.\n";
    assert!(told.contains(why), "{told}");
    assert!(!told.contains("Unused: box 4"), "{told}");
}

/// What rounding takes, less than a hundredth here, is not worth a sentence.
#[test]
fn nothing_is_told_where_little_is_lost() {
    for told in [include_str!("first.txt"), include_str!("next.txt")] {
        assert!(!told.contains("Why not more"));
    }
}
