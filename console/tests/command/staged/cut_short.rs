//! A call that ends at any instant, as a loss of power ends it: nothing is lost, nothing is made twice.

use super::applied::{sealed, APPLIED};
use super::{changes, staged_bytes, staged_shop, whole, FILE};
use crate::cut_short::{call_after, Cut};
use crate::folder::Folder;
use std::cell::Cell;

/// A call in the shop with all three changes staged, cut short at every step; how many there are.
fn at_every_step(name: &str, line: &str, look: &dyn Fn(&Folder)) -> usize {
    let cut = Cut {
        name,
        make: &staged_shop,
        line,
        lacking: "",
    };
    cut.at_every_step(look)
}

/// The text is the old one, and all is staged; or it is the new one, the old one is kept, and nothing
/// is staged, though the file of what was may be left over. Called once more, it is the new one.
#[test]
fn applying_ends_at_every_step() {
    let [before, left_over, after] = [Cell::new(0), Cell::new(0), Cell::new(0)];
    let count = |seen: &Cell<u32>| seen.set(seen.get() + 1);
    let steps = at_every_step("cut-apply", "apply shop.txt", &|folder| {
        let has_file = folder.path("shop.txt.staged").exists();
        let is_sealed = has_file && folder.read("shop.txt.staged") == sealed();
        assert!(!has_file || is_sealed || folder.read("shop.txt.staged") == staged_bytes());
        let shown = folder.call("stage shop.txt --json").out;
        if shown.contains("\"kind\": \"resize\"") {
            count(&before);
            assert_eq!(folder.read("shop.txt"), FILE.as_bytes());
        } else {
            count(if has_file { &left_over } else { &after });
            assert_eq!(has_file, is_sealed);
            assert!(shown.contains("\"changes\": []"), "{shown}");
        }
        if has_file {
            call_after(folder, "apply shop.txt");
        }
        assert_eq!(folder.read("shop.txt"), APPLIED.as_bytes());
        assert_eq!(folder.read("shop.txt.old"), FILE.as_bytes());
        assert_eq!(folder.names(), ["shop.txt", "shop.txt.old"]);
    });
    assert!(steps > 10, "{steps}");
    assert!([&before, &left_over, &after]
        .iter()
        .all(|seen| seen.get() > 0));
}

#[test]
fn staging_ends_at_every_step() {
    let grown = [22, 0, 8, 0, 0, 0, 1, 0, 0x7a, 0x12, 0];
    let after = whole(&[&changes()[..], &grown].concat());
    let line = "stage shop.txt resize 1 8T";
    let steps = at_every_step("cut-stage", line, &|folder| {
        let staged = folder.read("shop.txt.staged");
        assert!(staged == staged_bytes() || staged == after);
        assert_eq!(folder.read("shop.txt"), FILE.as_bytes());
        call_after(folder, "undo shop.txt");
        assert_eq!(folder.names(), ["shop.txt", "shop.txt.staged"]);
    });
    assert!(steps > 3, "{steps}");
}

#[test]
fn undoing_ends_at_every_step() {
    let steps = at_every_step("cut-undo", "undo shop.txt", &|folder| {
        let staged = folder.read("shop.txt.staged");
        assert!(staged == staged_bytes() || staged == whole(&changes()[..40]));
        assert_eq!(folder.read("shop.txt"), FILE.as_bytes());
        call_after(folder, "undo shop.txt");
        assert_eq!(folder.names(), ["shop.txt", "shop.txt.staged"]);
    });
    assert!(steps > 3, "{steps}");
}
