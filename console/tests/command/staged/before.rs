//! What version 0.5.0 has staged: boxes of ten bytes, without a ceiling. Nothing of it is lost.

use super::applied::APPLIED;
use super::{changes, done, fails, shop, staged_shop, sum, whole, CHANGES, FILE};
use crate::folder::Folder;

/// The three changes as that version wrote them: the box begins at byte 18, and has no ceiling.
fn before() -> Vec<u8> {
    let now = changes();
    [&now[..18], &[20, 0, 10], &now[21..31], &now[33..]].concat()
}

/// The shop with all three changes, staged by that version.
fn shop_before(name: &str) -> Folder {
    let folder = shop(&format!("before-{name}"));
    folder.write("shop.txt.staged", whole(&before()));
    folder
}

#[test]
fn it_is_shown_and_planned_as_if_it_were_staged_now() {
    let (folder, now) = (shop_before("shown"), staged_shop("before-now"));
    for line in [
        "stage shop.txt",
        "stage shop.txt --json",
        "plan shop.txt --staged",
        "plan shop.txt --staged --json",
    ] {
        assert_eq!(done(&folder, line), done(&now, line), "{line}");
    }
    assert_eq!(folder.read("shop.txt.staged"), whole(&before()));
}

/// What is written has the box with the highest ceiling.
#[test]
fn it_is_written_with_ceilings() {
    let folder = shop_before("undo");
    done(&folder, "undo shop.txt");
    assert_eq!(folder.read("shop.txt.staged"), whole(&changes()[..40]));
    done(&folder, CHANGES[2]);
    assert_eq!(folder.read("shop.txt.staged"), whole(&changes()));
    let folder = shop_before("stage");
    done(&folder, "stage shop.txt resize 1 8T");
    let grown = [22, 0, 8, 0, 0, 0, 1, 0, 0x7a, 0x12, 0];
    let expected = whole(&[&changes()[..], &grown].concat());
    assert_eq!(folder.read("shop.txt.staged"), expected);
}

#[test]
fn it_is_applied() {
    let folder = shop_before("apply");
    done(&folder, "apply shop.txt");
    assert_eq!(folder.names(), ["shop.txt", "shop.txt.old"]);
    assert_eq!(folder.read("shop.txt"), APPLIED.as_bytes());
    assert_eq!(folder.read("shop.txt.old"), FILE.as_bytes());
}

/// The power went while that version applied it, before the text was written or after.
#[test]
fn it_is_applied_once() {
    let sums = [FILE, APPLIED].map(|text| sum(text.as_bytes())).concat();
    let sealed = whole(&[&before()[..], &[242, 0, 16], &sums].concat());
    for (name, text) in [("sealed", FILE), ("sealed-after", APPLIED)] {
        let folder = shop_before(name);
        folder.write("shop.txt", text);
        folder.write("shop.txt.staged", &sealed);
        done(&folder, "apply shop.txt");
        assert_eq!(folder.read("shop.txt"), APPLIED.as_bytes(), "{name}");
        assert!(!folder.names().contains(&"shop.txt.staged".into()));
    }
}

/// Bytes are told as they are in the file, which is not touched.
#[test]
fn a_change_of_it_that_cannot_be_made_is_told() {
    let folder = shop_before("refused");
    folder.write("shop.txt", FILE.replace("box 2 shop 2T old tower\n", ""));
    let told =
        "shop.txt.staged: change 2, remove box 2, cannot be made: there is no box 2, at byte 31 \
                (refused 14); `dezghuri undo shop.txt` takes the last one back";
    fails(&folder, "plan shop.txt --staged", 1, told);
}

/// With ceilings it would be a file that is too long to be read again.
#[test]
fn what_grows_too_long_is_not_written() {
    let folder = shop("before-long");
    let added = &before()[18..31];
    let mut fields = Vec::new();
    while fields.len() + 31 < (1 << 20) {
        fields.extend([added, &[21, 0, 4, 0, 0, 0, 7]].concat());
    }
    folder.write("shop.txt.staged", whole(&fields));
    let told = "shop.txt.staged: this is too long to be staged";
    fails(&folder, "undo shop.txt", 2, told);
}
