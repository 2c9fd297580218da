//! What is said of a layout: its age, where it comes from, and that it is not what was written.

use super::*;
use crate::folder::layout_record;

#[test]
fn without_a_history_only_a_plan_says_so() {
    let folder = shop("none");
    let rows: [&[u32]; 4] = [&[1, 3], &[1, 3], &[2, 3], &[2, 3]];
    folder.write("last", layout_record(2, 1_875, &rows));
    for line in [
        "check shop.txt last",
        "show shop.txt last",
        "loss shop.txt last",
        "diff shop.txt last last",
        "moves shop.txt last last",
        "report shop.txt last --former last --out page",
        "certify shop.txt last --former last --out prices",
        "report shop.txt --former last --out page",
        "what-if shop.txt --former last --remove 2",
        "record shop.txt --former last --out record",
        "plan shop.txt",
    ] {
        quiet(&folder, line);
    }
    let unknown =
        "shop.txt.history is not there: whether last is whole and the newest is not known";
    noted(&folder, "plan shop.txt --former last", unknown);
    let begins = "shop.txt.history is not there: it begins with this layout";
    noted(&folder, "plan shop.txt --out first", begins);
    quiet(&folder, "plan shop.txt --out second");
}

/// The newest layout is nothing to speak of, under whatever name and in whatever folder.
#[test]
fn a_layout_is_known_by_its_sum() {
    let folder = three_versions("sums");
    fs::create_dir(folder.path("aside")).unwrap();
    copy(&folder, "last", "aside/copy");
    fs::rename(folder.path("last"), folder.path("renamed")).unwrap();
    for layout in ["renamed", "aside/copy"] {
        quiet(&folder, &format!("plan shop.txt --former {layout}"));
        quiet(&folder, &format!("check shop.txt {layout}"));
    }
    // What has the name of a layout may be another one that is whole.
    copy(&folder, "first", "last");
    let told =
        "last is version 1 of 2026-11-17; version 3 was planned on 2026-11-17 as last, and is \
                not there";
    warned(&folder, "plan shop.txt --former last", told);
}

#[test]
fn an_older_layout_is_told() {
    let folder = three_versions("older");
    for (layout, version) in [("first", 1), ("last.old", 2)] {
        let told =
            format!("{layout} is version {version} of 2026-11-17; the newest is version 3, last");
        for line in [
            format!("plan shop.txt --former {layout}"),
            format!("show shop.txt {layout} 0"),
            format!("what-if shop.txt --former {layout} --remove 1"),
            format!("report shop.txt --former {layout} --out page"),
        ] {
            warned(&folder, &line, &told);
        }
    }
    quiet(&folder, "diff shop.txt first last");
    let object = read(&folder.call("check shop.txt last.old --json").out);
    let told = r#"["last.old is version 2 of 2026-11-17; the newest is version 3, last"]"#;
    assert_eq!(object.get("warnings").line(), told);
}

/// Who moves from one layout to another should hold the one that it was planned from.
#[test]
fn a_layout_that_the_other_was_not_planned_from_is_told() {
    let folder = three_versions("pairs");
    quiet(&folder, "moves shop.txt last.old last");
    quiet(&folder, "report shop.txt last --former last.old --out page");
    let told = "last, version 3, was planned from version 2, last, and not from first";
    warned(&folder, "moves shop.txt first last", told);
    warned(
        &folder,
        "report shop.txt last --former first --out page",
        told,
    );
    warned(&folder, "certify shop.txt --former first last", told);
    // What another one was planned from is no fault of it; but there is a newer one.
    let told = "last.old is version 2 of 2026-11-17; the newest is version 3, last";
    warned(&folder, "moves shop.txt first last.old", told);
}

#[test]
fn a_layout_that_is_not_what_was_written_is_refused() {
    let folder = three_versions("refused");
    let record = folder.read("last");
    folder.write("last", with_another_bit(&record));
    let not =
        "is not what was written there as version 3 of 2026-11-17: it is damaged, or another \
               layout has taken its place";
    let names = folder.names();
    let refused = folder.call("plan shop.txt --former last --out next");
    let told = format!(
        "last: not planned from: it {not}\nBring back the layout that the boxes hold: `dezghuri \
         history shop.txt` says where each is. Where this is it, --damaged-anyway plans from it.\n"
    );
    assert_eq!(
        (refused.status, refused.err, refused.out.as_str()),
        (2, told, "")
    );
    assert_eq!(folder.names(), names);
    let told = format!("last {not}");
    for line in [
        "check shop.txt last",
        "show shop.txt last",
        "loss shop.txt last",
        "diff shop.txt first last",
        "moves shop.txt last.old last",
        "what-if shop.txt --former last --remove 1",
        "report shop.txt last --out page",
        "plan shop.txt --former last --damaged-anyway --out next",
    ] {
        warned(&folder, line, &told);
    }
    // It was taken once, and is told each time.
    let told =
        "last was there before version 4, and has no line in shop.txt.history; the newest is \
                version 4, next";
    warned(&folder, "plan shop.txt --former last", told);
    // A whole one needs no word.
    quiet(&folder, "plan shop.txt --former next --damaged-anyway");
}

/// A line that is damaged may be that of the layout: it is told, and not refused.
#[test]
fn a_layout_whose_line_is_damaged_is_not_refused() {
    let folder = three_versions("lost-line");
    let mut history = folder.read("shop.txt.history");
    let end = history.len() - 2;
    history[end] ^= 1;
    folder.write("shop.txt.history", history);
    let done = folder.call("plan shop.txt --former last --out next");
    let told = "warning: shop.txt.history, line 4: it is damaged or cut short, and not read; the others \
                are\nwarning: last is not what was written there as version 2 of 2026-11-17: it is \
                damaged, or another layout has taken its place; or a line of shop.txt.history that is \
                damaged is its\n";
    assert_eq!((done.status, done.err.as_str()), (0, told));
}

/// The clusters of one folder, each with a history: that of a garage has other boxes.
#[test]
fn a_layout_of_another_text_is_told() {
    let folder = three_versions("others");
    folder.write("next.txt", NEXT);
    folder.write("garage.txt", SHOP.replace("box ", "box 10"));
    folder.write("notes.history", "in May");
    noted(
        &folder,
        "plan next.txt --former last",
        "last was planned for shop.txt",
    );
    noted(
        &folder,
        "plan garage.txt --out garage",
        "garage.txt.history is not there: it begins with this layout",
    );
    let told = "garage: none of its boxes is in shop.txt: it was planned for garage.txt";
    warned(&folder, "plan shop.txt --former garage", told);
    warned(&folder, "show shop.txt garage", told);
    let told = "last: none of its boxes is in garage.txt: it was planned for shop.txt";
    warned(&folder, "plan garage.txt --former last", told);
    // A name that the history has, with a layout that is whole, is no damage.
    copy(&folder, "garage", "first");
    let told = "first: none of its boxes is in shop.txt: it was planned for garage.txt";
    warned(&folder, "plan shop.txt --former first", told);
}

#[test]
fn a_layout_that_no_history_knows_is_told() {
    let folder = three_versions("unknown");
    let rows: [&[u32]; 4] = [&[1, 3], &[1, 3], &[3, 4], &[3, 4]];
    folder.write("mine", layout_record(2, 1_500, &rows));
    let told =
        "shop.txt.history does not know mine: whether it is whole and the newest is not known";
    warned(&folder, "plan shop.txt --former mine", told);
    warned(&folder, "check shop.txt mine", told);
    quiet(&folder, "record shop.txt --former mine --out record");
    // With boxes of another cluster that is all that is said.
    let rows: [&[u32]; 4] = [&[8, 9]; 4];
    folder.write("mine", layout_record(2, 1_500, &rows));
    let told = "mine: none of its boxes is in shop.txt: is it the layout of another cluster?";
    warned(&folder, "plan shop.txt --former mine", told);
    warned(&folder, "plan shop.txt --former mine --out next", told);
    // It was met when that was planned.
    let met =
        "mine was there before version 4, and has no line in shop.txt.history; the newest is \
                version 4, next";
    let err = folder.call("plan shop.txt --former mine").err;
    assert_eq!(err, format!("warning: {met}\nwarning: {told}\n"));
}

/// A layout of before there was a history, kept as `.old` by the first plan that has a line.
#[test]
fn a_layout_of_before_the_history_is_known_once_it_was_met() {
    let folder = shop("before");
    let rows: [&[u32]; 4] = [&[1, 3], &[1, 3], &[2, 3], &[2, 3]];
    folder.write("last", layout_record(2, 1_500, &rows));
    assert_eq!(
        folder.call("plan shop.txt --former last --out last").status,
        0
    );
    quiet(&folder, "plan shop.txt --former last");
    quiet(&folder, "moves shop.txt last.old last");
    let told =
        "last.old was there before version 1, and has no line in shop.txt.history; the newest is \
                version 1, last";
    warned(&folder, "plan shop.txt --former last.old", told);
}
