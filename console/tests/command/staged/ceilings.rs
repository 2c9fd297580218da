//! Ceilings in what is staged.

use super::{done, fails, shop, whole, FILE};
use crate::folder::Folder;
use crate::read_json::read;

/// The shop with ceilings for boxes 2 and 3.
fn limited(name: &str) -> Folder {
    let folder = shop(&format!("ceilings-{name}"));
    folder.write("shop.txt", text());
    folder
}

fn text() -> String {
    format!("ceiling 2 30 # a thin line\n{FILE}ceiling 3 50\n")
}

fn file(folder: &Folder) -> String {
    String::from_utf8(folder.read("shop.txt")).expect("text")
}

/// The box is read back with its ceiling, and planned with it, before it is applied and after.
#[test]
fn a_new_box_has_its_ceiling() {
    let folder = shop("ceilings-add");
    assert_eq!(
        done(&folder, "stage shop.txt add 7 attic 4T new box --ceiling 1"),
        "Staged for shop.txt: add box 7 in attic, 4T, new box, at most 1 copy.\n\
         1 change is staged now: `dezghuri plan shop.txt --staged` plans the boxes so.\n\
         Written to shop.txt.staged.\n"
    );
    let box_7 = [20, 0, 12, 0, 0, 0, 7, 0, 2, 0, 0x3d, 0x09, 0, 0, 1];
    let fields = [&[240, 0, 5][..], b"attic", &[241, 0, 7], b"new box", &box_7];
    assert_eq!(folder.read("shop.txt.staged"), whole(&fields.concat()));
    let shown = done(&folder, "stage shop.txt show");
    let line = "\n  1  add box 7 in attic, 4T, new box, at most 1 copy\n";
    assert!(shown.contains(line), "{shown}");
    let object = read(&done(&folder, "stage shop.txt --json"));
    let change = &object.get("changes").list()[0];
    assert_eq!(change.get("ceiling").line(), "1");
    let ceilings = object.get("boxes").list().iter();
    let ceilings: Vec<String> = ceilings.map(|b| b.get("ceiling").line()).collect();
    assert_eq!(ceilings, ["null", "null", "null", "1"]);
    let staged = read(&done(&folder, "plan shop.txt --staged --json"));
    done(&folder, "apply shop.txt");
    let applied = FILE.to_owned() + "box 7 attic 4T new box\nceiling 7 1\n";
    assert_eq!(file(&folder), applied);
    let planned = read(&done(&folder, "plan shop.txt --json"));
    for name in ["boxes", "rows", "size_mb"] {
        assert_eq!(planned.get(name), staged.get(name), "{name}");
    }
    done(&folder, "stage shop.txt remove 7");
    done(&folder, "apply shop.txt");
    assert_eq!(file(&folder), FILE);
}

#[test]
fn the_ends_of_the_range_are_staged_too() {
    let folder = shop("ceilings-ends");
    done(&folder, "stage shop.txt add 7 attic 4T --ceiling 0");
    done(&folder, "stage shop.txt add 8 attic 4T --ceiling=256");
    done(&folder, "apply shop.txt");
    let added = "box 7 attic 4T\nceiling 7 0\nbox 8 attic 4T\n";
    assert_eq!(file(&folder), FILE.to_owned() + added);
    let told =
        "dezghuri: --ceiling takes a number from 0 to 256, and not \"257\"\n`dezghuri help` says \
                how it is called";
    fails(
        &folder,
        "stage shop.txt add 9 attic 4T --ceiling 257",
        2,
        told,
    );
}

/// What is taken back has its ceiling again, and what goes takes it along.
#[test]
fn a_removed_box_goes_and_comes_with_its_ceiling() {
    let folder = limited("remove");
    let removed = done(&folder, "stage shop.txt remove 2");
    let words = "remove box 2 (old tower, shop, 2T, at most 30 copies)";
    assert!(
        removed.starts_with(&format!("Staged for shop.txt: {words}.\n")),
        "{removed}"
    );
    let shown = done(&folder, "stage shop.txt");
    let back = "takes it back: add box 2 in shop, 2T, old tower, at most 30 copies.\n";
    assert!(shown.contains(back), "{shown}");
    let undone = read(&done(&folder, "undo shop.txt --json"));
    let box_2 = &undone.get("boxes").list()[1];
    assert_eq!(
        (box_2.get("id").line(), box_2.get("ceiling").line()),
        ("2".into(), "30".into())
    );
    assert_eq!(undone.get("undone").get("ceiling").line(), "30");
    assert_eq!(folder.names(), ["shop.txt"]);
    assert_eq!(file(&folder), text());
    done(&folder, "stage shop.txt remove 2");
    done(&folder, "apply shop.txt");
    let expected = text()
        .replace("ceiling 2 30 # a thin line", "# a thin line")
        .replace("box 2 shop 2T old tower\n", "");
    assert_eq!(file(&folder), expected);
}

#[test]
fn another_disk_leaves_the_ceiling() {
    let folder = limited("resize");
    let resized = done(&folder, "stage shop.txt resize 3 8T");
    let words = "resize box 3 (home, at most 50 copies) from 4T to 8T";
    assert!(
        resized.starts_with(&format!("Staged for shop.txt: {words}.\n")),
        "{resized}"
    );
    done(&folder, "apply shop.txt");
    assert_eq!(
        file(&folder),
        text().replace("box 3 home 4T", "box 3 home 8T")
    );
}

/// A box that is removed and added anew has the ceiling that it is added with.
#[test]
fn a_box_that_is_replaced_has_a_new_ceiling() {
    let folder = limited("replace");
    for line in [
        "stage shop.txt remove 2",
        "stage shop.txt add 2 shop 2T old tower",
        "stage shop.txt remove 3",
        "stage shop.txt add 3 home 4T --ceiling 60",
    ] {
        done(&folder, line);
    }
    done(&folder, "apply shop.txt");
    let expected = text()
        .replace("ceiling 2 30 # a thin line", "# a thin line")
        .replace("ceiling 3 50", "ceiling 3 60");
    assert_eq!(file(&folder), expected);
}

/// The owner is told what to do instead.
#[test]
fn the_ceiling_of_a_box_that_is_there_is_not_staged() {
    let folder = limited("there");
    for (words, line) in [
        ("ceiling 2 40", "ceiling 2 40"),
        ("ceiling", "ceiling ID N"),
    ] {
        let told = format!(
            "dezghuri: a staged change cannot carry the ceiling of a box that is there: put the line \
             `{line}` into shop.txt\n`dezghuri help` says how it is called"
        );
        fails(&folder, &format!("stage shop.txt {words}"), 2, &told);
    }
    let told = "dezghuri: --ceiling goes with a new box: stage FILE add 7 attic 4T --ceiling 40\n\
                `dezghuri help` says how it is called";
    fails(&folder, "stage shop.txt resize 2 4T --ceiling 40", 2, told);
    assert_eq!(folder.names(), ["shop.txt"]);
}
