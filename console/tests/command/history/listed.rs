//! `history`: the layouts, what changed, and where each is now.

use super::*;

/// Five versions: the third stopped and planned with a staged change; of the files, that of the second
/// is replaced, and that of the fourth is damaged, and that of the fifth is removed.
fn story(name: &str) -> Folder {
    let folder = shop(name);
    done(&folder, "plan shop.txt --out shop.layout");
    folder.write("shop.txt", NEXT.replace("zones 1", "zones 2"));
    done(
        &folder,
        "plan shop.txt --former shop.layout --out shop.layout",
    );
    done(&folder, "stage shop.txt resize 1 8G");
    done(
        &folder,
        "plan shop.txt --staged --former shop.layout --out shop.layout --allowance 0",
    );
    done(&folder, "plan shop.txt --out other.layout");
    done(&folder, "plan shop.txt --out gone.layout");
    remove(&folder, "gone.layout");
    let record = folder.read("other.layout");
    folder.write("other.layout", with_another_bit(&record));
    folder
}

#[test]
fn the_layouts_are_listed() {
    let folder = story("story");
    let listed = done(&folder, "history shop.txt");
    assert_eq!(listed.out, include_str!("history.txt"));
}

#[test]
fn the_list_is_an_object() {
    let folder = story("story-object");
    let mut object = done(&folder, "history shop.txt --json").out;
    let other = with_another_bit(&folder.read("other.layout"));
    let layouts = ["shop.layout.old.1", "shop.layout.old", "shop.layout"];
    let layouts = layouts.map(|name| (name, folder.read(name)));
    // In the place of each sum stands what it is of.
    for (name, bytes) in layouts.into_iter().chain([
        ("other.layout", other),
        ("first text", SHOP.into()),
        ("second text", folder.read("shop.txt")),
    ]) {
        object = object.replace(&sum(&bytes), name);
    }
    assert_eq!(object, include_str!("history.json"));
}

#[test]
fn without_a_history_it_is_said_when_it_begins() {
    let folder = shop("list-none");
    let told =
        "shop.txt.history is not there: it begins with the first layout that `dezghuri plan \
                shop.txt --out NEXT` writes.\n";
    assert_eq!(done(&folder, "history shop.txt").out, told);
    let object = listed(&folder);
    assert_eq!(object.get("history"), &Value::Null);
    assert_eq!(object.get("layouts").line(), "[]");
    let failed = folder.call("history shap.txt");
    let told = "shap.txt: No such file or directory (os error 2)\n";
    assert_eq!((failed.status, failed.err.as_str()), (2, told));
}

/// The text is not asked for: what was written stays known.
#[test]
fn the_history_of_a_text_that_is_gone_is_listed() {
    let folder = three_versions("list-gone");
    remove(&folder, "shop.txt");
    assert_eq!(of_each(&folder, "version"), ["1", "2", "3"]);
}

#[test]
fn an_empty_history_lists_nothing() {
    let folder = shop("list-empty");
    folder.write("shop.txt.history", "dezghuri history 1\n");
    let out = done(&folder, "history shop.txt").out;
    assert_eq!(out, "shop.txt.history: 0 layouts of shop.txt\n");
}

/// Layouts that are kept are found by what they hold, whatever their number.
#[test]
fn kept_layouts_are_found() {
    let folder = shop("list-kept");
    done(&folder, "plan shop.txt --out last");
    for text in [NEXT, SHOP] {
        folder.write("shop.txt", text);
        done(&folder, "plan shop.txt --former last --out last");
    }
    let kept = [r#"["last.old.1"]"#, r#"["last.old"]"#, "[]"];
    assert_eq!(of_each(&folder, "kept_as"), kept);
    let states = [r#""replaced""#, r#""replaced""#, r#""here""#];
    assert_eq!(of_each(&folder, "state"), states);
}
