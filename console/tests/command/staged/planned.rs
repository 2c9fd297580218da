//! Plans, and all that reads the file, with what is staged.

use super::{done, shop, staged_shop, untouched, FILE};
use crate::read_json::{read, Value};

/// The plan with what is staged is the plan of the file once it is applied.
#[test]
fn a_plan_with_what_is_staged_is_that_of_the_applied_file() {
    let folder = staged_shop("plan");
    let planned = done(&folder, "plan shop.txt --staged --out next");
    assert!(
        planned.starts_with("shop.txt with 3 staged changes: 2 copies of each of 2 partitions"),
        "{planned}"
    );
    let told =
        "Planned with 3 staged changes: `dezghuri apply shop.txt` writes what is staged into \
                shop.txt.\nWritten to next.\n";
    assert!(planned.ends_with(told), "{planned}");
    assert_eq!(folder.read("shop.txt"), FILE.as_bytes());
    done(&folder, "apply shop.txt");
    done(&folder, "plan shop.txt --out again");
    assert_eq!(folder.read("next"), folder.read("again"));
}

#[test]
fn other_commands_take_what_is_staged_too() {
    let folder = staged_shop("others");
    done(&folder, "plan shop.txt --out last");
    done(&folder, "plan shop.txt --staged --former last --out next");
    let checked = done(&folder, "check shop.txt next --staged");
    let valid = "next is valid for shop.txt with 3 staged changes, each partition up to ";
    assert!(checked.starts_with(valid), "{checked}");
    assert_eq!(untouched(&folder, "check shop.txt next").status, 1);
    let shown = done(&folder, "show shop.txt next --staged");
    assert!(shown.contains("    7  new box  attic "), "{shown}");
    let box_7 = done(&folder, "show shop.txt next --box 7 --staged");
    assert!(
        box_7.starts_with("Box 7 (new box, attic) holds "),
        "{box_7}"
    );
    let compared = done(&folder, "diff shop.txt last next --staged");
    assert!(compared.contains("  new box  attic"), "{compared}");
    let told = done(
        &folder,
        "report shop.txt next --former last --staged --out page",
    );
    assert!(told.ends_with("Written to page.\n"), "{told}");
    let page = String::from_utf8(folder.read("page")).unwrap();
    assert!(page.contains("The layout next on the boxes of shop.txt with 3 staged changes."));
    assert!(folder.call("record shop.txt --staged").status == 2);
}

#[test]
fn a_plan_says_how_many_changes_are_staged() {
    let folder = staged_shop("plan-object");
    let planned = |line: &str| read(&folder.call(line).out).get("staged").clone();
    assert_eq!(planned("plan shop.txt --staged --json").line(), "3");
    assert_eq!(planned("plan shop.txt --json"), Value::Null);
}

#[test]
fn a_plan_with_nothing_staged_is_warned_of() {
    let folder = shop("plan-nothing");
    let done = untouched(&folder, "plan shop.txt --staged");
    let told = "warning: nothing is staged for shop.txt\n";
    assert_eq!((done.status, done.err.as_str()), (0, told));
    assert_eq!(done.out, folder.call("plan shop.txt").out);
    let object = read(&folder.call("plan shop.txt --staged --json").out);
    assert_eq!(object.get("staged").line(), "0");
}
