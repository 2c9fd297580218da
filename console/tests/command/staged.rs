//! Changes that are staged, shown, planned with, taken back and applied.

mod applied;
mod before;
mod ceilings;
mod cut_short;
mod damaged;
mod kept;
mod numbers;
mod planned;
mod refused;

use crate::folder::{Done, Folder};
use crate::read_json::{read, Value};

/// Three boxes in two zones, with remarks.
const FILE: &str = "# The shop.\ncopies 2\nzones 1\nbits 1\n\nbox 1 home 4T study   # since May\n\
                    box 2 shop 2T old tower\nbox 3 home 4T\n";

/// The three kinds of changes, in this order.
const CHANGES: [&str; 3] = [
    "stage shop.txt add 7 attic 4T new box",
    "stage shop.txt remove 2",
    "stage shop.txt resize 3 8T",
];

/// The fields of these three.
fn changes() -> Vec<u8> {
    [
        &[240, 0, 5][..],
        b"attic",
        &[241, 0, 7],
        b"new box",
        &[20, 0, 12, 0, 0, 0, 7, 0, 2, 0, 0x3d, 0x09, 0, 1, 0],
        &[21, 0, 4, 0, 0, 0, 2],
        &[22, 0, 8, 0, 0, 0, 3, 0, 0x7a, 0x12, 0],
    ]
    .concat()
}

/// The bytes of the file in which all three are staged.
fn staged_bytes() -> Vec<u8> {
    whole(&changes())
}

/// The fields, and the check of them.
fn whole(fields: &[u8]) -> Vec<u8> {
    [fields, &[243, 0, 8], &sum(fields)].concat()
}

/// A sum of bytes, by the book.
fn sum(bytes: &[u8]) -> [u8; 8] {
    let mut hash: u64 = 14_695_981_039_346_656_037;
    for byte in bytes {
        hash ^= u64::from(*byte);
        hash = hash.wrapping_mul(1_099_511_628_211);
    }
    hash.to_be_bytes()
}

fn shop(name: &str) -> Folder {
    let folder = Folder::new(&format!("staged-{name}"));
    folder.write("shop.txt", FILE);
    folder
}

/// The shop with all three changes staged.
fn staged_shop(name: &str) -> Folder {
    let folder = shop(name);
    for line in CHANGES {
        done(&folder, line);
    }
    folder
}

/// A call that does what it is asked for, without a word of warning; what it prints.
fn done(folder: &Folder, line: &str) -> String {
    let done = folder.call(line);
    assert_eq!((done.status, done.err.as_str()), (0, ""), "{line}");
    done.out
}

/// Calls that must leave all files as they are.
fn untouched(folder: &Folder, line: &str) -> Done {
    let all = |folder: &Folder| -> Vec<(String, Option<Vec<u8>>)> {
        let names = folder.names().into_iter();
        let bytes = |name: &str| std::fs::read(folder.path(name)).ok();
        names.map(|name| (name.clone(), bytes(&name))).collect()
    };
    let before = all(folder);
    let done = folder.call(line);
    assert!(all(folder) == before, "{line}");
    assert!(!done.err.contains("panicked"), "{line}: {}", done.err);
    done
}

/// A call that fails with this status and line, and touches nothing.
fn fails(folder: &Folder, line: &str, status: i32, told: &str) {
    let done = untouched(folder, line);
    let told = format!("{told}\n");
    assert_eq!(
        (done.status, done.err, done.out.as_str()),
        (status, told, ""),
        "{line}"
    );
}

#[test]
fn changes_are_staged_one_by_one() {
    let folder = shop("one-by-one");
    assert_eq!(
        done(&folder, "stage shop.txt"),
        "Nothing is staged for shop.txt.\n"
    );
    assert_eq!(
        done(&folder, CHANGES[0]),
        "Staged for shop.txt: add box 7 in attic, 4T, new box.\n\
         1 change is staged now: `dezghuri plan shop.txt --staged` plans the boxes so.\n\
         Written to shop.txt.staged.\n"
    );
    done(&folder, CHANGES[1]);
    assert_eq!(
        done(&folder, CHANGES[2]),
        "Staged for shop.txt: resize box 3 (home) from 4T to 8T.\n\
         3 changes are staged now: `dezghuri plan shop.txt --staged` plans the boxes so.\n\
         Written to shop.txt.staged.\n"
    );
    assert_eq!(folder.names(), ["shop.txt", "shop.txt.staged"]);
    assert_eq!(folder.read("shop.txt.staged"), staged_bytes());
    assert_eq!(folder.read("shop.txt"), FILE.as_bytes());
}

#[test]
fn what_is_staged_is_shown() {
    let folder = staged_shop("shown");
    let shown = "shop.txt with 3 staged changes:\n\n  1  add box 7 in attic, 4T, new box\n  2  remove \
                 box 2 (old tower, shop, 2T)\n  3  resize box 3 (home) from 4T to 8T\n\n\
                 `dezghuri undo shop.txt` takes the last one back: resize box 3 (home) from 8T to 4T.\n\
                 `dezghuri plan shop.txt --staged` plans the boxes so, `dezghuri apply shop.txt` \
                 writes them into shop.txt.\n";
    for line in [
        "stage shop.txt",
        "stage shop.txt show",
        "stage show shop.txt",
    ] {
        assert_eq!(done(&folder, line), shown, "{line}");
    }
    assert_eq!(folder.read("shop.txt.staged"), staged_bytes());
}

/// After each step back the file is what it was before the change was staged.
#[test]
fn changes_are_taken_back_again_and_again() {
    let folder = shop("undo");
    let mut states = Vec::new();
    for line in CHANGES {
        done(&folder, line);
        states.push(folder.read("shop.txt.staged"));
    }
    states.pop();
    assert_eq!(
        done(&folder, "undo shop.txt"),
        "Taken back: resize box 3 (home) from 4T to 8T.\n2 changes are still staged for shop.txt.\n\
         Written to shop.txt.staged.\n"
    );
    assert_eq!(Some(folder.read("shop.txt.staged")), states.pop());
    assert_eq!(
        done(&folder, "stage shop.txt undo"),
        "Taken back: remove box 2 (old tower, shop, 2T).\n1 change is still staged for shop.txt.\n\
         Written to shop.txt.staged.\n"
    );
    assert_eq!(Some(folder.read("shop.txt.staged")), states.pop());
    assert_eq!(
        done(&folder, "undo shop.txt"),
        "Taken back: add box 7 in attic, 4T, new box.\nNothing is staged for shop.txt any more.\n\
         shop.txt.staged is removed.\n"
    );
    assert_eq!(folder.names(), ["shop.txt"]);
    for line in ["undo shop.txt", "apply shop.txt", "stage shop.txt apply"] {
        fails(&folder, line, 2, "nothing is staged for shop.txt");
    }
    assert_eq!(folder.read("shop.txt"), FILE.as_bytes());
}

/// A change may take another one back, and a box may change twice.
#[test]
fn changes_are_made_on_those_before_them() {
    let folder = shop("again");
    for line in [
        "stage shop.txt add 7 attic 4T",
        "stage shop.txt resize 7 8T",
        "stage shop.txt remove 7",
        "stage shop.txt add 7 home 2T",
        "stage shop.txt resize 1 4T",
    ] {
        done(&folder, line);
    }
    let shown = done(&folder, "stage shop.txt");
    for line in [
        "  2  resize box 7 (attic) from 4T to 8T\n",
        "  3  remove box 7 (attic, 8T)\n",
        "  4  add box 7 in home, 2T\n",
        "  5  resize box 1 (study, home) from 4T to 4T\n",
    ] {
        assert!(shown.contains(line), "{shown}");
    }
    let undone = read(&done(&folder, "undo shop.txt --json"));
    assert_eq!(undone.get("undone").get("kind").line(), "\"resize\"");
    done(&folder, "undo shop.txt");
    let shown = done(&folder, "stage shop.txt");
    let back = "takes the last one back: add box 7 in attic, 8T.\n";
    assert!(shown.contains(back), "{shown}");
}

fn numbers(value: &Value, name: &str) -> Vec<String> {
    let items = value.list().iter();
    items.map(|item| item.get(name).line()).collect()
}

#[test]
fn objects_tell_what_is_staged() {
    let folder = staged_shop("objects");
    let stored = include_str!("staged/stage.json");
    assert_eq!(done(&folder, "stage shop.txt --json"), stored);
    let again = done(&folder, "stage shop.txt resize 1 1T --json");
    let object = read(&again);
    assert_eq!(numbers(object.get("changes"), "id"), ["7", "2", "3", "1"]);
    assert_eq!(
        numbers(object.get("boxes"), "capacity_mb"),
        ["1000000", "8000000", "4000000"]
    );
    done(&folder, "undo shop.txt");
    let stored = include_str!("staged/undo.json");
    assert_eq!(done(&folder, "undo shop.txt --json"), stored);
    assert_eq!(folder.read("shop.txt.staged"), whole(&changes()[..40]));
    done(&folder, CHANGES[2]);
    let stored = include_str!("staged/apply.json");
    assert_eq!(done(&folder, "apply shop.txt --json"), stored);
    assert_eq!(folder.names(), ["shop.txt", "shop.txt.old"]);
    let none = read(&done(&folder, "stage shop.txt --json"));
    assert_eq!(none.get("changes").line(), "[]");
}

/// A report that cannot be printed stages nothing.
#[test]
fn what_is_not_printed_is_not_staged() {
    let folder = staged_shop("unprinted");
    let full = || {
        let full = std::fs::File::options().write(true).open("/dev/full");
        full.expect("it is there").into()
    };
    let told = "not printed, so nothing was written: No space left on device (os error 28)\n";
    for line in [
        "stage shop.txt remove 3",
        "undo shop.txt",
        "apply shop.txt",
        "apply shop.txt --json",
    ] {
        let done = folder.call_into(line, full());
        assert_eq!((done.status, done.err.as_str()), (2, told), "{line}");
    }
    assert_eq!(folder.names(), ["shop.txt", "shop.txt.staged"]);
    assert_eq!(folder.read("shop.txt.staged"), staged_bytes());
    assert_eq!(folder.read("shop.txt"), FILE.as_bytes());
}
