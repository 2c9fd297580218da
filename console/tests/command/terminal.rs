//! What others have put into a name tells the terminal nothing.

use crate::folder::{layout_record, Done, Folder};
use crate::read_json::{read, Value};
use crate::THREE;

/// It would clear the screen, begin a line of its own, and turn the direction of writing.
const NAME: &str = "a\u{1b}[2J\n\u{9b}1m\u{7f}\u{202e}b";
const SHOWN: &str = r"a\u{1b}[2J\n\u{9b}1m\u{7f}\u{202e}b";

/// Panics where a terminal would obey something of what is said.
fn is_plain(done: &Done) {
    for text in [&done.out, &done.err] {
        let is_obeyed =
            |c: char| c.is_control() && c != '\n' || ('\u{202a}'..='\u{202e}').contains(&c);
        assert!(!text.contains(is_obeyed), "{text:?}");
    }
}

fn odd_names(name: &str) -> Folder {
    let folder = Folder::new(&format!("terminal-{name}"));
    folder.write(NAME, THREE);
    folder.write("home.txt", THREE);
    folder
}

/// Calls that end with these statuses, and say nothing that a terminal would obey.
fn are_plain(folder: &Folder, calls: &[(&[&str], i32)]) {
    for (words, status) in calls {
        let done = folder.call_words(words);
        assert_eq!(done.status, *status, "{words:?}: {}", done.err);
        is_plain(&done);
    }
}

#[test]
fn names_of_files_are_shown_with_escapes() {
    let folder = odd_names("files");
    let (file, out, none) = (NAME, &*format!("{NAME}.layout"), &*format!("{NAME}.none"));
    let calls: [(&[&str], i32); 20] = [
        (&["plan", file, "--out", out], 0),
        (&["plan", file, "--former", out, "--out", out], 0),
        (&["plan", file, "--out", out], 2),
        (&["plan", file, "--out", file], 2),
        (&["plan", file, NAME], 2),
        (&["plan", none], 2),
        (&["plan", file, "--former", none], 2),
        (&["check", file, out], 0),
        (&["check", file, file], 2),
        (&["loss", file, out], 0),
        (&["loss", file, none], 2),
        (&["certify", file, "--former", out, out], 0),
        (&["show", file, out, "--all"], 0),
        (&["show", file, out, "7"], 2),
        (&["show", file, out, "--box", "9"], 2),
        (&["diff", file, out, out], 0),
        (&["moves", file, out, out], 0),
        (&["moves", file, out, out, "--done", "5"], 2),
        (&["what-if", file, "--remove", "9"], 2),
        (&[NAME], 2),
    ];
    are_plain(&folder, &calls);
    let done = folder.call_words(&["check", file, out]);
    let told = format!("{SHOWN}.layout is valid for {SHOWN}, each partition up to 23 MB.\n");
    assert_eq!(done.out, told);
}

#[test]
fn names_of_files_that_are_written_are_shown_with_escapes() {
    let folder = odd_names("written");
    let (file, page) = (NAME, &*format!("{NAME}.page"));
    let calls: [(&[&str], i32); 12] = [
        (&["stage", file, "resize", "3", "60"], 0),
        (&["stage", file], 0),
        (&["plan", file, "--staged"], 0),
        (&["undo", file], 0),
        (&["undo", file], 2),
        (&["apply", file], 2),
        (&["stage", file, "resize", "3", "60"], 0),
        (&["apply", file], 0),
        (&["stage", file, "ceiling", "3", NAME], 2),
        (&["report", file, "--out", page], 0),
        (&["report", file, "--out", page], 0),
        (&["record", file, "--out", page], 2),
    ];
    are_plain(&folder, &calls);
    let page = String::from_utf8(folder.read(page)).unwrap();
    assert!(page.contains(SHOWN) && !page.contains('\u{1b}'), "{page}");
}

/// An object has the name as it is, with escapes of its own.
#[test]
fn objects_have_the_names_themselves() {
    let folder = odd_names("objects");
    let done = folder.call_words(&["plan", NAME, "--json"]);
    assert_eq!(read(&done.out).get("file"), &Value::Text(NAME.into()));
    assert!(!done.out.contains('\u{1b}'), "{}", done.out);
    let done = folder.call_words(&["plan", &format!("{NAME}.none"), "--json"]);
    let lines = read(&done.out).get("error").get("lines").list().to_vec();
    let told = format!("{SHOWN}.none: No such file or directory (os error 2)");
    assert_eq!(lines, [Value::Text(told)]);
}

#[test]
fn words_of_the_call_and_of_the_text_are_shown_with_escapes() {
    let folder = odd_names("words");
    folder.write("bad.txt", THREE.replace("tower", NAME));
    folder.write("last", layout_record(1, 3, &[&[1, 2, 3], &[1, 2, 3]]));
    let remark = "a 4T # \u{1b}[2J";
    let (odd_name, odd_zone) = (&*format!("a 4T {NAME}"), &*format!("a {NAME}"));
    let odd_option = &*format!("--{NAME}");
    let calls: [(&[&str], i32); 12] = [
        (&["plan", "bad.txt"], 2),
        (&["plan", "home.txt", odd_option], 2),
        (&["plan", "home.txt", "--allowance", NAME], 2),
        (&["show", "home.txt", "last", "--box", NAME], 2),
        (&["what-if", "home.txt", "--add", odd_name], 2),
        (&["what-if", "home.txt", "--add", odd_zone], 2),
        (&["what-if", "home.txt", "--add", remark], 0),
        (&["what-if", "home.txt", "--resize", "3=\u{1b}"], 2),
        (&["stage", "home.txt", "add", "7", "a", "4T\u{1b}"], 2),
        (&["stage", "home.txt", "add", "7", "a", "4T", "\u{202e}"], 2),
        (&["stage", "home.txt", "resize", "3", "5\u{1b}"], 2),
        (&["stage", "home.txt", NAME], 2),
    ];
    are_plain(&folder, &calls);
}
