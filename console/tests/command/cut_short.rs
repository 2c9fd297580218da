//! Calls that end at any instant, as a loss of power ends them: what was there is there, whole, and the
//! next call clears away what was begun.

use crate::folder::{Done, Folder, Library};
use crate::read_json::read;
use crate::{one_box, size_of};
use std::cell::Cell;
use std::fs;

/// A call that is cut short.
pub struct Cut<'a> {
    /// Of the folders that are made for it.
    pub name: &'a str,
    pub make: &'a dyn Fn(&str) -> Folder,
    pub line: &'a str,
    /// What the file system lacks.
    pub lacking: &'a str,
}

impl Cut<'_> {
    /// Calls the line in a new folder again and again, each time ended one step later, until it ends by
    /// itself; looks at what is there after each. The number of steps.
    pub fn at_every_step(&self, look: &dyn Fn(&Folder)) -> usize {
        let library = Library::new(self.name);
        for step in 1.. {
            let folder = (self.make)(self.name).without(&library, self.lacking);
            let ended = folder.call_cut(self.line, step);
            look(&folder);
            if ended {
                return step - 1;
            }
        }
        unreachable!("a call has an end")
    }
}

/// The files that a call had begun when it was ended.
fn begun(folder: &Folder) -> Vec<String> {
    let mut names = folder.names();
    names.retain(|name| name.ends_with(".dezghuri-new"));
    names
}

/// Calls the line where a call was cut short: it tells what is left of that, and removes it. The history
/// may tell of a layout that was planned then, and is not there.
pub fn call_after(folder: &Folder, line: &str) -> Done {
    let left = begun(folder);
    let done = folder.call(line);
    let told = |name| format!("warning: {name}: left by a call that was cut short; removed\n");
    let told: String = left.iter().map(told).collect();
    let lines = done.err.split_inclusive('\n');
    let err: String = lines
        .filter(|line| !line.ends_with(", and is not there\n"))
        .collect();
    assert_eq!((done.status, err), (0, told), "{line}");
    assert!(begun(folder).is_empty(), "{line}");
    done
}

/// The sizes of the layout of this name and of those that it replaced, newest first; gaps and second
/// names of one layout apart.
fn sizes_by_age(folder: &Folder) -> Vec<u32> {
    let older = (1..9).map(|number| format!("last.old.{number}"));
    let names = ["last".into(), "last.old".into()].into_iter().chain(older);
    let records = names.filter_map(|name| fs::read(folder.path(&name)).ok());
    let mut sizes: Vec<u32> = records.map(|record| size_of(&record)).collect();
    sizes.dedup();
    sizes
}

fn a_new_layout_is_cut(name: &str, lacking: &str) {
    let make = |name: &str| {
        let folder = Folder::new(name);
        folder.write("shop.txt", one_box(160));
        folder
    };
    let line = "plan shop.txt --out last";
    let cut = Cut {
        name,
        make: &make,
        line,
        lacking,
    };
    let [none, there] = [Cell::new(0), Cell::new(0)];
    let steps = cut.at_every_step(&|folder| {
        if folder.path("last").exists() {
            there.set(there.get() + 1);
            assert_eq!(sizes_by_age(folder), [150]);
            call_after(folder, "record shop.txt --out record");
        } else {
            none.set(none.get() + 1);
            call_after(folder, line);
            assert_eq!(sizes_by_age(folder), [150]);
        }
        assert!(!folder.path("last.old").exists());
    });
    assert!(steps > 4, "{steps}");
    assert!(none.get() > 0 && there.get() > 1);
}

/// A new name has the whole layout or is not there, also where no file gets a second name.
#[test]
fn a_new_layout_ends_at_every_step() {
    a_new_layout_is_cut("cut-new", "");
    a_new_layout_is_cut("cut-new-without", "links");
}

fn a_replaced_layout_is_cut(name: &str, lacking: &str) {
    let plan = |folder: &Folder, capacity: u32, words: &str| {
        folder.write("shop.txt", one_box(capacity));
        let done = folder.call(&format!("plan shop.txt --out last {words}"));
        assert_eq!(done.status, 0, "{}", done.err);
    };
    let make = |name: &str| {
        let folder = Folder::new(name);
        plan(&folder, 160, "");
        plan(&folder, 176, "--former last");
        plan(&folder, 192, "--former last");
        folder.write("shop.txt", one_box(208));
        folder
    };
    let line = "plan shop.txt --former last --out last";
    let cut = Cut {
        name,
        make: &make,
        line,
        lacking,
    };
    let [before, after] = [Cell::new(0), Cell::new(0)];
    let steps = cut.at_every_step(&|folder| {
        let sizes = sizes_by_age(folder);
        if sizes == [180, 165, 150] {
            before.set(before.get() + 1);
            call_after(folder, line);
        } else {
            after.set(after.get() + 1);
        }
        assert_eq!(sizes_by_age(folder), [195, 180, 165, 150]);
        assert_eq!(size_of(&folder.read("last")), 195);
    });
    assert!(steps > 8, "{steps}");
    assert!(before.get() > 4 && after.get() > 1);
}

/// The name always has a whole layout, and none that was written is lost, nor their order.
#[test]
fn a_replaced_layout_ends_at_every_step() {
    a_replaced_layout_is_cut("cut-replaced", "");
    a_replaced_layout_is_cut("cut-replaced-without", "links");
}

/// A folder with files that calls have left, and some that only look like it.
fn with_left_over(name: &str) -> Folder {
    let folder = Folder::new(name);
    folder.write("shop.txt", one_box(160));
    fs::create_dir(folder.path("a.7.dezghuri-new")).unwrap();
    for name in [
        "a.dezghuri-new",
        "b.7.dezghuri-new",
        "c.old.12.dezghuri-new",
        "d.7.new",
    ] {
        folder.write(name, "half");
    }
    folder
}

#[test]
fn only_what_was_begun_is_removed() {
    let folder = with_left_over("cut-others");
    let done = folder.call("record shop.txt --out record");
    let told = "warning: b.7.dezghuri-new: left by a call that was cut short; removed\n\
                warning: c.old.12.dezghuri-new: left by a call that was cut short; removed\n";
    assert_eq!((done.status, done.err.as_str()), (0, told));
    let left = [
        "a.7.dezghuri-new",
        "a.dezghuri-new",
        "d.7.new",
        "record",
        "shop.txt",
    ];
    assert_eq!(folder.names(), left);
}

/// What stands there may be another call's, which is writing.
#[test]
fn without_a_lock_nothing_is_removed() {
    let library = Library::new("cut-others-without");
    let folder = with_left_over("cut-others-without").without(&library, "locks");
    let before = folder.names();
    assert_eq!(folder.call("plan shop.txt").err, "");
    let done = folder.call("record shop.txt --out record");
    let told =
        "warning: record: its folder cannot be locked (Operation not supported (os error 95)): \
                let no other call write there meanwhile\n";
    assert_eq!((done.status, done.err.as_str()), (0, told));
    fs::remove_file(folder.path("record")).unwrap();
    assert_eq!(folder.names(), before);
    let done = folder.call("plan shop.txt --out last --json");
    let warnings = read(&done.out).get("warnings").line();
    assert!(
        warnings.contains("its folder cannot be locked"),
        "{warnings}"
    );
}
