//! A plan that ends at any instant, as a loss of power ends it: no layout is unknown, none that is whole
//! is called damaged.

use super::*;
use crate::cut_short::{call_after, Cut};
use crate::folder::layout_record;
use std::cell::Cell;

/// Plans in a folder made anew, ended one step later each time, until it ends by itself; looks at what is
/// there after each, with what `last` was before. The number of steps.
fn at_every_step(
    name: &str,
    make: &dyn Fn(&str) -> Folder,
    line: &str,
    look: &dyn Fn(&Folder, Option<&[u8]>),
) -> usize {
    let before = fs::read(make(name).path("last")).ok();
    let cut = Cut {
        name,
        make,
        line,
        lacking: "",
    };
    cut.at_every_step(&|folder| look(folder, before.as_deref()))
}

/// One version, and a box replaced since.
fn planned_shop(name: &str) -> Folder {
    let folder = shop(name);
    done(&folder, "plan shop.txt --out last");
    folder.write("shop.txt", NEXT);
    folder
}

/// Whether the line is there before its layout is the only thing that a power cut leaves to be told.
#[test]
fn replacing_ends_at_every_step() {
    let [without_line, without_layout, with_both] = [Cell::new(0), Cell::new(0), Cell::new(0)];
    let count = |seen: &Cell<u32>| seen.set(seen.get() + 1);
    let line = "plan shop.txt --former last --out last";
    let steps = at_every_step("cut-replace", &planned_shop, line, &|folder, before| {
        let is_old = before == Some(&folder.read("last"));
        let versions = of_each(folder, "version").len();
        match (versions, is_old) {
            (1, true) => {
                count(&without_line);
                quiet(folder, "plan shop.txt --former last");
            }
            (2, true) => {
                count(&without_layout);
                let told =
                    "last is version 1 of 2026-11-17; version 2 was planned on 2026-11-17 as \
                            last, and is not there";
                warned(folder, "plan shop.txt --former last", told);
                let now = of_each(folder, "state");
                assert_eq!(now, [r#""here""#, r#""not there""#]);
            }
            (2, false) => {
                count(&with_both);
                quiet(folder, "plan shop.txt --former last");
                quiet(folder, "moves shop.txt last.old last");
            }
            other => panic!("{other:?}"),
        }
        // Called once more, all is there.
        assert_eq!(folder.call(line).status, 0);
        quiet(folder, "check shop.txt last");
    });
    assert!(steps > 8, "{steps}");
    for seen in [without_line, without_layout, with_both] {
        assert!(seen.get() > 0);
    }
}

#[test]
fn a_first_plan_ends_at_every_step() {
    let line = "plan shop.txt --out last";
    let steps = at_every_step("cut-first", &shop, line, &|folder, _| {
        let is_there = folder.path("last").exists();
        let states = of_each(folder, "state");
        match is_there {
            true => assert_eq!(states, [r#""here""#]),
            false => assert!(states.is_empty() || states == [r#""not there""#]),
        }
        if !is_there {
            call_after(folder, line);
        }
        quiet(folder, "plan shop.txt --former last");
    });
    assert!(steps > 4, "{steps}");
}

/// A layout of before there was a history, with its place taken by the first that has a line: as long as
/// it has its name, it is known to be the one that was there before, and not called damaged.
#[test]
fn what_was_there_before_the_history_is_not_called_damaged() {
    let rows: [&[u32]; 4] = [&[1, 3], &[1, 3], &[2, 3], &[2, 3]];
    let begin = |name: &str| {
        let folder = shop(name);
        folder.write("last", layout_record(2, 1_500, &rows));
        folder
    };
    let seen = Cell::new(0);
    let line = "plan shop.txt --out last --replace";
    at_every_step("cut-before", &begin, line, &|folder, before| {
        let is_old = before == Some(&folder.read("last"));
        let planned = folder.call("plan shop.txt --former last");
        assert_eq!(planned.status, 0, "{}", planned.err);
        if is_old && !of_each(folder, "version").is_empty() {
            seen.set(seen.get() + 1);
            let told = "warning: last was there before version 1, and has no line in \
                        shop.txt.history; version 1 was planned on 2026-11-17 as last, and is not there\n";
            assert_eq!(planned.err, told);
        } else {
            assert_eq!(planned.err, "");
        }
    });
    assert!(seen.get() > 0);
}
