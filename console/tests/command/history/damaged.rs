//! Layouts and histories with bits flipped, or cut short: none is taken in silence, none stops a plan.

use super::*;
use crate::planned_home;
use dezghuri::Plan;

/// Whether the layout `last` is refused as the former one, as it must be, since it reads; or else as a
/// record that is none, or as one of other partitions.
fn is_refused_by_history(folder: &Folder, file: &str) -> bool {
    let done = folder.call(&format!("plan {file} --former last"));
    assert_eq!((done.status, done.out.as_str()), (2, ""), "{}", done.err);
    let is_refused = done.err.starts_with("last: not planned from: ");
    let by_record = [
        "last: this is not a whole layout record: ",
        "last was planned with bits ",
    ];
    let is_none = by_record.iter().any(|told| done.err.starts_with(told));
    assert!(is_refused != is_none, "{}", done.err);
    is_refused
}

/// Flips the bits, each in the record as it was; how many of them reach the history.
fn flipped(folder: &Folder, file: &str, bits: impl Iterator<Item = usize>) -> usize {
    let record = folder.read("last");
    let mut refused = 0;
    for bit in bits {
        let mut damaged = record.clone();
        damaged[bit / 8] ^= 1 << (bit % 8);
        folder.write("last", &damaged);
        if is_refused_by_history(folder, file) {
            refused += 1;
            let done = folder.call(&format!("plan {file} --former last --damaged-anyway"));
            assert!(done
                .err
                .starts_with("warning: last is not what was written there as version 1"));
            assert_eq!(done.status, 0, "{bit}: {}", done.err);
        }
    }
    folder.write("last", record);
    refused
}

/// Every bit of the record of example A, which has 29 bytes and 17 for each of two rows.
#[test]
fn no_bit_of_a_small_layout_is_flipped_unnoticed() {
    let folder = Folder::new("history-bits");
    folder.write("home.txt", THREE);
    done(&folder, "plan home.txt --out last");
    let bits = folder.read("last").len() * 8;
    assert_eq!(bits, (29 + 2 * 17) * 8);
    let refused = flipped(&folder, "home.txt", 0..bits);
    assert!((50..bits).contains(&refused), "{refused}");
    quiet(&folder, "plan home.txt --former last");
}

#[test]
fn no_bit_of_the_sample_is_flipped_unnoticed() {
    let folder = planned_home("history-sample");
    let bits = folder.read("last").len() * 8;
    let picked = (0..300).map(|n: usize| n * 7_919 % bits);
    let refused = flipped(&folder, "home.txt", picked);
    assert!((20..300).contains(&refused), "{refused}");
}

/// A copy under a name that no line has is not refused, but told.
#[test]
fn damage_under_another_name_is_told() {
    let folder = shop("other-name");
    done(&folder, "plan shop.txt --out last");
    let record = folder.read("last");
    for bit in 0..record.len() * 8 {
        let mut damaged = record.clone();
        damaged[bit / 8] ^= 1 << (bit % 8);
        folder.write("copy", &damaged);
        let done = folder.call("plan shop.txt --former copy");
        match Plan::from_record(&damaged).is_ok_and(|plan| plan.bits == 2) {
            true => assert!(done.err.starts_with("warning: "), "{bit}: {}", done.err),
            false => assert_eq!(done.status, 2, "{bit}"),
        }
    }
}

#[test]
fn a_layout_that_was_cut_is_refused() {
    let folder = shop("cut-layout");
    done(&folder, "plan shop.txt --out last");
    let record = folder.read("last");
    for length in 0..record.len() {
        folder.write("last", &record[..length]);
        assert!(!is_refused_by_history(&folder, "shop.txt"), "{length}");
    }
}

/// Two versions, both of `last`.
fn two_versions(name: &str) -> Folder {
    let folder = shop(name);
    done(&folder, "plan shop.txt --out last");
    folder.write("shop.txt", NEXT);
    done(&folder, "plan shop.txt --former last --out last");
    folder
}

/// With one byte of the history damaged, a plan is made and added, the line is told, and nothing that
/// was there has gone. What was planned last is no reason to refuse it, also where its line is damaged.
#[test]
fn a_damaged_history_costs_one_line() {
    let folder = two_versions("damaged");
    let (whole, last) = (folder.read("shop.txt.history"), folder.read("last"));
    for place in 0..whole.len() {
        let mut damaged = whole.clone();
        damaged[place] ^= 0x10;
        folder.write("shop.txt.history", &damaged);
        folder.write("last", &last);
        let done = folder.call("plan shop.txt --former last --out last");
        assert_eq!(done.status, 0, "{place}: {}", done.err);
        let before = &whole[..place];
        let number = before.iter().filter(|byte| **byte == b'\n').count() + 1;
        let told = format!(
            "warning: shop.txt.history, line {number}: it is damaged or cut short, and not read; the \
             others are\n"
        );
        assert!(done.err.starts_with(&told), "{place}: {}", done.err);
        assert!(folder.read("shop.txt.history").starts_with(&damaged));
        let versions: Vec<&str> = ["1", "2", "3"].into();
        let left = versions
            .into_iter()
            .zip(2..)
            .filter(|(_, line)| *line != number);
        let left: Vec<&str> = left.map(|(version, _)| version).collect();
        assert_eq!(of_each(&folder, "version"), left, "{place}");
    }
}

/// The same for a history that was cut: its whole lines serve, and the next one is whole.
#[test]
fn a_history_that_was_cut_goes_on() {
    let folder = two_versions("cut");
    let whole = folder.read("shop.txt.history");
    let before = of_each(&folder, "sum");
    for length in 0..whole.len() {
        let cut = &whole[..length];
        folder.write("shop.txt.history", cut);
        let planned = folder.call("plan shop.txt --out next --replace");
        assert_eq!(planned.status, 0, "{length}: {}", planned.err);
        assert!(folder.read("shop.txt.history").starts_with(cut));
        let after = listed(&folder);
        let layouts = after.get("layouts").list();
        let (new, left) = layouts.split_last().expect("one was added");
        let left: Vec<String> = left.iter().map(|line| line.get("sum").line()).collect();
        assert!(before.starts_with(&left), "{length}");
        assert_eq!(new.get("state").line(), r#""here""#, "{length}");
        let damaged = after.get("damaged_lines").list().len();
        assert_eq!(planned.err.lines().count(), damaged, "{length}");
        let newlines = cut.iter().filter(|byte| **byte == b'\n').count();
        assert!((newlines.saturating_sub(1)..=newlines).contains(&left.len()));
    }
}

/// Both damaged lines are told in one.
#[test]
fn damaged_lines_are_told_together() {
    let folder = three_versions("two-lines");
    let mut history = folder.read("shop.txt.history");
    history[5] ^= 1;
    let last = history.len() - 5;
    history[last] ^= 1;
    folder.write("shop.txt.history", history);
    let told = "shop.txt.history, lines 1 and 4: they are damaged or cut short, and not read; the \
                others are";
    warned(&folder, "history shop.txt", told);
}
