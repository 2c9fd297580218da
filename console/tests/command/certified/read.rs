//! What the stranger's checker reads: the same as the command does, or it is refused.

use super::checker::{check, prices_of};
use super::{example_f, planned};
use crate::folder::{layout_record, Folder};

/// Two boxes of 2,000,000 MB in two zones, box 1 with a ceiling of 1: written in many ways.
#[test]
fn every_form_of_the_text_is_read_as_the_command_reads_it() {
    let plain = "copies 1\nzones 1\nbits 1\nbox 1 a 2T\nbox 2 b 2T\nceiling 1 1\n";
    let folder = Folder::new("checker-forms");
    folder.write("last", layout_record(1, 1, &[&[1], &[1]]));
    let folder = planned(folder, plain);
    let prices = prices_of(&folder, "--former last");
    for (from, to) in [
        ("2T", "2000000"),
        ("2T", "2000000M"),
        ("2T", "2000gb"),
        ("2T", "2.000tB"),
        ("2T", "2.T"),
        ("2T", "0002T"),
        ("2T", "2T old and grey"),
        ("2T", "2T#a remark"),
        ("2T", "2T # box 3 c 9T"),
        ("a 2T", "7 2T"),
        ("box ", "\tbox\t"),
        ("ceiling 1 1", "ceiling 01 001"),
        ("\n", "\r\n"),
        ("\n", "  \n\n# copies 4\n"),
        ("copies", "\u{feff}copies"),
        ("box 2 b 2T\nceiling 1 1\n", "ceiling 1 1\nbox 2 b 2T"),
        ("box 1 a", "box 1 B\u{fc}ro"),
    ] {
        assert!(plain.contains(from));
        folder.write("next.txt", plain.replace(from, to));
        assert_eq!(prices_of(&folder, "--former last"), prices, "{to:?}");
        let done = check(&folder, "next.txt", "last", "next", "prices");
        assert_eq!((done.status, done.err.as_str()), (0, ""), "{to:?}");
    }
}

/// Half a terabyte is not five, nor is zone 07 another one than 7.
#[test]
fn fractions_and_numbers_of_zones_are_read() {
    let folder = Folder::new("checker-fractions");
    folder.write("last", layout_record(0, 1, &[&[1, 2]]));
    let text = "copies 2\nzones 2\nbits 0\nbox 1 7 .5T\nbox 2 07 1.5T\nbox 3 8 1500.25G\n";
    let folder = planned(folder, text);
    prices_of(&folder, "--former last");
    let done = check(&folder, "next.txt", "last", "next", "prices");
    assert_eq!((done.status, done.err.as_str()), (0, ""));
    assert!(
        done.out.contains(" larger than 1406250 MB,"),
        "{}",
        done.out
    );
}

/// What is written otherwise, and makes the text one that describes no cluster.
const FAULTS: [(&str, &str); 31] = [
    ("copies 2", "copies 9"),
    ("copies 2", "copies two"),
    ("copies 2", "copies 2 3"),
    ("copies 2", "Copies 2"),
    ("copies 2", ""),
    ("copies 2", "copies 2\ncopies 2"),
    ("zones 1", "zones 3"),
    ("bits 1", "bits 9"),
    ("bits 1", "bits +1"),
    ("2T", "2 T"),
    ("2T", "2TiB"),
    ("2T", "2,000G"),
    ("2T", "1.2.3T"),
    ("2T", "."),
    ("2T", "1.5"),
    ("2T", "5000T"),
    ("2T", "-2T"),
    ("2T", "2_0"),
    ("2T", "\u{662}T"),
    ("2T", ""),
    ("box 2", "box 1"),
    ("box 2", "box 0"),
    ("box 2", "box 4294967296"),
    ("shop", "Home"),
    ("shop", "65536"),
    ("ceiling 1 2", "ceiling 1 257"),
    ("ceiling 1 2", "ceiling 3 2"),
    ("ceiling 1 2", "ceiling 1 2\nceiling 01 2"),
    ("ceiling 1 2", "ceiling 1 2 3"),
    ("ceiling 1 2", "limit 1 2"),
    ("box 2", "box\u{b}2"),
];

#[test]
fn what_the_command_refuses_is_refused() {
    let plain = "copies 2\nzones 1\nbits 1\nbox 1 home 2T\nbox 2 shop 2T\nceiling 1 2\n";
    let folder = Folder::new("checker-faults");
    folder.write("last", layout_record(1, 1, &[&[1, 2], &[1, 2]]));
    let folder = planned(folder, plain);
    prices_of(&folder, "--former last");
    for (from, to) in FAULTS {
        assert!(plain.contains(from));
        folder.write("next.txt", plain.replacen(from, to, 1));
        let done = folder.call("certify next.txt --former last next");
        assert_eq!(done.status, 2, "{to:?}: {}", done.out);
        let done = check(&folder, "next.txt", "last", "next", "prices");
        assert_eq!((done.status, done.out.as_str()), (2, ""), "{to:?}");
        assert!(
            done.err.starts_with("cannot be read: next.txt"),
            "{}",
            done.err
        );
    }
}

/// Each byte of a layout with another value, and each cut: the checker ends as the command does, be it that the
/// record is damaged, that it is another layout, or that nothing in it matters.
#[test]
fn a_damaged_layout_is_judged_as_the_command_judges_it() {
    let folder = example_f("checker-damage");
    prices_of(&folder, "--former last");
    let record = folder.read("next");
    let mut seen = [0; 3];
    let mut judged = |bytes: &[u8]| {
        folder.write("next", bytes);
        let command = folder.call("certify next.txt --former last next").status;
        let checker = check(&folder, "next.txt", "last", "next", "prices").status;
        assert_eq!(checker, command, "{bytes:?}");
        seen[command as usize] += 1;
    };
    for at in 0..record.len() {
        let mut damaged = record.clone();
        damaged[at] ^= 1 << (at % 8);
        judged(&damaged);
    }
    judged(&record[..record.len() - 1]);
    judged(&record[..28]);
    judged(&[&record[..], &[0]].concat());
    judged(&[]);
    assert!(seen.iter().all(|number| *number > 1), "{seen:?}");
}

#[test]
fn files_that_are_not_there_are_told() {
    let folder = example_f("checker-missing");
    prices_of(&folder, "--former last");
    for files in [
        ["nowhere", "last", "next", "prices"],
        ["next.txt", "nowhere", "next", "prices"],
        ["next.txt", "last", "nowhere", "prices"],
        ["next.txt", "last", "next", "nowhere"],
        ["next", "last", "next", "prices"],
        ["next.txt", "next.txt", "next", "prices"],
        ["next.txt", "last", "next", "next"],
    ] {
        let [text, old, new, prices] = files;
        let done = check(&folder, text, old, new, prices);
        assert_eq!((done.status, done.out.as_str()), (2, ""), "{files:?}");
        assert!(done.err.starts_with("cannot be read: "), "{}", done.err);
    }
}
