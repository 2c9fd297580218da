//! Files of staged changes that are damaged, in every way that one byte can be.

use super::applied::sealed;
use super::{done, fails, staged_bytes, staged_shop, untouched, whole, FILE};
use crate::folder::{Done, Folder};

/// Every command that reads what is staged.
const CALLS: [&str; 5] = [
    "stage shop.txt",
    "stage shop.txt remove 1",
    "undo shop.txt",
    "apply shop.txt",
    "plan shop.txt --staged",
];

/// What is told of a file that is at fault.
fn told(what: &str) -> String {
    format!(
        "shop.txt.staged: this is not a whole file of staged changes: {what}\n\
         Nothing was touched, and shop.txt is as it was. Move shop.txt.staged away, and stage anew."
    )
}

fn is_at_fault(folder: &Folder, bytes: &[u8], what: &str) {
    folder.write("shop.txt.staged", bytes);
    for line in CALLS {
        fails(folder, line, 2, &told(what));
    }
}

/// What is told of a file whose fields are well, and whose check is another one.
const OTHERS: &str = "the bytes before it are not those that were written";

#[test]
fn faults_are_told_by_byte_and_nothing_is_touched() {
    let folder = staged_shop("damaged");
    let good = staged_bytes();
    let with = |place: usize, byte: u8| {
        let mut bytes = good.clone();
        bytes[place] = byte;
        bytes
    };
    let cut = "one or two bytes left, or a field's body cut short, at byte";
    is_at_fault(&folder, &good[..50], &format!("{cut} 40 (refused 1)"));
    is_at_fault(&folder, &good[..20], &format!("{cut} 18 (refused 1)"));
    let missing = "the record ends before a field or row that it must have, at byte";
    is_at_fault(&folder, b"", &format!("{missing} 0 (refused 7)"));
    is_at_fault(&folder, &good[..18], &format!("{missing} 18 (refused 7)"));
    is_at_fault(&folder, &good[..40], &format!("{missing} 40 (refused 7)"));
    is_at_fault(&folder, &good[..51], &format!("{missing} 51 (refused 7)"));
    let tag = "a tag that is not allowed next, at byte";
    is_at_fault(&folder, &with(33, 23), &format!("{tag} 33 (refused 2)"));
    is_at_fault(&folder, &with(18, 21), &format!("{tag} 18 (refused 2)"));
    is_at_fault(&folder, FILE.as_bytes(), &format!("{tag} 0 (refused 2)"));
    let twice = whole(&good);
    is_at_fault(&folder, &twice, &format!("{tag} 62 (refused 2)"));
    let length = "a length that is not legal for the tag, at byte 33 (refused 3)";
    is_at_fault(&folder, &with(35, 5), length);
    let range = "a value outside its range, at byte";
    is_at_fault(&folder, &with(39, 0), &format!("{range} 33 (refused 4)"));
    is_at_fault(&folder, &with(3, b' '), &format!("{range} 0 (refused 4)"));
    is_at_fault(&folder, &with(11, 0xff), &format!("{range} 8 (refused 4)"));
    let too_high = &with(31, 2);
    is_at_fault(&folder, too_high, &format!("{range} 18 (refused 4)"));
    let other = format!("{range} 51 (refused 4): {OTHERS}");
    for bytes in [with(50, 1), with(39, 1), with(3, b'A'), with(61, !good[61])] {
        is_at_fault(&folder, &bytes, &other);
    }
    folder.write("shop.txt.staged", good);
    done(&folder, "apply shop.txt");
}

/// The bytes at which fields begin, and that at which the last one ends.
fn begins(bytes: &[u8]) -> Vec<usize> {
    let (mut begins, mut at) = (vec![0], 0);
    while at + 3 <= bytes.len() {
        at += 3 + usize::from(u16::from_be_bytes([bytes[at + 1], bytes[at + 2]]));
        begins.push(at);
    }
    begins
}

/// The byte that every call tells of a file at fault, and the number of the refusal.
fn told_of(folder: &Folder, bytes: &[u8]) -> (usize, String) {
    folder.write("shop.txt.staged", bytes);
    let mut all = CALLS.map(|line| {
        let Done {
            status, err, out, ..
        } = untouched(folder, line);
        assert_eq!((status, out.as_str()), (2, ""), "{line}: {err}");
        err
    });
    assert!(all.iter().all(|err| *err == all[0]), "{all:?}");
    let err = std::mem::take(&mut all[0]);
    let (_, place) = err.split_once(", at byte ").expect("a byte is told");
    let (byte, rest) = place.split_once(" (refused ").expect("so is the number");
    let (number, _) = rest.split_once(')').expect("it is in brackets");
    (byte.parse().expect("it is a number"), number.into())
}

/// Between two fields the next one is missing, and elsewhere a field is cut short.
fn cut_at_every_length(folder: &Folder, good: &[u8]) {
    let begins = begins(good);
    for length in 0..good.len() {
        let begin = *begins.iter().rfind(|begin| **begin <= length).unwrap();
        let refusal = if begin == length { "7" } else { "1" };
        let told = told_of(folder, &good[..length]);
        assert_eq!(told, (begin, refusal.into()), "{length}");
    }
}

/// Whatever byte is another one, it is told with the byte at which a field begins.
fn flip_every_byte(folder: &Folder, good: &[u8]) {
    for place in 0..good.len() {
        for flip in [1, 0x10, 0x80, 0xff] {
            let mut bytes = good.to_vec();
            bytes[place] ^= flip;
            let (byte, _) = told_of(folder, &bytes);
            assert!(begins(&bytes).contains(&byte), "{place} {flip}: {byte}");
        }
    }
}

#[test]
fn a_file_is_cut_at_every_length() {
    let folder = staged_shop("cut");
    cut_at_every_length(&folder, &staged_bytes());
    folder.write("shop.txt.staged", staged_bytes());
    done(&folder, "apply shop.txt");
}

#[test]
fn every_byte_is_changed() {
    let folder = staged_shop("flipped");
    flip_every_byte(&folder, &staged_bytes());
    folder.write("shop.txt.staged", staged_bytes());
    done(&folder, "apply shop.txt");
}

/// A file that `apply` had begun with is damaged.
#[test]
fn damaged_sums_are_told() {
    let folder = staged_shop("sums");
    let good = sealed();
    cut_at_every_length(&folder, &good);
    flip_every_byte(&folder, &good);
    let told = told_of(&folder, &[&good[..], &[0]].concat());
    assert_eq!(told, (good.len(), "1".into()));
    folder.write("shop.txt.staged", good);
    done(&folder, "apply shop.txt");
}

#[test]
fn a_file_that_is_too_long_is_told() {
    let folder = staged_shop("long");
    let many = Vec::from([21, 0, 4, 0, 0, 0, 1]).repeat(150_000);
    folder.write("shop.txt.staged", many);
    let told = "shop.txt.staged: this is too long for a file of staged changes";
    fails(&folder, "stage shop.txt", 2, told);
    fails(&folder, "undo shop.txt", 2, told);
}

/// Room is left for the sums and the check, 30 bytes: so `apply` can always begin.
#[test]
fn a_change_that_does_not_fit_is_not_staged() {
    let folder = staged_shop("full");
    let name = "x".repeat(65_535);
    let mut fields = Vec::new();
    for id in 10..25 {
        fields.extend([&[241, 0xff, 0xff], name.as_bytes()].concat());
        fields.extend([20, 0, 12, 0, 0, 0, id, 0, 2, 0, 0x3d, 0x09, 0, 1, 0]);
    }
    folder.write("shop.txt.staged", whole(&fields));
    let room = (1 << 20) - 30 - fields.len() - 3 - 15;
    let stage = |length: usize| {
        let name = &name[..length];
        folder.call_words(&["stage", "shop.txt", "add", "7 5 4T", name])
    };
    let told = "shop.txt.staged: this is too long to be staged\n";
    let refused = stage(room + 1);
    assert_eq!((refused.status, refused.err.as_str()), (2, told));
    assert_eq!(folder.read("shop.txt.staged"), whole(&fields));
    assert_eq!(stage(room).status, 0);
    assert_eq!(folder.read("shop.txt.staged").len(), (1 << 20) - 19);
    done(&folder, "undo shop.txt");
    assert_eq!(folder.read("shop.txt.staged"), whole(&fields));
}
