//! What is written well and may still be meant otherwise.

use super::{BoxLine, Note, Zone};
use crate::units::{self, thousands};

/// Names of zones shorter than this are alike by chance.
const LEAST_NAME: usize = 4;
/// A box so many times smaller than most others has perhaps lost its unit.
const FAR_SMALLER: u64 = 1000;

/// Warnings about the boxes of a file without a fault, in the order of the lines.
pub fn of(boxes: &[BoxLine]) -> Vec<Note> {
    let middle = middle(boxes);
    let mut notes = Vec::new();
    for (place, found) in boxes.iter().enumerate() {
        let slips = [
            unit(found).or_else(|| small(found, middle)),
            zone(found, &boxes[..place]),
            cut(found),
        ];
        notes.extend(slips.into_iter().flatten().map(|what| Note {
            line: Some(found.line),
            what,
        }));
    }
    notes
}

/// A unit that is spelled out stands apart and is taken for a name.
fn unit(found: &BoxLine) -> Option<String> {
    let word = found.name.split(' ').next()?;
    let unit = units::spelled_out(word)?;
    let is_bare = found.written.ends_with(|c: char| c.is_ascii_digit());
    if !is_bare {
        return None;
    }
    let written = format!("{}{unit}", found.written);
    let advice = match units::megabytes(&written) {
        Ok(_) => format!("write {written} if that is its unit"),
        Err(told) => format!("if that is its unit, {told}"),
    };
    Some(format!(
        "box {} has {} MB, and '{word}' is in its name: {advice}",
        found.id,
        thousands(found.capacity.into())
    ))
}

/// The capacity in the middle of those that are not 0, the larger where there are two.
fn middle(boxes: &[BoxLine]) -> u64 {
    let capacities = boxes.iter().map(|found| u64::from(found.capacity));
    let mut capacities: Vec<u64> = capacities.filter(|capacity| *capacity > 0).collect();
    capacities.sort_unstable();
    capacities.get(capacities.len() / 2).copied().unwrap_or(0)
}

fn small(found: &BoxLine, middle: u64) -> Option<String> {
    let capacity = u64::from(found.capacity);
    let is_small = capacity > 0 && capacity * FAR_SMALLER <= middle;
    is_small.then(|| {
        format!(
            "box {} has {} MB, a thousandth of what others have, or less: is a G or T missing?",
            found.id,
            thousands(capacity)
        )
    })
}

/// A name that is nearly an earlier one: one house may be counted as two.
fn zone(found: &BoxLine, earlier: &[BoxLine]) -> Option<String> {
    let Zone::Name(name) = &found.zone else {
        return None;
    };
    if earlier.iter().any(|other| other.zone == found.zone) {
        return None;
    }
    let twin = |other: &&BoxLine| matches!(&other.zone, Zone::Name(other) if alike(name, other));
    let other = earlier.iter().find(twin)?;
    let Zone::Name(twin) = &other.zone else {
        return None;
    };
    Some(format!(
        "zone '{name}' is nearly '{twin}' of line {}: if they are one, write it one way",
        other.line
    ))
}

/// Whether two names differ by one letter, or by two neighbours in the other order. Numbers and
/// letters that count, as in house1 and room-a, are meant to differ.
fn alike(first: &str, second: &str) -> bool {
    let (first, second): (Vec<char>, Vec<char>) =
        (first.chars().collect(), second.chars().collect());
    if first.len().max(second.len()) < LEAST_NAME {
        return false;
    }
    let pairs = first.iter().zip(&second);
    let head = pairs.take_while(|(a, b)| a == b).count();
    let pairs = first[head..].iter().rev().zip(second[head..].iter().rev());
    let tail = pairs.take_while(|(a, b)| a == b).count();
    let a = &first[head..first.len() - tail];
    let b = &second[head..second.len() - tail];
    let is_swap = a.len() == 2 && b.len() == 2 && a[0] == b[1] && a[1] == b[0];
    let is_letter = a.len() <= 1 && b.len() <= 1;
    let is_number = a.iter().chain(b).any(|c| c.is_numeric());
    let before = first[..head].last();
    let after = first[first.len() - tail..].first();
    let in_word = [before, after]
        .into_iter()
        .flatten()
        .any(|c| c.is_alphanumeric());
    (is_swap || is_letter) && !is_number && in_word
}

/// A remark that begins in a word may have been meant as a part of the name.
fn cut(found: &BoxLine) -> Option<String> {
    let name = match found.name.as_str() {
        "" => "has no name".into(),
        name => format!("has the name '{name}'"),
    };
    found.is_cut.then(|| {
        format!(
            "# begins a remark, so box {} {name}; a remark has a space before and after its #",
            found.id
        )
    })
}

/// Whether the # between these two parts of a line touches a word.
pub fn touch(before: &str, after: &str) -> bool {
    let is_word = |c: char| !c.is_whitespace() && c != '#';
    before.ends_with(is_word) && !after.is_empty() || after.starts_with(is_word)
}

/// The words of a zone of several words: those up to the first that is a capacity.
pub fn zone_of_several_words<'a>(
    zone: &'a str,
    capacity: &'a str,
    name: &[&'a str],
) -> Option<Vec<&'a str>> {
    if capacity.starts_with(|c: char| c.is_ascii_digit() || c == '.') {
        return None;
    }
    let more = name
        .iter()
        .position(|word| units::megabytes(word).is_ok())?;
    let mut words = vec![zone, capacity];
    words.extend(&name[..more]);
    Some(words)
}

#[cfg(test)]
mod tests {
    use super::*;
    use crate::Description;

    #[test]
    fn names_one_letter_off_are_alike() {
        for (first, second) in [
            ("workshop", "worksop"),
            ("workshop", "workshopp"),
            ("workshop", "wirkshop"),
            ("workshop", "wrokshop"),
            ("home", "homes"),
            ("home", "hom"),
            ("home", "dome"),
            ("b\u{fc}ro", "buro"),
        ] {
            assert!(alike(first, second), "{first} {second}");
            assert!(alike(second, first), "{second} {first}");
        }
    }

    #[test]
    fn names_that_count_or_differ_are_not_alike() {
        for (first, second) in [
            ("a", "b"),
            ("hut", "but"),
            ("home", "shop"),
            ("north", "south"),
            ("house1", "house2"),
            ("house", "house2"),
            ("room-a", "room-b"),
            ("a-room", "b-room"),
            ("wing_a_east", "wing_b_east"),
            ("workshop", "wroskhop"),
        ] {
            assert!(!alike(first, second), "{first} {second}");
            assert!(!alike(second, first), "{second} {first}");
        }
    }

    fn warnings(boxes: &str) -> Vec<String> {
        let text = format!("copies 1\nzones 1\n{boxes}");
        let described = Description::parse(text.as_bytes()).expect("no fault");
        described.warnings.iter().map(Note::to_string).collect()
    }

    #[test]
    fn small_boxes_are_told_beside_the_middle_one() {
        let small = |line: usize, id: usize, megabytes: &str| {
            format!(
                "line {line}: box {id} has {megabytes} MB, a thousandth of what others have, or \
                 less: is a G or T missing?"
            )
        };
        let none: [String; 0] = [];
        assert_eq!(warnings("box 1 a 4\nbox 2 a 4T\n"), [small(3, 1, "4")]);
        assert_eq!(
            warnings("box 1 a 4G\nbox 2 a 4T\nbox 3 a 0\n"),
            [small(3, 1, "4,000")]
        );
        assert_eq!(warnings("box 1 a 4001\nbox 2 a 4T\n"), none);
        assert_eq!(warnings("box 1 a 4\n"), none);
        assert_eq!(warnings("box 1 a 0\n"), none);
        let one_large = "box 1 a 4G\nbox 2 a 4G\nbox 3 a 4000T\n";
        assert_eq!(warnings(one_large), none);
    }

    #[test]
    fn a_remark_stands_apart() {
        let none: [String; 0] = [];
        assert_eq!(
            warnings("# box 1\n#box 2\nbox 1 a 5 # one\nbox 2 a 5 ## two\n"),
            none
        );
        assert_eq!(warnings("box 1 a 5 #\nbox 2 a 5 tower #\r\n"), none);
        let told = "line 3: # begins a remark, so box 1 has the name 'rack'; a remark has a space \
                    before and after its #";
        assert_eq!(warnings("box 1 a 5 rack#4\n"), [told]);
        assert_eq!(warnings("box 1 a 5 rack #4\n"), [told]);
        assert_eq!(warnings("box 1 a 5 rack# 4\n"), [told]);
    }

    #[test]
    fn units_in_words_are_told_where_the_number_has_none() {
        let told = |word: &str, written: &str| {
            format!("line 3: box 1 has 5 MB, and '{word}' is in its name: write {written} if that is its unit")
        };
        assert_eq!(warnings("box 1 a 5 Terabytes\n"), [told("Terabytes", "5T")]);
        assert_eq!(warnings("box 1 a 5 gigs x\n"), [told("gigs", "5G")]);
        let binary =
            "line 3: box 1 has 4 MB, and 'tebibytes' is in its name: if that is its unit, \
                      4TiB is 4,398,046 MB: write 4398046, or 4.398046T";
        assert_eq!(warnings("box 1 a 4 tebibytes\n"), [binary]);
        let none: [String; 0] = [];
        assert_eq!(warnings("box 1 a 5T terabyte\n"), none);
        assert_eq!(warnings("box 1 a 5 tower\n"), none);
    }
}
