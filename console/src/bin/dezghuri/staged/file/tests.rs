use super::*;
use dezghuri::Node;

fn entry(change: Change, zone: &str, name: &str) -> Entry {
    let some = |word: &str| (!word.is_empty()).then(|| word.to_string());
    Entry {
        byte: 0,
        change,
        zone: some(zone),
        name: some(name),
    }
}

fn add(id: u32, zone: u16) -> Change {
    Change::Add(Node {
        id,
        zone,
        capacity: 500,
        ceiling: 40,
    })
}

/// The fields of four changes, 72 bytes.
fn changes() -> Vec<u8> {
    let grown = Change::Resize { id: 3, capacity: 9 };
    let entries = [
        entry(add(7, 2), "attic", "new box"),
        entry(Change::Remove(2), "", ""),
        entry(add(8, 5), "", "old"),
        entry(grown, "", ""),
    ];
    entries.iter().flat_map(|e| e.to_bytes().unwrap()).collect()
}

/// The number of the first fault, and its place; it is not that the check is another one.
fn fault(bytes: &[u8]) -> (u32, Option<Place>) {
    let fault = parse(bytes).expect_err("it is at fault");
    assert!(!fault.is_of_check);
    (fault.refused.refusal.number(), fault.refused.place)
}

/// The bytes at which fields begin, and that at which the last one ends.
fn begins(bytes: &[u8]) -> Vec<usize> {
    let mut begins = vec![0];
    while let Some([_, high, low, ..]) = bytes.get(begins[begins.len() - 1]..) {
        let length = usize::from(u16::from_be_bytes([*high, *low]));
        begins.push(begins[begins.len() - 1] + 3 + length);
    }
    begins
}

fn at(refusal: u32, byte: u64) -> (u32, Option<Place>) {
    (refusal, Some(Place::Byte(byte)))
}

#[test]
fn changes_stand_with_their_words_before_them() {
    let expected = [
        &[240, 0, 5][..],
        b"attic",
        &[241, 0, 7],
        b"new box",
        &[20, 0, 12, 0, 0, 0, 7, 0, 2, 0, 0, 1, 244, 0, 40],
        &[21, 0, 4, 0, 0, 0, 2],
        &[241, 0, 3],
        b"old",
        &[20, 0, 12, 0, 0, 0, 8, 0, 5, 0, 0, 1, 244, 0, 40],
        &[22, 0, 8, 0, 0, 0, 3, 0, 0, 0, 9],
    ]
    .concat();
    assert_eq!(changes(), expected);
    let found = parse(&whole(&changes())).unwrap();
    let places: Vec<_> = found.entries.iter().map(|e| e.byte).collect();
    assert_eq!(places, [18, 33, 46, 61]);
    assert_eq!(found.sums, None);
    assert_eq!(fields(&found.entries), changes());
    assert_eq!(found.entries[0].label().zone, "attic");
    assert_eq!(found.entries[2].label().zone, "5");
    assert_eq!(found.entries[2].label().name, "old");
    let again = found.entries.iter().flat_map(|e| e.to_bytes().unwrap());
    assert_eq!(again.collect::<Vec<u8>>(), changes());
}

const SUMS: Sums = Sums {
    before: 0x0102_0304_0506_0708,
    after: 0x1112_1314_1516_1718,
};

#[test]
fn the_sums_stand_at_the_end() {
    let bytes = sealed(&changes(), SUMS);
    let sums = [
        &[242, 0, 16, 1, 2, 3, 4, 5, 6, 7, 8][..],
        &[0x11, 0x12, 0x13, 0x14, 0x15, 0x16, 0x17, 0x18],
    ]
    .concat();
    assert_eq!(bytes[72..91], sums);
    let found = parse(&bytes).unwrap();
    assert_eq!(found.sums, Some(SUMS));
    assert_eq!(fields(&found.entries), changes());
    assert_eq!(fault(&sealed(&bytes[..91], SUMS)), at(2, 91));
    let more = [&bytes[..91], &Change::Remove(1).to_field()].concat();
    assert_eq!(fault(&more), at(2, 91));
    assert_eq!(fault(&sealed(&[], SUMS)), at(2, 0));
    let one = [&changes()[..], &[242, 0, 8, 1, 2, 3, 4, 5, 6, 7, 8]].concat();
    assert_eq!(fault(&whole(&one)), at(3, 72));
}

#[test]
fn the_check_stands_last_of_all() {
    let bytes = whole(&changes());
    assert_eq!(bytes[72..75], [243, 0, 8]);
    assert_eq!(bytes[75..], sum::of(&changes()).to_be_bytes());
    let sealed = sealed(&changes(), SUMS);
    assert_eq!(sealed.len(), 72 + LAST_BYTES);
    assert_eq!(sealed[91..94], [243, 0, 8]);
    assert_eq!(sealed[94..], sum::of(&sealed[..91]).to_be_bytes());
    assert_eq!(fault(&changes()), at(7, 72));
    assert_eq!(fault(&sealed[..91]), at(7, 91));
    assert_eq!(fault(&whole(&[])), at(2, 0));
    assert_eq!(fault(&whole(&changes()[..8])), at(2, 8));
    assert_eq!(fault(&whole(&bytes)), at(2, 83));
    let more = [&bytes[..], &Change::Remove(1).to_field()].concat();
    assert_eq!(fault(&more), at(2, 83));
}

/// What is wrong with a field comes first, after the check too.
#[test]
fn another_check_is_told_last() {
    let mut bytes = whole(&changes());
    bytes[71] = 8;
    let told = parse(&bytes).expect_err("its check is another one");
    assert!(told.is_of_check);
    let line = "a value outside its range, at byte 72 (refused 4): the bytes before it are not \
                those that were written";
    assert_eq!(told.to_string(), line);
    assert_eq!(fault(&[&bytes[..], &[21]].concat()), at(1, 83));
    bytes[39] = 0;
    assert_eq!(fault(&bytes), at(4, 33));
    let line = "a value outside its range, at byte 33 (refused 4)";
    assert_eq!(parse(&bytes).unwrap_err().to_string(), line);
}

#[test]
fn every_cut_is_told() {
    for good in [whole(&changes()), sealed(&changes(), SUMS)] {
        let begins = begins(&good);
        for length in 0..good.len() {
            let begin = *begins.iter().rfind(|begin| **begin <= length).unwrap();
            let refusal = if begin == length { 7 } else { 1 };
            assert_eq!(fault(&good[..length]), at(refusal, begin as u64));
        }
    }
}

/// Whatever byte is another one, and whichever.
#[test]
fn every_other_byte_is_told() {
    for good in [whole(&changes()), sealed(&changes(), SUMS)] {
        assert!(parse(&good).is_ok());
        for place in 0..good.len() {
            for flip in 1..=255 {
                let mut bytes = good.clone();
                bytes[place] ^= flip;
                let fault = parse(&bytes).expect_err("a byte is another one");
                let Some(Place::Byte(byte)) = fault.refused.place else {
                    panic!("{fault:?} has no byte");
                };
                let byte = usize::try_from(byte).unwrap();
                assert!(begins(&bytes).contains(&byte), "{place} {flip}: {fault}");
            }
        }
    }
}

#[test]
fn faults_are_told_by_byte() {
    assert_eq!(fault(&[]), at(7, 0));
    assert_eq!(fault(&[21, 0]), at(1, 0));
    assert_eq!(fault(&[4, 0]), at(1, 0));
    assert_eq!(fault(&[4, 0, 10]), at(2, 0));
    assert_eq!(fault(&[21, 0, 5]), at(3, 0));
    assert_eq!(fault(&[21, 0, 4, 0, 0, 0]), at(1, 0));
    assert_eq!(fault(&[21, 0, 4, 0, 0, 0, 0]), at(4, 0));
    assert_eq!(fault(&[240, 0, 0]), at(3, 0));
    let zone = [240, 0, 1, b'a'];
    assert_eq!(fault(&zone), at(7, 4));
    assert_eq!(fault(&[zone, zone].concat()), at(2, 4));
    let named = [&[241, 0, 1, b'n'][..], &zone].concat();
    assert_eq!(fault(&named), at(2, 4));
    let removed = [&zone[..], &Change::Remove(1).to_field()].concat();
    assert_eq!(fault(&removed), at(2, 4));
}

#[test]
fn a_ceiling_is_256_at_most() {
    let with = |ceiling: u16| {
        let Change::Add(node) = add(1, 1) else {
            unreachable!("a box is added");
        };
        whole(&Change::Add(Node { ceiling, ..node }).to_field())
    };
    for ceiling in [0, 255, 256] {
        let found = parse(&with(ceiling)).unwrap();
        let change = found.entries[0].change;
        assert!(matches!(change, Change::Add(node) if node.ceiling == ceiling));
    }
    assert_eq!(fault(&with(257)), at(4, 0));
    assert_eq!(fault(&with(u16::MAX)), at(4, 0));
}

/// A box of ten bytes is one without a ceiling, and it is written with twelve; its byte is that of the
/// file. No other length is taken.
#[test]
fn what_was_staged_before_there_were_ceilings_is_taken() {
    let before = [&[20, 0, 10][..], &[0, 0, 0, 7, 0, 2, 0, 0, 1, 244]].concat();
    let removed = Change::Remove(2).to_field();
    let bytes = [&before[..], &removed, b"\xf1\0\x03old", &before].concat();
    let now = [&[20, 0, 12][..], &before[3..], &[1, 0]].concat();
    let found = parse(&whole(&bytes)).unwrap();
    let places: Vec<_> = found.entries.iter().map(|e| e.byte).collect();
    assert_eq!(places, [0, 13, 26]);
    let expected = [&now[..], &removed, b"\xf1\0\x03old", &now].concat();
    assert_eq!(fields(&found.entries), expected);
    let mut other = whole(&bytes);
    other[12] = 0;
    assert!(parse(&other).is_err_and(|told| told.is_of_check));
    assert_eq!(fault(&bytes[..12]), at(1, 0));
    for other in [[20, 0, 11], [20, 1, 10], [21, 0, 10], [20, 0, 13]] {
        assert_eq!(fault(&other), at(3, 0));
    }
}

#[test]
fn words_are_those_that_a_line_can_have() {
    for word in [&b"a b"[..], b"12", b"a#", b"a\n", b"\xff", b" a"] {
        let bytes = field(tag::ZONE, word).unwrap();
        assert_eq!(fault(&bytes), at(4, 0), "{word:?}");
    }
    for words in [&b"a  b"[..], b"a ", b"#", b"a\tb", b"\xff"] {
        let bytes = field(tag::NAME, words).unwrap();
        assert_eq!(fault(&bytes), at(4, 0), "{words:?}");
    }
    let long = entry(add(1, 1), "", &"x".repeat(65_536));
    assert_eq!(long.to_bytes(), None);
}
