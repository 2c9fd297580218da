use super::*;

fn kept(id: u32, zone: &str, capacity: u32, ceiling: u16) -> KeptBox {
    KeptBox {
        id,
        zone: zone.into(),
        capacity,
        ceiling,
    }
}

/// A line with something at every place.
fn line() -> Line {
    Line {
        date: Moment::parse("2026-11-17T21:23:02Z").unwrap(),
        version: 12,
        name: "my layouts/next".into(),
        sum: 0x0123_4567_89ab_cdef,
        former: Some(0xff),
        replaced: None,
        text: 7,
        staged: Some(3),
        size: 18_262,
        sent: 198,
        is_finished: true,
        copies: 3,
        zones: 2,
        bits: 8,
        boxes: vec![
            kept(1, "a:b", 4_000_000, 40),
            kept(22, "0", 0, Node::NO_CEILING),
        ],
    }
}

const WRITTEN: &str = "2026-11-17T21:23:02Z 12 my%20layouts/next 0123456789abcdef \
                       00000000000000ff - 0000000000000007+3 18262 198 finished 3 2 8 \
                       1:a%3Ab:4000000:40,22:0:0:-";

fn with_check(line: &str) -> String {
    format!("{line} {:016x}", sum::of(line.as_bytes()))
}

#[test]
fn a_line_is_written_and_read() {
    assert_eq!(line().to_string(), with_check(WRITTEN));
    assert_eq!(Line::parse(&with_check(WRITTEN)), Some(line()));
    let mut other = line();
    (other.former, other.replaced) = (None, Some(u64::MAX));
    (other.staged, other.is_finished) = (None, false);
    assert_eq!(Line::parse(&other.to_string()), Some(other));
}

#[test]
fn no_line_with_one_bit_flipped_or_cut_short_is_read() {
    let whole = with_check(WRITTEN);
    for place in 0..whole.len() {
        assert_eq!(Line::parse(&whole[..place]), None);
        for bit in 0..8 {
            let mut bytes = whole.clone().into_bytes();
            bytes[place] ^= 1 << bit;
            let read = std::str::from_utf8(&bytes).ok().and_then(Line::parse);
            assert_eq!(read, None, "{place} {bit}");
        }
    }
}

/// The check is right in all of these; it is the form that is not.
#[test]
fn a_line_of_another_form_is_not_read() {
    assert!(Line::parse(&with_check(WRITTEN)).is_some());
    for (from, to) in [
        (" 12 ", " 012 "),
        (" 12 ", " +12 "),
        (" 12 ", "  12 "),
        (" 12 ", " 4294967296 "),
        ("my%20", "my%6d"),
        ("0123456789abcdef", "0123456789ABCDEF"),
        ("0123456789abcdef", "123456789abcdef"),
        (" - ", " none "),
        ("+3", "+03"),
        ("+3", "+"),
        ("finished", "ended"),
        (" 8 1:", " 256 1:"),
        (",22", ",,22"),
        (":-", ":256"),
        (":-", ":"),
        (":-", ":-:1"),
        (":-", ":- 1"),
        ("2026-11-17T", "2026-11-31T"),
    ] {
        let other = WRITTEN.replace(from, to);
        assert_ne!(other, WRITTEN);
        assert_eq!(Line::parse(&with_check(&other)), None, "{other}");
    }
}
