use super::*;

fn line(version: u32) -> Line {
    let text = format!(
        "2026-11-17T21:23:02Z {version} last 0000000000000001 - - 0000000000000002 3 4 finished 1 1 0 \
         1:a:5:-"
    );
    let check = crate::sum::of(text.as_bytes());
    Line::parse(&format!("{text} {check:016x}")).expect("it is whole")
}

/// A file with the lines of versions 1 to 3.
fn file() -> String {
    let lines: String = (1..=3)
        .map(|version| format!("{}\n", line(version)))
        .collect();
    FIRST.to_string() + &lines
}

fn versions(contents: &Contents) -> Vec<u32> {
    contents
        .lines
        .iter()
        .map(|(_, line)| line.version)
        .collect()
}

#[test]
fn lines_are_added_one_after_the_other() {
    let mut bytes = String::new();
    for version in 1..=3 {
        let contents = Contents::parse(bytes.as_bytes());
        assert_eq!(contents.next_version(), version);
        bytes += &added(bytes.as_bytes(), &line(version));
    }
    assert_eq!(bytes, file());
    let contents = Contents::parse(bytes.as_bytes());
    let numbers: Vec<usize> = contents.lines.iter().map(|(number, _)| *number).collect();
    assert_eq!(
        (numbers, versions(&contents)),
        (vec![2, 3, 4], vec![1, 2, 3])
    );
    assert!(contents.is_history() && contents.faults.is_empty());
}

/// A file that was cut has its whole lines still; the line that is added is whole, and no other is told
/// to be damaged than that which was cut. A last line that has lost its newline alone is whole.
#[test]
fn a_file_that_was_cut_goes_on() {
    let whole = file();
    let newlines = whole.match_indices('\n').map(|(place, _)| place);
    let ends: Vec<usize> = newlines.skip(1).collect();
    for length in 0..whole.len() {
        let cut = &whole.as_bytes()[..length];
        let before = Contents::parse(cut);
        assert!(before.is_history(), "{length}");
        let left = ends.iter().filter(|end| **end <= length).count() as u32;
        assert_eq!(versions(&before), Vec::from_iter(1..=left), "{length}");
        let is_whole = length < FIRST.len() || cut.ends_with(b"\n") || ends.contains(&length);
        assert_eq!(before.faults.is_empty(), is_whole, "{length}");
        let next = line(before.next_version());
        let after = [cut, added(cut, &next).as_bytes()].concat();
        let after = Contents::parse(&after);
        assert_eq!(after.lines.len(), before.lines.len() + 1, "{length}");
        assert_eq!(after.lines.last().unwrap().1, next, "{length}");
        assert_eq!(after.faults, before.faults, "{length}");
    }
}

/// One byte that is another one costs its own line at most, and is told; that of a newline the line
/// before it.
#[test]
fn a_damaged_byte_costs_one_line_at_most() {
    let whole = file();
    for place in 0..whole.len() {
        for other in [0, b'\n', b' ', b'5', 0xff] {
            let mut bytes = whole.clone().into_bytes();
            if std::mem::replace(&mut bytes[place], other) == other {
                continue;
            }
            let number = whole[..place].matches('\n').count() + 1;
            let contents = Contents::parse(&bytes);
            let left: Vec<u32> = (1..=3).filter(|line| line + 1 != number as u32).collect();
            assert_eq!(versions(&contents), left, "{place} {other}");
            // A newline at the beginning of a line leaves an empty one before it.
            let first = contents.faults[0];
            assert!(first == number || other == b'\n' && first == number + 1);
            assert!(contents.is_history());
            assert!(contents.next_version() >= 4, "{place} {other}");
        }
    }
}

#[test]
fn another_file_is_no_history() {
    for bytes in [
        &b"\n"[..],
        b"copies 3\n",
        b"dezghuri history 2\n",
        b"dezghuri histories\n",
        &[0; 40],
    ] {
        assert!(!Contents::parse(bytes).is_history());
    }
    assert!(Contents::parse(b"").is_history());
    assert!(is_history(file().as_bytes()) && !is_history(b"dezghuri history"));
}
