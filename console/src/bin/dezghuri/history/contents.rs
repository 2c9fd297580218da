//! The file of the history: what it is, then a line for each layout.

use super::line::Line;

/// The first line of the file; the number is that of its form.
const FIRST: &str = "dezghuri history 1\n";

/// What was read of a file.
#[derive(Debug, Default, PartialEq, Eq)]
pub struct Contents {
    /// The lines that are whole, in their order, each with its number in the file.
    pub lines: Vec<(usize, Line)>,
    /// The numbers of those that are not.
    pub faults: Vec<usize>,
    /// Whether the first line is ours, or what a cut has left of it.
    is_ours: bool,
}

impl Contents {
    /// Reads what is whole; a line that is not costs no other.
    pub fn parse(bytes: &[u8]) -> Contents {
        let mut contents = Contents {
            is_ours: is_history(bytes) || missing_of_first(bytes).is_some(),
            ..Contents::default()
        };
        let lines = bytes.split(|byte| *byte == b'\n');
        for (number, line) in (1..).zip(lines).filter(|(_, line)| !line.is_empty()) {
            if number == 1 && FIRST.as_bytes().starts_with(line) && contents.is_ours {
                continue;
            }
            contents.take(number, line);
        }
        contents
    }

    fn take(&mut self, number: usize, bytes: &[u8]) {
        let (damaged, line) = whole_in(bytes);
        if damaged {
            self.faults.push(number);
        }
        self.lines.extend(line.map(|line| (number, line)));
    }

    /// Whether it is a history at all, and not some other file.
    pub fn is_history(&self) -> bool {
        self.is_ours || !self.lines.is_empty()
    }

    /// The number for the next layout: no line has it, and none that is not whole had it.
    pub fn next_version(&self) -> u32 {
        let largest = self.lines.iter().map(|(_, line)| line.version).max();
        let faults = self.faults.iter().filter(|number| **number > 1);
        let lines = (self.lines.len() + faults.count()) as u32;
        largest.unwrap_or(0).max(lines).saturating_add(1)
    }
}

/// Whether the bytes are those of a history.
pub fn is_history(bytes: &[u8]) -> bool {
    bytes.starts_with(FIRST.as_bytes())
}

/// What has to be added to the bytes of a file so that it ends with this line.
pub fn added(bytes: &[u8], line: &Line) -> String {
    let begin = match missing_of_first(bytes) {
        Some(missing) => missing,
        None if bytes.ends_with(b"\n") => "",
        None => "\n",
    };
    format!("{begin}{line}\n")
}

/// The rest of a first line that was cut short; of nothing, all of it.
fn missing_of_first(bytes: &[u8]) -> Option<&'static str> {
    let is_cut = bytes.len() < FIRST.len() && FIRST.as_bytes().starts_with(bytes);
    is_cut.then(|| &FIRST[bytes.len()..])
}

/// Whether something is damaged, and the line at the end of it that is whole: the newline before that
/// one may be all that is damaged.
fn whole_in(bytes: &[u8]) -> (bool, Option<Line>) {
    let parsed = |bytes: &[u8]| std::str::from_utf8(bytes).ok().and_then(Line::parse);
    if let Some(line) = parsed(bytes) {
        return (false, Some(line));
    }
    let begins_line = |rest: &&[u8]| rest.get(10) == Some(&b'T') && rest.get(19) == Some(&b'Z');
    let mut rests = (1..bytes.len()).map(|at| &bytes[at..]);
    (true, rests.by_ref().filter(begins_line).find_map(parsed))
}

#[cfg(test)]
mod tests;
