//! The file of what is staged: the fields of a change record, with the owner's words between them.

use crate::before;
use crate::sum;
use crate::terminal::escaped;
use dezghuri::{Change, Label, Node, Place, Refusal, Refused};
use std::fmt;

/// No file of staged changes is longer; what is longer is some other file.
pub const LONGEST: usize = 1 << 20;

/// The bytes of the fields after the changes, for which room is left: the sums and the check.
pub const LAST_BYTES: usize = 19 + 11;

/// Fields of changes, and those of the command's own, which no paper has.
mod tag {
    pub const ADD: u8 = 20;
    pub const REMOVE: u8 = 21;
    pub const RESIZE: u8 = 22;
    /// The name of the zone of the box that is added next.
    pub const ZONE: u8 = 240;
    /// The name of the box that is added next.
    pub const NAME: u8 = 241;
    /// The sums of the text that was about to be replaced by one with all changes made, and of that.
    pub const SUMS: u8 = 242;
    /// The sum of all bytes of the file before this field, which is its last.
    pub const CHECK: u8 = 243;
}

/// A staged change, as it stands in the file.
#[derive(Clone, Debug, PartialEq, Eq)]
pub struct Entry {
    /// The byte at which the field of the change begins.
    pub byte: usize,
    pub change: Change,
    /// The name of an added box's zone; without one the zone is the number in the change.
    pub zone: Option<String>,
    /// The name of an added box.
    pub name: Option<String>,
}

impl Entry {
    /// What an added box is called.
    pub fn label(&self) -> Label {
        let number = match self.change {
            Change::Add(node) => node.zone.to_string(),
            _ => String::new(),
        };
        Label {
            name: self.name.clone().unwrap_or_default(),
            zone: self.zone.clone().unwrap_or(number),
        }
    }

    /// The bytes of its fields; nothing where a word is too long for a field.
    pub fn to_bytes(&self) -> Option<Vec<u8>> {
        let mut bytes = Vec::new();
        for (tag, word) in [(tag::ZONE, &self.zone), (tag::NAME, &self.name)] {
            if let Some(word) = word {
                bytes.extend(field(tag, word.as_bytes())?);
            }
        }
        bytes.extend(self.change.to_field());
        Some(bytes)
    }
}

/// What the file holds.
#[derive(Debug, Default, PartialEq, Eq)]
pub struct Contents {
    /// In the order in which they were staged, one at least.
    pub entries: Vec<Entry>,
    pub sums: Option<Sums>,
}

/// The sums of a text and of the one that was about to replace it.
#[derive(Clone, Copy, Debug, PartialEq, Eq)]
pub struct Sums {
    pub before: u64,
    pub after: u64,
}

impl Sums {
    pub fn new(before: &[u8], after: &[u8]) -> Sums {
        Sums {
            before: sum::of(before),
            after: sum::of(after),
        }
    }

    fn from_body(body: &[u8]) -> Sums {
        let (before, after) = body.split_at(8);
        Sums {
            before: number(before),
            after: number(after),
        }
    }

    fn to_body(self) -> Vec<u8> {
        [self.before.to_be_bytes(), self.after.to_be_bytes()].concat()
    }
}

/// What is wrong with a file of staged changes.
#[derive(Debug, PartialEq, Eq)]
pub struct Fault {
    pub refused: Refused,
    /// Whether all fields are well, and the check is not that of the bytes before it.
    pub is_of_check: bool,
}

impl fmt::Display for Fault {
    fn fmt(&self, f: &mut fmt::Formatter<'_>) -> fmt::Result {
        write!(f, "{}", self.refused)?;
        match self.is_of_check {
            true => f.write_str(": the bytes before it are not those that were written"),
            false => Ok(()),
        }
    }
}

/// The contents of a file of staged changes, or its first fault with the byte of the field; that the
/// check is another one comes last.
pub fn parse(bytes: &[u8]) -> Result<Contents, Fault> {
    let mut reader = Reader::default();
    let mut at = 0;
    while at < bytes.len() {
        at = reader.take(bytes, at).map_err(|why| fault(why, at))?;
    }
    match reader.check {
        Some((begins, check)) if check != sum::of(&bytes[..begins]) => Err(Fault {
            is_of_check: true,
            ..fault(Refusal::Range, begins)
        }),
        Some(_) => Ok(reader.found),
        None => Err(fault(Refusal::Missing, at)),
    }
}

/// The fields of changes, one after the other; their words were seen to fit.
pub fn fields(entries: &[Entry]) -> Vec<u8> {
    let fields = |entry: &Entry| entry.to_bytes().expect("its words fit a field");
    entries.iter().flat_map(fields).collect()
}

/// The whole file with these changes.
pub fn whole(changes: &[u8]) -> Vec<u8> {
    let check = field(tag::CHECK, &sum::of(changes).to_be_bytes()).expect("eight bytes fit");
    [changes, &check].concat()
}

/// The whole file with these changes, and the sums of the text and of the one that they lead to.
pub fn sealed(changes: &[u8], sums: Sums) -> Vec<u8> {
    let sums = field(tag::SUMS, &sums.to_body()).expect("sixteen bytes fit");
    whole(&[changes, &sums].concat())
}

fn field(tag: u8, body: &[u8]) -> Option<Vec<u8>> {
    let length = u16::try_from(body.len()).ok()?.to_be_bytes();
    Some([&[tag][..], &length, body].concat())
}

fn fault(refusal: Refusal, at: usize) -> Fault {
    let place = Some(Place::Byte(at as u64));
    Fault {
        refused: Refused { refusal, place },
        is_of_check: false,
    }
}

/// What was found so far, and the words that wait for their change.
#[derive(Default)]
struct Reader {
    found: Contents,
    zone: Option<String>,
    name: Option<String>,
    /// The byte at which the check begins, and the check.
    check: Option<(usize, u64)>,
}

impl Reader {
    /// Takes the field that begins here; the byte after it. Faults are looked for as in all records.
    fn take(&mut self, bytes: &[u8], at: usize) -> Result<usize, Refusal> {
        let [tag, high, low, rest @ ..] = &bytes[at..] else {
            return Err(Refusal::Cut);
        };
        if !self.allows(*tag) {
            return Err(Refusal::Tag);
        }
        let length = usize::from(u16::from_be_bytes([*high, *low]));
        if !is_legal(*tag, length) {
            return Err(Refusal::Length);
        }
        let body = rest.get(..length).ok_or(Refusal::Cut)?;
        let next = at + 3 + length;
        match *tag {
            tag::ZONE => self.zone = Some(zone_word(body).ok_or(Refusal::Range)?),
            tag::NAME => self.name = Some(name_words(body).ok_or(Refusal::Range)?),
            tag::SUMS => self.found.sums = Some(Sums::from_body(body)),
            tag::CHECK => self.check = Some((at, number(body))),
            _ => self.take_change(&bytes[at..next], at)?,
        }
        Ok(next)
    }

    /// Whether the tag may come next.
    fn allows(&self, tag: u8) -> bool {
        let waits = self.zone.is_some() || self.name.is_some();
        let may_end = !waits && !self.found.entries.is_empty();
        match tag {
            _ if self.check.is_some() => false,
            tag::CHECK => may_end,
            _ if self.found.sums.is_some() => false,
            tag::ADD => true,
            tag::NAME => self.name.is_none(),
            tag::ZONE | tag::REMOVE | tag::RESIZE => !waits,
            tag::SUMS => may_end,
            _ => false,
        }
    }

    fn take_change(&mut self, bytes: &[u8], at: usize) -> Result<(), Refusal> {
        let change = change_in(bytes).expect("tag and length are those of a change");
        let is_too_high = |node: Node| node.ceiling > Node::NO_CEILING;
        let is_outside = matches!(change, Change::Add(node) if is_too_high(node));
        if change.id() == 0 || is_outside {
            return Err(Refusal::Range);
        }
        self.found.entries.push(Entry {
            byte: at,
            change,
            zone: self.zone.take(),
            name: self.name.take(),
        });
        Ok(())
    }
}

/// The change of a field; a box that was staged before version 0.6.0 has no ceiling.
fn change_in(bytes: &[u8]) -> Option<Change> {
    match bytes {
        [tag::ADD, _, _, body @ ..] if body.len() == before::BOX_BYTES => {
            Change::from_field(&before::with_ceiling(tag::ADD, body))
        }
        _ => Change::from_field(bytes),
    }
}

/// The number in eight bytes.
fn number(body: &[u8]) -> u64 {
    u64::from_be_bytes(body.try_into().expect("the length is legal"))
}

fn is_legal(tag: u8, length: usize) -> bool {
    match tag {
        tag::ADD => [12, before::BOX_BYTES].contains(&length),
        tag::REMOVE => length == 4,
        tag::RESIZE | tag::CHECK => length == 8,
        tag::SUMS => length == 16,
        _ => length > 0,
    }
}

/// The name of a zone as a line of the text has it: one word that is no number.
fn zone_word(body: &[u8]) -> Option<String> {
    let word = name_words(body)?;
    let is_name = !word.contains(' ') && !word.bytes().all(|byte| byte.is_ascii_digit());
    is_name.then_some(word)
}

/// Words as a line of the text has them, with one space between them.
fn name_words(body: &[u8]) -> Option<String> {
    let text = std::str::from_utf8(body).ok()?;
    let words: Vec<&str> = text.split_whitespace().collect();
    let is_plain = escaped(text) == text && !text.contains('#');
    (is_plain && !text.is_empty() && words.join(" ") == text).then(|| text.into())
}

#[cfg(test)]
mod tests;
