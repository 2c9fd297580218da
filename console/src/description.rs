//! The text file in which an owner describes the cluster.

mod slips;

use crate::cluster::{Cluster, Node};
use crate::layout::Layout;
use crate::terminal::{self, shown};
use crate::units;
use std::collections::BTreeSet;
use std::error::Error;
use std::fmt;
use std::ops::RangeInclusive;
use std::path::Path;
use std::str::FromStr;

/// The most boxes of a cluster.
const MOST_BOXES: usize = 32;
/// The partition bits of a file that has none: 256 partitions.
const USUAL_BITS: u8 = 8;

/// A cluster, with the words by which its owner knows it: what a text file describes.
///
/// `docs/FORMATS.md` has the lines of such a file.
///
/// ```
/// use dezghuri::Description;
///
/// let text = "copies 2\nzones 1\nbox 1 home 2T study\nbox 2 home 500G\nceiling 2 40";
/// let described: Description = text.parse()?;
/// let [study, other] = described.cluster.nodes[..] else { panic!("there are two boxes") };
/// assert_eq!((other.capacity, other.ceiling), (500_000, 40));
/// assert_eq!(study.ceiling, dezghuri::Node::NO_CEILING);
/// assert_eq!(described.label(1).unwrap().name, "study");
///
/// let faults = "copies 2\nbox one home 2T\n".parse::<Description>().unwrap_err();
/// assert_eq!(faults.notes()[0].line, Some(2));
/// # Ok::<(), dezghuri::Faults>(())
/// ```
#[derive(Clone, Debug, PartialEq, Eq, Hash)]
pub struct Description {
    /// The cluster without a former layout.
    pub cluster: Cluster,
    /// One for each node, in the same order.
    pub labels: Vec<Label>,
    /// What is no fault but looks like a slip.
    pub warnings: Vec<Note>,
}

impl Description {
    /// Reads the whole text; every line that is at fault is told.
    ///
    /// # Errors
    ///
    /// All faults, by line.
    pub fn parse(bytes: &[u8]) -> Result<Description, Faults> {
        let text = bytes.strip_prefix(b"\xef\xbb\xbf").unwrap_or(bytes);
        let mut lines = Lines::default();
        let mut notes = Vec::new();
        for (number, line) in (1..).zip(text.split(|byte| *byte == b'\n')) {
            if let Err(what) = lines.take(number, line) {
                let line = Some(number);
                notes.push(Note { line, what });
            }
        }
        notes.extend(lines.ceilings_of_no_box());
        notes.sort_by_key(|note| note.line);
        notes.extend(lines.faults_of_all());
        match notes.is_empty() {
            true => Ok(lines.described()),
            false => Err(Faults { notes }),
        }
    }

    /// Whether the cluster has a box of this id.
    pub fn has(&self, id: u32) -> bool {
        self.label(id).is_some()
    }

    /// What the owner calls a box of the cluster.
    pub fn label(&self, id: u32) -> Option<&Label> {
        let mut labels = self.cluster.nodes.iter().zip(&self.labels);
        let found = labels.find(|(node, _)| node.id == id);
        found.map(|(_, label)| label)
    }
}

impl FromStr for Description {
    type Err = Faults;

    fn from_str(text: &str) -> Result<Description, Faults> {
        Description::parse(text.as_bytes())
    }
}

impl TryFrom<&[u8]> for Description {
    type Error = Faults;

    fn try_from(bytes: &[u8]) -> Result<Description, Faults> {
        Description::parse(bytes)
    }
}

/// What the owner calls a box and the zone that it stands in.
#[derive(Clone, Debug, Default, PartialEq, Eq, Hash)]
pub struct Label {
    /// Empty where the box has none.
    pub name: String,
    /// A name, or the digits of a number.
    pub zone: String,
}

/// Something to say of a text file, and the line that it is on, if it is on one.
#[derive(Clone, Debug, PartialEq, Eq, Hash)]
pub struct Note {
    /// From 1 on.
    pub line: Option<usize>,
    /// In plain words, without the line.
    pub what: String,
}

impl Note {
    /// The note with the name of its file.
    pub fn told_of(&self, path: &Path) -> String {
        match self.line {
            Some(_) => format!("{}, {self}", shown(path)),
            None => format!("{}: {self}", shown(path)),
        }
    }
}

impl fmt::Display for Note {
    fn fmt(&self, f: &mut fmt::Formatter<'_>) -> fmt::Result {
        if let Some(line) = self.line {
            write!(f, "line {line}: ")?;
        }
        f.write_str(&self.what)
    }
}

/// Why a text describes no cluster.
#[derive(Clone, Debug, PartialEq, Eq, Hash)]
pub struct Faults {
    notes: Vec<Note>,
}

impl Faults {
    /// One at least: first those of single lines, in their order, then those of no line.
    pub fn notes(&self) -> &[Note] {
        &self.notes
    }
}

impl fmt::Display for Faults {
    fn fmt(&self, f: &mut fmt::Formatter<'_>) -> fmt::Result {
        let lines: Vec<String> = self.notes.iter().map(Note::to_string).collect();
        f.write_str(&lines.join("\n"))
    }
}

impl Error for Faults {}

/// What the lines have said so far.
#[derive(Default)]
struct Lines {
    copies: Option<Setting>,
    zones: Option<Setting>,
    bits: Option<Setting>,
    boxes: Vec<BoxLine>,
    ceilings: Vec<CeilingLine>,
    /// Whether a line begins with the word box, be it at fault or not.
    has_box: bool,
    /// The ids of all such lines that have one.
    named: BTreeSet<u32>,
}

/// A number that is set once; it has no value where its line is at fault.
struct Setting {
    line: usize,
    value: Option<u8>,
}

struct BoxLine {
    line: usize,
    id: u32,
    zone: Zone,
    capacity: u32,
    /// The capacity as it is written.
    written: String,
    name: String,
    /// Whether its remark begins in a word, as in `tower #2`.
    is_cut: bool,
}

/// The ceiling of a box; it has no value where its line is at fault.
struct CeilingLine {
    line: usize,
    id: u32,
    value: Option<u16>,
}

#[derive(Clone, PartialEq, Eq)]
enum Zone {
    Number(u16),
    Name(String),
}

impl Lines {
    fn take(&mut self, line: usize, bytes: &[u8]) -> Result<(), String> {
        let text = std::str::from_utf8(bytes).map_err(|_| "this is not plain text (UTF-8)")?;
        let (text, remark) = text.split_once('#').unwrap_or((text, ""));
        let is_cut = slips::touch(text, remark);
        let text = text.trim();
        if text.contains(|c: char| terminal::is_command(c) && c != '\t') {
            return Err("this has a control character in it".into());
        }
        let words: Vec<&str> = text.split_whitespace().collect();
        if let ["box", ref rest @ ..] = words[..] {
            self.has_box = true;
            self.named.extend(rest.first().and_then(|word| id(word)));
        }
        match words[..] {
            [] => Ok(()),
            ["copies", ..] => set(&mut self.copies, line, &words, 1..=8),
            ["zones", ..] => set(&mut self.zones, line, &words, 1..=8),
            ["bits", ..] => set(&mut self.bits, line, &words, 0..=8),
            ["box", id, zone, capacity, ref name @ ..] => {
                let found = self.box_line(line, [id, zone, capacity], name)?;
                self.boxes.push(BoxLine { is_cut, ..found });
                Ok(())
            }
            ["box", ..] => Err("a box has an id, a zone and a capacity: box 1 home 2T".into()),
            ["ceiling", id, number] => self.ceiling_line(line, id, number),
            ["ceiling", ..] => Err(
                "a ceiling has the id of a box and the most copies that it may hold: ceiling 1 40"
                    .into(),
            ),
            [word, ..] => Err(format!(
                "a line begins with copies, zones, bits, box or ceiling, and not with '{word}'"
            )),
        }
    }

    fn box_line(&self, line: usize, words: [&str; 3], name: &[&str]) -> Result<BoxLine, String> {
        let [id, zone, capacity] = words;
        if let Some(unit) = name.first().filter(|word| units::is_unit(word)) {
            let written = format!("{capacity}{unit}");
            units::megabytes(&written)?;
            return Err(format!(
                "write the unit at the number, without a space: {written}"
            ));
        }
        if let Some(words) = slips::zone_of_several_words(zone, capacity, name) {
            return Err(format!(
                "a zone is one word: write {}, and not '{}'",
                words.join("-"),
                words.join(" ")
            ));
        }
        let found = BoxLine {
            line,
            id: self.new_id(id)?,
            zone: self.zone(zone)?,
            capacity: units::megabytes(capacity)?,
            written: capacity.into(),
            name: name.join(" "),
            is_cut: false,
        };
        if self.boxes.len() == MOST_BOXES {
            return Err(format!("this is one box too many: at most {MOST_BOXES}"));
        }
        Ok(found)
    }

    /// Whether there is such a box is seen once all lines are read.
    fn ceiling_line(&mut self, line: usize, id: &str, number: &str) -> Result<(), String> {
        let id = box_id(id)?;
        if let Some(earlier) = self.ceilings.iter().find(|earlier| earlier.id == id) {
            return Err(format!(
                "the ceiling of box {id} is on line {} already",
                earlier.line
            ));
        }
        let value = digits(number).filter(|ceiling| *ceiling <= Node::NO_CEILING);
        self.ceilings.push(CeilingLine { line, id, value });
        match value {
            Some(_) => Ok(()),
            None => Err(format!(
                "a ceiling is a number from 0 to {}, and not '{number}'",
                Node::NO_CEILING
            )),
        }
    }

    fn new_id(&self, word: &str) -> Result<u32, String> {
        let id = box_id(word)?;
        match self.boxes.iter().find(|earlier| earlier.id == id) {
            Some(earlier) => Err(format!("box {id} is on line {} already", earlier.line)),
            None => Ok(id),
        }
    }

    /// Two names that differ in capitals only are refused: a slip there would count a house twice.
    fn zone(&self, word: &str) -> Result<Zone, String> {
        if word.bytes().all(|byte| byte.is_ascii_digit()) {
            return match digits(word) {
                Some(number) => Ok(Zone::Number(number)),
                None => Err(format!("a zone's number is at most 65535, and not {word}")),
            };
        }
        for earlier in &self.boxes {
            let Zone::Name(name) = &earlier.zone else {
                continue;
            };
            if name != word && name.to_lowercase() == word.to_lowercase() {
                return Err(format!(
                    "zone '{word}' is written '{name}' on line {}: write it one way",
                    earlier.line
                ));
            }
        }
        Ok(Zone::Name(word.into()))
    }

    /// The ceilings of boxes that no line names.
    fn ceilings_of_no_box(&self) -> Vec<Note> {
        let ceilings = self.ceilings.iter();
        let of_none = ceilings.filter(|found| !self.named.contains(&found.id));
        let note = |found: &CeilingLine| Note {
            line: Some(found.line),
            what: format!("there is no box {} in this file", found.id),
        };
        of_none.map(note).collect()
    }

    /// Faults that no single line has.
    fn faults_of_all(&self) -> Vec<Note> {
        let mut faults = Vec::new();
        let mut missing = |what: &str| {
            faults.push(Note {
                line: None,
                what: what.into(),
            })
        };
        if self.copies.is_none() {
            missing("there is no line that says how many copies: copies 3");
        }
        if self.zones.is_none() {
            missing("there is no line that says in how many zones they lie: zones 2");
        }
        if !self.has_box {
            missing("there is no line with a box: box 1 home 2T");
        }
        if let (Some(copies), Some(zones)) = (&self.copies, &self.zones) {
            if let (Some(c), Some(z)) = (copies.value, zones.value) {
                if z > c {
                    faults.push(Note {
                        line: Some(zones.line),
                        what: format!("{c} copies cannot lie in {z} zones"),
                    });
                }
            }
        }
        faults
    }

    /// The cluster of lines without a fault.
    fn described(mut self) -> Description {
        let warnings = slips::of(&self.boxes);
        let numbers = zone_numbers(&self.boxes);
        let value = |setting: &Option<Setting>| setting.as_ref().and_then(|s| s.value);
        let (copies, zones) = (value(&self.copies), value(&self.zones));
        let ceilings = std::mem::take(&mut self.ceilings);
        let ceiling = |id: u32| ceilings.iter().find(|found| found.id == id)?.value;
        let mut nodes = Vec::new();
        let mut labels = Vec::new();
        self.boxes.sort_by_key(|found| found.id);
        for found in self.boxes {
            let (zone, label) = match found.zone {
                Zone::Number(number) => (number, number.to_string()),
                Zone::Name(name) => (number_of(&numbers, &name), name),
            };
            nodes.push(Node {
                id: found.id,
                zone,
                capacity: found.capacity,
                ceiling: ceiling(found.id).unwrap_or(Node::NO_CEILING),
            });
            labels.push(Label {
                name: found.name,
                zone: label,
            });
        }
        let cluster = Cluster {
            bits: value(&self.bits).unwrap_or(USUAL_BITS),
            replication: copies.expect("a file without a fault has it"),
            redundancy: zones.expect("a file without a fault has it"),
            nodes,
            former: Layout::default(),
        };
        Description {
            cluster,
            labels,
            warnings,
        }
    }
}

/// Sets a number from a line of two words.
fn set(
    slot: &mut Option<Setting>,
    line: usize,
    words: &[&str],
    range: RangeInclusive<u8>,
) -> Result<(), String> {
    let word = words[0];
    if let Some(earlier) = slot {
        return Err(format!("{word} is on line {} already", earlier.line));
    }
    let value = match words {
        [_, number] => digits(number).filter(|number| range.contains(number)),
        _ => None,
    };
    *slot = Some(Setting { line, value });
    match value {
        Some(_) => Ok(()),
        None => Err(format!(
            "{word} takes one number, from {} to {}",
            range.start(),
            range.end()
        )),
    }
}

/// The id that the word is, if it is one.
fn id(word: &str) -> Option<u32> {
    digits(word).filter(|id| *id != 0)
}

/// The same, told where it is none.
fn box_id(word: &str) -> Result<u32, String> {
    id(word).ok_or_else(|| {
        format!("the id of a box is a number from 1 to 4294967295, and not '{word}'")
    })
}

/// A number of decimal digits and nothing else.
fn digits<T: std::str::FromStr>(word: &str) -> Option<T> {
    let plain = word.bytes().all(|byte| byte.is_ascii_digit());
    plain.then(|| word.parse().ok()).flatten()
}

/// The zones that have names, each with a number that no box of the file names: the lowest free
/// ones, in the order in which the names appear.
fn zone_numbers(boxes: &[BoxLine]) -> Vec<(String, u16)> {
    let mut named = BTreeSet::new();
    let mut names: Vec<&String> = Vec::new();
    for found in boxes {
        match &found.zone {
            Zone::Number(number) => {
                named.insert(*number);
            }
            Zone::Name(name) if !names.contains(&name) => names.push(name),
            Zone::Name(_) => (),
        }
    }
    let free = (0..=u16::MAX).filter(|number| !named.contains(number));
    names.into_iter().cloned().zip(free).collect()
}

fn number_of(numbers: &[(String, u16)], name: &str) -> u16 {
    let found = numbers.iter().find(|(known, _)| known == name);
    found.expect("each name has a number").1
}

#[cfg(test)]
mod tests;
