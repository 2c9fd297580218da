//! A line of the history: one layout that was written.

use super::moment::Moment;
use super::word::{escaped, unescaped};
use crate::sum;
use dezghuri::Node;
use std::ffi::OsString;
use std::fmt;
use std::os::unix::ffi::{OsStrExt, OsStringExt};
use std::path::PathBuf;
use std::str::FromStr;

/// A layout that was written, and what it was planned from.
#[derive(Clone, Debug, PartialEq, Eq)]
pub struct Line {
    pub date: Moment,
    pub version: u32,
    /// As seen from the folder of the text file where it lies in there, else from the root.
    pub name: PathBuf,
    /// The sum of the layout record.
    pub sum: u64,
    /// That of the former layout.
    pub former: Option<u64>,
    /// That of the layout that had the name until then.
    pub replaced: Option<u64>,
    /// The sum of the text.
    pub text: u64,
    /// The number of staged changes, where the plan was made with them.
    pub staged: Option<u32>,
    pub size: u32,
    pub sent: u32,
    pub is_finished: bool,
    pub copies: u8,
    pub zones: u8,
    pub bits: u8,
    pub boxes: Vec<KeptBox>,
}

/// A box as it was planned with.
#[derive(Clone, Debug, PartialEq, Eq)]
pub struct KeptBox {
    pub id: u32,
    /// The zone as the owner calls it.
    pub zone: String,
    pub capacity: u32,
    pub ceiling: u16,
}

impl Line {
    /// The line that is written so, in this form and no other, with the check of its bytes.
    pub fn parse(text: &str) -> Option<Line> {
        let mut words = text.split(' ');
        let mut word = || words.next();
        let date = Moment::parse(word()?)?;
        let version = number(word()?)?;
        let name = OsString::from_vec(unescaped(word()?)?).into();
        let sum = sum_of(word()?)?;
        let (former, replaced) = (optional(word()?, sum_of)?, optional(word()?, sum_of)?);
        let (text_sum, staged) = text_and_staged(word()?)?;
        let line = Line {
            date,
            version,
            name,
            sum,
            former,
            replaced,
            text: text_sum,
            staged,
            size: number(word()?)?,
            sent: number(word()?)?,
            is_finished: word()? == FINISHED,
            copies: number(word()?)?,
            zones: number(word()?)?,
            bits: number(word()?)?,
            boxes: word()?
                .split(',')
                .map(KeptBox::parse)
                .collect::<Option<_>>()?,
        };
        (line.to_string() == text).then_some(line)
    }
}

const FINISHED: &str = "finished";
const STOPPED: &str = "stopped";
/// In the place of what there is not.
const NONE: &str = "-";

impl fmt::Display for Line {
    fn fmt(&self, f: &mut fmt::Formatter<'_>) -> fmt::Result {
        let sum = |sum: Option<u64>| sum.map_or(NONE.into(), hex);
        let staged = self.staged.map(|staged| format!("+{staged}"));
        let boxes: Vec<String> = self.boxes.iter().map(KeptBox::to_string).collect();
        let words = [
            self.date.to_string(),
            self.version.to_string(),
            escaped(self.name.as_os_str().as_bytes()),
            hex(self.sum),
            sum(self.former),
            sum(self.replaced),
            hex(self.text) + &staged.unwrap_or_default(),
            self.size.to_string(),
            self.sent.to_string(),
            if self.is_finished { FINISHED } else { STOPPED }.into(),
            self.copies.to_string(),
            self.zones.to_string(),
            self.bits.to_string(),
            boxes.join(","),
        ];
        let line = words.join(" ");
        write!(f, "{line} {}", hex(sum::of(line.as_bytes())))
    }
}

impl KeptBox {
    fn parse(word: &str) -> Option<KeptBox> {
        let mut parts = word.split(':');
        let mut part = || parts.next();
        Some(KeptBox {
            id: number(part()?)?,
            zone: String::from_utf8(unescaped(part()?)?).ok()?,
            capacity: number(part()?)?,
            ceiling: optional(part()?, number)?.unwrap_or(Node::NO_CEILING),
        })
    }
}

impl fmt::Display for KeptBox {
    fn fmt(&self, f: &mut fmt::Formatter<'_>) -> fmt::Result {
        let (id, zone) = (self.id, escaped(self.zone.as_bytes()));
        write!(f, "{id}:{zone}:{}:", self.capacity)?;
        match self.ceiling {
            Node::NO_CEILING => f.write_str(NONE),
            ceiling => write!(f, "{ceiling}"),
        }
    }
}

fn hex(sum: u64) -> String {
    format!("{sum:016x}")
}

fn number<T: FromStr>(word: &str) -> Option<T> {
    word.parse().ok()
}

fn sum_of(word: &str) -> Option<u64> {
    u64::from_str_radix(word, 16).ok()
}

/// What the word stands for, or that it stands for nothing; nothing at all where it is neither.
fn optional<T>(word: &str, of: impl Fn(&str) -> Option<T>) -> Option<Option<T>> {
    match word {
        NONE => Some(None),
        word => of(word).map(Some),
    }
}

fn text_and_staged(word: &str) -> Option<(u64, Option<u32>)> {
    match word.split_once('+') {
        Some((text, staged)) => Some((sum_of(text)?, Some(number(staged)?))),
        None => Some((sum_of(word)?, None)),
    }
}

#[cfg(test)]
mod tests;
