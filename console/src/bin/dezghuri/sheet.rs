//! The sheet by which anybody can check, with sums alone, that no layout has a larger size and none of the
//! size sends fewer copies.

mod file;
mod lines;
mod rooms;

use crate::table::{self, Column};
use crate::units::thousands;
use dezghuri::{Certificate, Cluster, Description};

pub use file::{is_certificate, text_of, LONGEST as LONGEST_CERTIFICATE};
pub use lines::SENT;

/// Sentences on the screen are broken before they are longer.
const WIDTH: usize = 100;

/// What the line of sums begins with.
const ALL: &str = "all";

/// A part of the sheet, for the screen and for the page.
pub enum Part {
    Words(String),
    /// The last line has the sums.
    Table(Vec<Column>),
}

/// A certificate of the cluster that is described.
pub struct Sheet<'a> {
    pub described: &'a Description,
    pub certificate: &'a Certificate,
    /// Whether names and zones stand beside the ids; a page has them in a table of its own.
    pub has_names: bool,
}

impl<'a> Sheet<'a> {
    fn cluster(&self) -> &'a Cluster {
        &self.described.cluster
    }

    /// So many of each partition, and all together.
    fn of_each(&self, many: u8) -> String {
        let (many, partitions) = (u64::from(many), self.cluster().partitions());
        format!("{many} x {partitions} = {}", thousands(many * partitions))
    }

    /// Why no layout has a larger size.
    pub fn larger(&self) -> Vec<Part> {
        rooms::larger(self)
    }

    /// Why no layout of this size sends fewer copies.
    pub fn fewer(&self) -> Vec<Part> {
        if self.cluster().former.rows().next().is_none() {
            return vec![Part::Words(format!(
                "No former layout was given, so no box held anything before: all {} copies have to be \
                 sent, by this layout and by every other. All prices are 0.",
                self.of_each(self.cluster().replication)
            ))];
        }
        let mut parts = rooms::takings(self);
        parts.extend(lines::costs(self));
        parts.push(Part::Words(self.end()));
        parts
    }

    /// What the two sums come to.
    fn end(&self) -> String {
        let Certificate { sent, .. } = self.certificate;
        let (low, takings) = (self.certificate.low(), self.certificate.takings());
        let [low, takings, sent] = [low, takings, *sent].map(thousands);
        format!(
            "So the copies of every layout of this size cost {low} or more. At most {takings} of that are \
             prices, and the rest, {low} - {takings} = {sent} or more, is 1 for each copy that is sent. \
             This layout sends {sent}, and none of this size sends fewer."
        )
    }
}

/// The parts as they stand on the screen.
pub fn text(parts: &[Part]) -> String {
    let text = |part: &Part| match part {
        Part::Words(words) => wrapped(words),
        Part::Table(columns) => table::text(columns),
    };
    let parts: Vec<String> = parts.iter().map(text).collect();
    parts.join("\n")
}

/// Words in lines that are not too wide, but where a single word is.
pub fn wrapped(words: &str) -> String {
    let mut lines = vec![String::new()];
    for word in words.split(' ') {
        let line = lines.last_mut().expect("there is one always");
        if line.is_empty() {
            line.push_str(word);
        } else if line.chars().count() + 1 + word.chars().count() <= WIDTH {
            line.push(' ');
            line.push_str(word);
        } else {
            lines.push(word.into());
        }
    }
    lines.join("\n") + "\n"
}

#[cfg(test)]
mod tests {
    use super::*;

    #[test]
    fn words_are_broken_before_they_are_too_wide() {
        let (half, long) = ("x".repeat(50), "\u{fc}".repeat(101));
        assert_eq!(wrapped("a b"), "a b\n");
        let fits = format!("{} {half}", &half[1..]);
        assert_eq!(wrapped(&fits), format!("{fits}\n"));
        assert_eq!(
            wrapped(&format!("{half} {half}")),
            format!("{half}\n{half}\n")
        );
        assert_eq!(wrapped(&format!("a {long} b")), format!("a\n{long}\nb\n"));
    }
}
