//! The lines of a text that give boxes their ceilings.

/// The word that such a line begins with.
pub const WORD: &str = "ceiling";

/// The line of a box's ceiling.
pub struct CeilingLine<'a> {
    /// The number of the line in the text, from 0 on.
    pub number: usize,
    pub id: u32,
    /// All before the ceiling's number, and all after it.
    around: (&'a str, &'a str),
}

impl<'a> CeilingLine<'a> {
    /// None of a line of something else.
    pub fn read(number: usize, line: &'a str) -> Option<CeilingLine<'a>> {
        let words = line.split('#').next()?;
        let mut parts = words.split_whitespace();
        if parts.next() != Some(WORD) {
            return None;
        }
        let id = parts.next()?.parse().ok()?;
        let word = parts.next()?;
        let (before, _) = words
            .trim_end()
            .split_at(words.trim_end().len() - word.len());
        Some(CeilingLine {
            number,
            id,
            around: (before, &line[before.len() + word.len()..]),
        })
    }

    /// From its # on.
    pub fn remark(&self) -> Option<&'a str> {
        let (_, after) = self.around;
        after.find('#').map(|at| &after[at..])
    }

    /// The line with another ceiling.
    pub fn with(&self, ceiling: u16) -> String {
        let (before, after) = self.around;
        format!("{before}{ceiling}{after}")
    }
}
