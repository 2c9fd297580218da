//! The box lines of a text: their parts, and the columns that these stand in.

/// The parts of a box line, by place; the first is the word box.
pub const ID: usize = 1;
pub const ZONE: usize = 2;
pub const CAPACITY: usize = 3;
pub const NAME: usize = 4;
/// From its # on.
pub const REMARK: usize = 5;
const PARTS: usize = 6;

/// The word that a box line begins with.
pub const WORD: &str = "box";

/// A text for each part; an empty one for a part that is missing.
pub type Texts<'a> = [&'a str; PARTS];

/// Where a part begins: the tabs before it, and the letters since the last of them.
#[derive(Clone, Copy, PartialEq, Eq)]
struct Column {
    tabs: usize,
    letters: usize,
}

impl Column {
    /// The one after this beginning of a line.
    fn after(line: &str) -> Column {
        let last = line.rsplit('\t').next().unwrap_or("");
        Column {
            tabs: line.matches('\t').count(),
            letters: last.chars().count(),
        }
    }
}

/// A part of a line, and the blanks before it.
struct Part<'a> {
    blanks: &'a str,
    begins: Column,
    text: &'a str,
}

impl Part<'_> {
    /// Whether spaces stand before it, so many at least, and nothing else.
    fn is_after_spaces(&self, least: usize) -> bool {
        self.blanks.len() >= least && self.blanks.bytes().all(|byte| byte == b' ')
    }
}

/// The line of a box.
pub struct BoxLine<'a> {
    /// The number of the line in the text, from 0 on.
    pub number: usize,
    pub id: u32,
    parts: [Option<Part<'a>>; PARTS],
    /// The blanks at the end.
    pub rest: &'a str,
}

impl<'a> BoxLine<'a> {
    /// None of a line of something else.
    fn read(number: usize, line: &'a str) -> Option<BoxLine<'a>> {
        let words = line.find('#').unwrap_or(line.len());
        let mut parts = [const { None }; PARTS];
        let mut at = 0;
        for (place, part) in parts.iter_mut().enumerate() {
            let left = &line[at..words];
            let text = left.trim_start();
            let (blanks, _) = left.split_at(left.len() - text.len());
            let text = match place {
                NAME => text.trim_end(),
                REMARK => &line[words..],
                _ => text.split_whitespace().next()?,
            };
            if !text.is_empty() {
                at += blanks.len();
                let begins = Column::after(&line[..at]);
                at += text.len();
                *part = Some(Part {
                    blanks,
                    begins,
                    text,
                });
            }
        }
        let text = |place: usize| parts[place].as_ref().map(|part| part.text);
        let id = text(ID)?.parse().ok()?;
        (text(0) == Some(WORD)).then_some(BoxLine {
            number,
            id,
            parts,
            rest: &line[at..],
        })
    }

    /// The blanks before the line, and what a new line of few words has between them: a tab or a space.
    pub fn blanks(&self) -> [&'a str; 2] {
        let before = |part: usize| self.parts[part].as_ref().map_or("", |part| part.blanks);
        let is_tab = before(ID) == "\t";
        [before(0), if is_tab { "\t" } else { " " }]
    }

    pub fn text(&self, part: usize) -> Option<&'a str> {
        self.parts[part].as_ref().map(|part| part.text)
    }
}

/// All box lines of a text, in its order.
pub struct BoxLines<'a> {
    pub lines: Vec<BoxLine<'a>>,
}

impl<'a> BoxLines<'a> {
    pub fn of(lines: impl Iterator<Item = &'a str>) -> BoxLines<'a> {
        let lines = lines.enumerate();
        let lines = lines.filter_map(|(number, line)| BoxLine::read(number, line));
        BoxLines {
            lines: lines.collect(),
        }
    }

    /// A line of these texts that looks like the box line at a place: with its indentation and
    /// tabs, and in its columns, as far as the texts leave room for a space before each.
    pub fn written(&self, place: usize, texts: Texts) -> String {
        let model = &self.lines[place];
        let has_other_parts = model.text(NAME).is_none() != texts[NAME].is_empty();
        let mut line = String::new();
        for (kind, text) in texts.into_iter().enumerate() {
            if text.is_empty() {
                continue;
            }
            let (blanks, column) = self.before(place, kind);
            let here = Column::after(&line);
            match column {
                _ if kind == 0 => line.push_str(blanks),
                Some(column) if column.tabs == here.tabs && column.letters > here.letters => {
                    line.push_str(&" ".repeat(column.letters - here.letters))
                }
                // A remark that touches the word before it is no part of another word.
                _ if blanks.is_empty() && !has_other_parts => (),
                _ if blanks.bytes().all(|byte| byte == b' ') => line.push(' '),
                _ => line.push_str(blanks),
            }
            line.push_str(text);
        }
        line
    }

    /// The blanks before a part of the line at a place, and its column, if it stands in one. Where
    /// the line lacks the part, the nearest that has it lends its own.
    fn before(&self, place: usize, kind: usize) -> (&'a str, Option<Column>) {
        let lines = self.lines.iter().enumerate();
        let having = lines.filter_map(|(other, line)| {
            let part = line.parts[kind].as_ref()?;
            Some((other.abs_diff(place), part))
        });
        match having.min_by_key(|(distance, _)| *distance) {
            Some((_, part)) => {
                let is_column = part.is_after_spaces(1) && self.is_column(kind, part.begins);
                (part.blanks, is_column.then_some(part.begins))
            }
            None => (self.before(place, CAPACITY).0, None),
        }
    }

    /// Whether a part is set in this column: more spaces than one lead to it on some line, or all
    /// lines, several, have it there.
    fn is_column(&self, kind: usize, column: Column) -> bool {
        let having = || {
            let parts = self.lines.iter();
            parts.filter_map(|line| line.parts[kind].as_ref())
        };
        let is_there = |part: &Part| part.begins == column;
        having().any(|part| is_there(part) && part.is_after_spaces(2))
            || having().count() > 1 && having().all(is_there)
    }
}
