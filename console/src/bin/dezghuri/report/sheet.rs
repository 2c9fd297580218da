//! The sheet of the certificate: why the size is no larger, and why no fewer copies are sent.

use super::facts::{Facts, Laid};
use super::html::{escaped, isolated, section};
use super::tables::table;
use crate::sheet::{Part, Sheet, SENT};
use crate::table::{Column, Side};

/// Longer tables are not for a page: the command prints them.
const MOST_LINES: usize = 40;

/// Why the size is no larger; nothing where the layout has no certificate.
pub fn larger(facts: &Facts, laid: &Laid) -> String {
    let sheet = sheet(facts, laid);
    sheet.map_or_else(String::new, |sheet| parts(&sheet.larger()))
}

/// Why no layout of the size sends fewer copies; nothing where the layout has no certificate.
pub fn fewer(facts: &Facts, laid: &Laid) -> String {
    let Some(sheet) = sheet(facts, laid) else {
        return String::new();
    };
    let body = parts(&sheet.fewer()) + TRUSTED;
    section("fewest", "Why not fewer", &body)
}

/// What no sum can tell.
const TRUSTED: &str = "<p class=\"small\">The text file and the former layout are taken as they are. \
                       <code>dezghuri certify</code> prints the same, and writes the prices for a program \
                       that counts all of it again.</p>\n";

fn sheet<'a>(facts: &'a Facts, laid: &'a Laid) -> Option<Sheet<'a>> {
    let certificate = laid.judged.as_ref().ok()?.certificate.as_ref()?;
    Some(Sheet {
        described: facts.described,
        certificate,
        has_names: false,
    })
}

fn parts(parts: &[Part]) -> String {
    let part = |part: &Part| match part {
        Part::Words(words) => format!("<p>{}</p>\n", typeset(words)),
        Part::Table(columns) => lines(columns),
    };
    parts.iter().map(part).collect()
}

/// A table whose last line has the sums.
fn lines(columns: &[Column]) -> String {
    let last = columns[0].cells.len() - 1;
    if last > MOST_LINES {
        return format!(
            "<p>These are {} lines: <code>dezghuri certify</code> prints them.</p>\n",
            last - 1
        );
    }
    let heads: Vec<String> = columns.iter().map(|c| typeset(&c.cells[0])).collect();
    let heads: Vec<&str> = heads.iter().map(String::as_str).collect();
    let line = |row: usize| {
        let (first, others) = columns.split_first().expect("there is a column");
        let others: String = others.iter().map(|column| cell(column, row)).collect();
        let class = if row == last { " class=\"sum\"" } else { "" };
        let first = head(first, row);
        format!("<tr{class}><th>{first}</th>{others}</tr>\n")
    };
    table(
        "sheet",
        "",
        &heads,
        &(1..=last).map(line).collect::<String>(),
    )
}

/// The head of a line: numbers, or the owner's name of a zone.
fn head(column: &Column, row: usize) -> String {
    match column.cells[0].as_str() {
        "zone" => isolated(&column.cells[row]),
        _ => column.cells[row].clone(),
    }
}

fn cell(column: &Column, row: usize) -> String {
    let text = &column.cells[row];
    match column.side {
        Side::Right => format!("<td class=\"n\">{text}</td>"),
        Side::Left => {
            let words: Vec<String> = text.split(' ').map(marked).collect();
            format!("<td>{}</td>", words.join(" ").replace('+', " + "))
        }
    }
}

/// An id with the mark of the page for what has to be sent.
fn marked(word: &str) -> String {
    match word.strip_suffix(SENT) {
        Some(id) => format!("<b>{id}</b>"),
        None => word.into(),
    }
}

/// Words with the signs that a page has and a screen may not have.
fn typeset(words: &str) -> String {
    let words = escaped(words).replace(" x ", " \u{d7} ");
    words.replace(" - ", " \u{2212} ").replace(SENT, "\u{25b2}")
}
