//! The page as a whole, and the writing of text into it.

use super::facts::{Facts, Laid};
use super::{bars, loss, map, moves, sheet, tables, words};

/// How each page begins; by this and its end a page is known, whatever its version.
const BEGINNING: &str = "<!DOCTYPE html>\n<html lang=\"en\">\n<head>\n<meta charset=\"utf-8\"/>\n\
                         <meta name=\"generator\" content=\"dezghuri report\"/>\n";
const END: &str = "</main>\n</body>\n</html>\n";

const STYLE: &str = include_str!("style.css");
/// What a page needs besides where some box has a ceiling.
const CEILINGS: &str = include_str!("ceilings.css");
/// What a page needs besides where the layout is not valid.
const FAULTS: &str = include_str!("faults.css");
/// What a page needs besides where the layout is valid.
const LOSS: &str = include_str!("loss.css");
/// What a page needs besides where copies move.
const MOVES: &str = include_str!("moves.css");
const PATTERNS: &str = include_str!("patterns.svg");

/// Longer names are cut, so that one of them cannot take the page.
const LONGEST_NAME: usize = 48;
/// Longer sentences are cut: only names, of boxes and files, can make one so long.
const LONGEST_SENTENCE: usize = 500;
/// Longer names are cut where little room is: beside bars and in bands.
const LONGEST_LABEL: usize = 22;

/// Whether the bytes are a page that this command has written.
pub fn is_page(bytes: &[u8]) -> bool {
    bytes.starts_with(BEGINNING.as_bytes()) && bytes.ends_with(END.as_bytes())
}

/// The whole page, well-formed as XML too.
pub fn page(facts: &Facts) -> String {
    let title = name(last_part(&facts.names.file));
    let figures = match &facts.laid {
        Ok(laid) => of_layout(facts, laid),
        Err(_) => [
            bars::of_disks(facts),
            section("tables", "", &tables::disks(facts)),
        ]
        .concat(),
    };
    [
        BEGINNING,
        "<meta name=\"viewport\" content=\"width=device-width, initial-scale=1\"/>\n",
        &format!(
            "<title>Layout of {title}</title>\n<style>\n{}</style>\n</head>\n<body>\n",
            styles(facts)
        ),
        PATTERNS,
        &format!("<main>\n<h1>Layout of {title}</h1>\n"),
        &first_words(facts),
        &figures,
        END,
    ]
    .concat()
}

/// The styles of the parts that this page has.
fn styles(facts: &Facts) -> String {
    let styles = [
        (true, STYLE),
        (facts.has_ceilings(), CEILINGS),
        (facts.loss().is_some(), LOSS),
        (facts.has_steps(), MOVES),
        (facts.not_valid().is_some(), FAULTS),
    ];
    let needed = styles.iter().filter(|(is_needed, _)| *is_needed);
    needed.map(|(_, style)| *style).collect()
}

/// The name of a file without its folders.
fn last_part(path: &str) -> &str {
    path.rsplit('/').next().unwrap_or(path)
}

/// What is lost comes first, then the sentence.
fn first_words(facts: &Facts) -> String {
    let mut text = String::new();
    for line in facts.losses.iter().flat_map(|told| told.lines()) {
        text += &paragraph("danger", line);
    }
    let sentence = words::sentence(facts);
    text += &match (&facts.laid, facts.not_valid()) {
        (Err(_), _) => paragraph("lead refused", &sentence),
        (_, None) => paragraph("lead", &sentence),
        (_, Some(laid)) => {
            paragraph("danger", &sentence) + &paragraph("lead", &words::not_valid(facts, laid))
        }
    };
    text += &paragraph("small", &words::source(facts));
    text
}

/// The parts of a page with a layout, in the order in which an owner asks.
fn of_layout(facts: &Facts, laid: &Laid) -> String {
    let why = words::why_not_more(facts, laid);
    let why: String = why.iter().map(|line| paragraph("why", line)).collect();
    let why = match why.is_empty() {
        true => why,
        false => section("why", "Why not more", &(why + &sheet::larger(facts, laid))),
    };
    [
        bars::of_layout(facts, laid),
        loss::of_layout(facts),
        map::of_layout(facts, laid),
        moves::by_box(facts, laid),
        why,
        sheet::fewer(facts, laid),
        section("tables", "", &tables::boxes_and_zones(facts, laid)),
        tables::partitions(facts, laid),
        moves::by_partition(laid),
    ]
    .concat()
}

fn paragraph(class: &str, text: &str) -> String {
    let text = cut(text, LONGEST_SENTENCE);
    format!("<p class=\"{class}\">{text}</p>\n")
}

/// A part of the page that can be linked to; one without a heading is told by its tables.
pub fn section(id: &str, heading: &str, body: &str) -> String {
    let heading = match heading {
        "" => String::new(),
        heading => format!("<h2>{heading}</h2>\n"),
    };
    format!("<section id=\"{id}\">\n{heading}{body}</section>\n")
}

/// Text that can stand between tags and in attributes. What no page may hold becomes a mark.
pub fn escaped(text: &str) -> String {
    let mut escaped = String::with_capacity(text.len());
    for c in text.chars() {
        match c {
            '&' => escaped += "&amp;",
            '<' => escaped += "&lt;",
            '>' => escaped += "&gt;",
            '"' => escaped += "&quot;",
            '\'' => escaped += "&#39;",
            c if c.is_control() || ('\u{fffe}'..='\u{ffff}').contains(&c) => {
                escaped.push('\u{fffd}')
            }
            c => escaped.push(c),
        }
    }
    escaped
}

/// A name that its owner gave, cut in the middle where it is very long, and escaped.
pub fn name(text: &str) -> String {
    cut(text, LONGEST_NAME)
}

fn cut(text: &str, longest: usize) -> String {
    let letters: Vec<char> = text.chars().collect();
    if letters.len() <= longest {
        return escaped(text);
    }
    // Names that begin alike often differ at their ends, as in shelf-1 and shelf-2.
    let tail = (longest - 1) / 2;
    let head: String = letters[..longest - 1 - tail].iter().collect();
    let tail: String = letters[letters.len() - tail..].iter().collect();
    format!(
        "{}\u{2026}{}",
        escaped(head.trim_end()),
        escaped(tail.trim_start())
    )
}

/// A figure, in red where it is at fault.
pub fn red_where(is_at_fault: bool, figure: &str) -> String {
    match is_at_fault {
        true => format!("<em>{figure}</em>"),
        false => figure.into(),
    }
}

/// A name in a table. One that is written from right to left leaves its neighbours in place.
pub fn isolated(text: &str) -> String {
    match text {
        "" => String::new(),
        text => format!("<bdi>{}</bdi>", name(text)),
    }
}

/// A name where little room is; the tables have all of it.
pub fn label(text: &str) -> String {
    match text {
        "" => String::new(),
        text => format!("<bdi>{}</bdi>", cut(text, LONGEST_LABEL)),
    }
}

#[cfg(test)]
mod tests {
    use super::*;

    #[test]
    fn text_is_escaped() {
        assert_eq!(escaped("<b>&\"'"), "&lt;b&gt;&amp;&quot;&#39;");
        assert_eq!(escaped("a\u{1}b\nc\u{ffff}"), "a\u{fffd}b\u{fffd}c\u{fffd}");
        assert_eq!(escaped("B\u{fc}ro"), "B\u{fc}ro");
    }

    #[test]
    fn long_names_are_cut_in_the_middle() {
        assert_eq!(name(&"x".repeat(48)), "x".repeat(48));
        let long = "\u{fc}".repeat(24) + &"&".repeat(25);
        let cut = "\u{fc}".repeat(24) + "\u{2026}" + &"&amp;".repeat(23);
        assert_eq!(name(&long), cut);
        let label = label("a long name of a box, number 7");
        assert_eq!(label, "<bdi>a long name\u{2026}, number 7</bdi>");
    }

    #[test]
    fn a_page_is_known_by_its_beginning_and_its_end() {
        let page = [BEGINNING, "anything", END].concat();
        assert!(is_page(page.as_bytes()));
        assert!(!is_page(&page.as_bytes()[1..]));
        assert!(!is_page(&page.as_bytes()[..page.len() - 1]));
        assert!(!is_page(b"<!DOCTYPE html>\n"));
    }
}
