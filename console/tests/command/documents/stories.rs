//! What the documents let an owner type is typed here, and what they show is what is printed.
//!
//! A block after a sentence that ends with "into `NAME`:" is that file. In a block that begins with `$`
//! such lines are calls, and the lines after each are what it prints, all of it but for lines `..`, which
//! stand for lines that are left out, and lines that end with ` ..` and are cut there. A call with nothing
//! after it has to succeed.

use super::{text, ROOT};
use crate::folder::{Done, Folder};
use std::path::Path;
use std::process::Command;

/// A step of a story.
enum Step {
    File { name: String, text: String },
    Call { line: String, shown: Vec<String> },
}

/// The part of a document under one heading.
struct Story {
    heading: String,
    steps: Vec<Step>,
}

/// The stories of a document: headings of the second level with something to type below them.
fn stories(document: &str) -> Vec<Story> {
    let text = text(document);
    let parts = text.split("\n## ").skip(1);
    let stories = parts.map(|part| {
        let (heading, body) = part.split_once('\n').unwrap_or((part, ""));
        Story {
            heading: heading.into(),
            steps: steps(body),
        }
    });
    stories.filter(|story| !story.steps.is_empty()).collect()
}

fn steps(body: &str) -> Vec<Step> {
    let mut steps = Vec::new();
    let mut before = String::new();
    let mut lines = body.lines().peekable();
    while let Some(line) = lines.next() {
        if !line.starts_with("    ") {
            before = match line {
                "" if lines.peek().is_some_and(|next| next.starts_with("    ")) => before,
                "" => String::new(),
                line => format!("{before} {line}"),
            };
            continue;
        }
        let mut block = vec![unindented(line)];
        while let Some(line) = lines.next_if(|line| line.is_empty() || line.starts_with("    ")) {
            block.push(unindented(line));
        }
        while block.last().is_some_and(String::is_empty) {
            block.pop();
        }
        if let Some(name) = file_named(&before) {
            let text = block.join("\n") + "\n";
            steps.push(Step::File { name, text });
        } else if block[0].starts_with("$ ") {
            steps.extend(calls(block));
        }
        before.clear();
    }
    steps
}

fn unindented(line: &str) -> String {
    line.strip_prefix("    ").unwrap_or(line).into()
}

/// The file that a sentence announces.
fn file_named(sentence: &str) -> Option<String> {
    let (_, name) = sentence.strip_suffix("`:")?.rsplit_once("into `")?;
    Some(name.into())
}

fn calls(block: Vec<String>) -> Vec<Step> {
    let mut calls: Vec<Step> = Vec::new();
    for printed in block {
        match (printed.strip_prefix("$ "), calls.last_mut()) {
            (Some(line), _) => calls.push(Step::Call {
                line: line.into(),
                shown: Vec::new(),
            }),
            (None, Some(Step::Call { shown, .. })) => shown.push(printed),
            (None, _) => unreachable!("a block of calls begins with one"),
        }
    }
    calls
}

fn is_shown(printed: &str, shown: &str) -> bool {
    match shown.strip_suffix(" ..") {
        Some(begun) => printed.starts_with(begun),
        None => printed == shown,
    }
}

/// Whether lines are those shown, where `..` stands for any number of them.
fn agree(printed: &[String], shown: &[String]) -> bool {
    match shown {
        [] => printed.is_empty(),
        [gap, rest @ ..] if gap == ".." => {
            (0..=printed.len()).any(|skipped| agree(&printed[skipped..], rest))
        }
        [line, rest @ ..] => match printed {
            [first, others @ ..] => is_shown(first, line) && agree(others, rest),
            [] => false,
        },
    }
}

/// What a line of the shell comes to, in which the command has its name, and `DEZGHURI` is the folder of
/// the repository; both outputs are one, and it is always the same second.
fn typed(folder: &Folder, line: &str) -> Done {
    let command = Path::new(env!("CARGO_BIN_EXE_dezghuri"));
    let beside = command.parent().expect("it stands in a folder").display();
    let others = std::env::var("PATH").unwrap_or_default();
    let mut shell = Command::new("sh");
    shell.args(["-c", &format!("{{ {line}\n}} 2>&1")]);
    shell.current_dir(folder.path("."));
    shell.env("PATH", format!("{beside}:{others}"));
    shell.env("DEZGHURI", ROOT);
    shell.env("SOURCE_DATE_EPOCH", "1794949200");
    shell.output().expect("there is a shell").into()
}

fn told(folder: &Folder, story: &Story) {
    for step in &story.steps {
        match step {
            Step::File { name, text } => folder.write(name, text),
            Step::Call { line, shown } => {
                let Done { status, out, .. } = typed(folder, line);
                let printed: Vec<String> = out.lines().map(String::from).collect();
                let as_shown = match &shown[..] {
                    [] => status == 0,
                    shown => agree(&printed, shown),
                };
                assert!(as_shown, "{}: {line}\n{out}", story.heading);
            }
        }
    }
}

/// The front page is one story.
#[test]
fn the_front_page_shows_what_is_printed() {
    let folder = Folder::new("front-page");
    let stories = stories("README.md");
    assert!(!stories.is_empty());
    for story in stories {
        told(&folder, &story);
    }
}

/// Each story of the guide begins with the files of the first one.
#[test]
fn the_guide_shows_what_is_printed() {
    let stories = stories("docs/GUIDE.md");
    assert!(stories.len() > 9, "{}", stories.len());
    for (story, number) in stories.iter().zip(0..) {
        let folder = Folder::new(&format!("guide-{number}"));
        if number > 0 {
            told(&folder, &stories[0]);
        }
        told(&folder, story);
    }
}

#[test]
fn what_is_left_out_may_be_anything_and_nothing_else_may() {
    let lines = |text: &str| text.lines().map(String::from).collect::<Vec<_>>();
    let printed = lines("a\n\nb and c\nd");
    for shown in [
        "a\n\nb and c\nd",
        "..",
        "a\n..",
        "..\nd",
        "a\n..\nd\n..",
        "..\nb and ..\n..",
    ] {
        assert!(agree(&printed, &lines(shown)), "{shown}");
    }
    for shown in [
        "",
        "a\nb and c\nd",
        "a\n..\nb ..",
        "..\nc ..\n..",
        "d\n..\na",
    ] {
        assert!(!agree(&printed, &lines(shown)), "{shown}");
    }
}
