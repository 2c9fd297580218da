//! The documents name what there is, keep to their length, and print what the command prints.

mod stories;

use crate::manual::of_help;
use std::collections::BTreeSet;
use std::fs;
use std::path::{Path, PathBuf};

/// The folder of the repository.
const ROOT: &str = concat!(env!("CARGO_MANIFEST_DIR"), "/..");

/// The documents that are looked at here.
const DOCUMENTS: [&str; 5] = [
    "README.md",
    "CONTRIBUTING.md",
    "CHANGELOG.md",
    "docs/GUIDE.md",
    "docs/ARCHITECTURE.md",
];

/// The folders whose contents the documents name by their path.
const FOLDERS: [&str; 7] = [
    "crates/", "console/", "docs/", "tools/", "samples/", "checker/", ".ci/",
];

/// What is made there by a build.
const MADE: &str = "console/target/";

fn path(name: &str) -> PathBuf {
    Path::new(ROOT).join(name)
}

fn text(document: &str) -> String {
    let found = fs::read_to_string(path(document));
    found.unwrap_or_else(|error| panic!("{document}: {error}"))
}

/// The words of a text that may be paths: what stands between spaces, quotes and brackets.
fn words(text: &str) -> impl Iterator<Item = &str> {
    let between = |c: char| c.is_whitespace() || "`\"'()[],;:".contains(c);
    let words = text.split(between);
    words.map(|word| word.trim_end_matches('.'))
}

#[test]
fn lines_are_short_and_the_front_page_is() {
    for document in DOCUMENTS {
        for (line, number) in text(document).lines().zip(1..) {
            let length = line.chars().count();
            assert!(length <= 160, "{document}, line {number}: {length}");
        }
    }
    let lines = text("README.md").lines().count();
    assert!(lines <= 100, "README.md has {lines} lines");
}

#[test]
fn every_path_that_is_named_is_there() {
    for document in DOCUMENTS {
        let text = text(document);
        let is_path = |word: &&str| {
            let is_below = FOLDERS.iter().any(|folder| word.starts_with(folder));
            (is_below || word.ends_with(".md")) && !word.starts_with(MADE)
        };
        let paths: BTreeSet<&str> = words(&text).filter(is_path).collect();
        assert!(!paths.is_empty(), "{document} names no path");
        for named in paths {
            let beside = path(document).with_file_name(named);
            assert!(
                path(named).exists() || beside.exists(),
                "{document}: {named}"
            );
        }
    }
}

/// The targets that the Makefile declares, `make` without one included.
fn targets() -> BTreeSet<String> {
    let makefile = text("Makefile");
    let declared = makefile
        .lines()
        .find_map(|line| line.strip_prefix(".PHONY:"));
    let declared = declared.expect("the Makefile declares its targets");
    declared.split_whitespace().map(String::from).collect()
}

/// What stands after `make` in quotes or on a line of its own.
fn made(text: &str) -> impl Iterator<Item = &str> {
    let quoted = text.split('`').skip(1).step_by(2);
    let lines = text.lines().filter_map(|line| line.strip_prefix("    "));
    let calls = quoted
        .chain(lines)
        .filter_map(|call| call.strip_prefix("make "));
    calls.filter_map(|call| call.split_whitespace().next())
}

#[test]
fn every_target_of_make_that_is_named_is_there() {
    let targets = targets();
    for document in DOCUMENTS {
        for target in made(&text(document)) {
            assert!(targets.contains(target), "{document}: make {target}");
        }
    }
    let readme = text("README.md");
    let named: BTreeSet<&str> = made(&readme).collect();
    assert!(
        named.contains("plan") && named.contains("test"),
        "{named:?}"
    );
}

/// The page of the crates is renewed whenever there is another one. In the list a crate's name comes first, and its
/// kind may follow.
#[test]
fn the_architecture_names_every_crate() {
    let page = text("docs/ARCHITECTURE.md");
    let listed = text("crates.txt");
    let names = listed.lines().filter(|line| !line.starts_with('#'));
    let names: Vec<&str> = names
        .filter_map(|line| line.split_once(':')?.0.split(' ').next())
        .collect();
    for name in &names {
        assert!(page.contains(&format!("`{name}`")), "{name}");
    }
    assert!(page.contains(&format!("is {} small crates", names.len())));
}

/// All code of a crate; none of what is no crate.
fn code_of(name: &str) -> Option<String> {
    let files = fs::read_dir(path("crates").join(name).join("src")).ok()?;
    let file = |entry: fs::DirEntry| fs::read_to_string(entry.path()).expect("plain files");
    Some(files.map(|entry| file(entry.unwrap())).collect())
}

/// A function is named with its crate, a module likewise.
#[test]
fn the_architecture_names_functions_that_are_there() {
    let page = text("docs/ARCHITECTURE.md");
    let mut found = 0;
    for named in page.split('`').skip(1).step_by(2) {
        let Some((name, rest)) = named.split_once("::") else {
            continue;
        };
        let Some(code) = code_of(name) else {
            continue;
        };
        let last = rest.rsplit("::").next().expect("there is a last one");
        let forms = [
            format!("fn {last}("),
            format!("fn {last}<"),
            format!("mod {last};"),
        ];
        let is_there = forms.iter().any(|form| code.contains(form));
        assert!(is_there, "{named}");
        found += 1;
    }
    assert!(found > 20, "{found}");
}

/// Headings as the links to them have them: small letters and hyphens.
fn anchors(text: &str) -> BTreeSet<String> {
    let headings = text.lines().filter_map(|line| line.strip_prefix('#'));
    let anchor = |heading: &str| {
        let plain = heading.trim_start_matches('#').trim().to_lowercase();
        let kept = plain.chars().filter(|c| c.is_alphanumeric() || *c == ' ');
        kept.map(|c| if c == ' ' { '-' } else { c }).collect()
    };
    headings.map(anchor).collect()
}

#[test]
fn every_link_leads_somewhere() {
    for document in DOCUMENTS {
        let text = text(document);
        let links = text.split("](").skip(1);
        for link in links.filter_map(|rest| rest.split(')').next()) {
            let (file, anchor) = link.split_once('#').unwrap_or((link, ""));
            if file.is_empty() {
                assert!(anchors(&text).contains(anchor), "{document}: {link}");
            } else {
                let there = path(document).with_file_name(file);
                assert!(there.exists(), "{document}: {link}");
            }
        }
    }
}

/// The table of the guide has every command.
#[test]
fn the_guide_names_every_command() {
    let guide = text("docs/GUIDE.md");
    let (_, table) = guide
        .split_once("\n## Every command\n")
        .expect("it is there");
    let (table, _) = table.split_once("\n## ").expect("others follow");
    let (commands, _) = of_help("guide-help");
    for command in commands {
        if !["help", "--version"].contains(&command.as_str()) {
            assert!(table.contains(&format!("`{command} ")), "{command}");
        }
    }
}

/// The front page names the least compiler, and the package asks for it.
#[test]
fn the_front_page_names_the_compiler() {
    let least = format!("`rustc` {} or later", env!("CARGO_PKG_RUST_VERSION"));
    let readme = text("README.md").replace('\n', " ");
    assert!(readme.contains(&least), "{least}");
}

/// What the front page shows of Rust is an example of the package, which is compiled with its tests.
#[test]
fn the_front_page_has_the_example_of_the_package() {
    let package = text("console/src/lib.rs");
    let readme = text("README.md");
    let (_, rust) = readme.split_once("**Rust**").expect("it shows Rust");
    let lines = rust.lines().skip_while(|line| !line.starts_with("    "));
    let lines: Vec<&str> = lines.take_while(|line| line.starts_with("    ")).collect();
    assert!(lines.len() > 2, "{lines:?}");
    for line in lines {
        let line = format!("\n//! {}\n", line.trim());
        assert!(package.contains(&line), "{line}");
    }
}
