//! The manual and the completions name every command and option that the help has.

use crate::folder::Folder;
use std::collections::BTreeSet;

const MANUAL: &str = include_str!("../../man/dezghuri.1");
const COMPLETIONS: [&str; 3] = [
    include_str!("../../completions/dezghuri.bash"),
    include_str!("../../completions/_dezghuri"),
    include_str!("../../completions/dezghuri.fish"),
];

/// The words of a text, without brackets and stops.
fn words(text: &str) -> BTreeSet<String> {
    let words = text.split(|c: char| !c.is_alphanumeric() && c != '-');
    words.map(String::from).collect()
}

/// The commands of the help, and its options; it is called in a folder of this name.
pub fn of_help(folder: &str) -> (BTreeSet<String>, BTreeSet<String>) {
    let help = Folder::new(folder).call("help").out;
    let calls = help.split("dezghuri ").skip(1);
    let commands = calls.filter_map(|call| call.split_whitespace().next());
    let commands = commands.map(|word| word.trim_end_matches(',').to_string());
    let is_option = |word: &String| word.starts_with("--") && word != "--";
    let options = words(&help).into_iter().filter(is_option);
    (commands.collect(), options.collect())
}

/// What is told of one command is what all is told of it, with its options and an example.
#[test]
fn each_command_has_a_help_of_its_own() {
    let folder = Folder::new("help-of-one");
    let all = folder.call("help").out;
    let (commands, options) = of_help("help-of-all");
    let mut named = BTreeSet::new();
    for command in &commands {
        if ["help", "--version"].contains(&command.as_str()) {
            continue;
        }
        let one = folder.call(&format!("help {command}")).out;
        assert_eq!(folder.call(&format!("{command} --help")).out, one);
        let (calls, rest) = one.split_once("\nOptions:\n").expect(command);
        assert!(
            calls.starts_with(&format!("  dezghuri {command} ")),
            "{one}"
        );
        assert!(all.contains(calls), "{calls}");
        let (listed, example) = rest.split_once("\nExample:\n").expect(command);
        assert!(
            example.starts_with(&format!("  dezghuri {command} ")),
            "{one}"
        );
        named.extend(
            words(listed)
                .into_iter()
                .filter(|word| word.starts_with("--")),
        );
    }
    assert!(commands.len() > 10);
    named.insert("--version".into());
    assert_eq!(named, options);
}

#[test]
fn the_manual_names_what_the_help_names() {
    let (commands, options) = of_help("manual");
    assert!(commands.contains("what-if") && options.contains("--json"));
    let manual = words(&MANUAL.replace("\\-", "-"));
    for word in commands.union(&options) {
        assert!(manual.contains(word), "{word}");
    }
    let version = concat!("\"dezghuri ", env!("CARGO_PKG_VERSION"), "\"");
    assert!(MANUAL.contains(version));
}

#[test]
fn the_completions_name_what_the_help_names() {
    let (commands, options) = of_help("completions");
    for text in COMPLETIONS {
        // In fish an option has its name after -l.
        let named = words(&text.replace(" -l ", " --"));
        for word in commands.union(&options) {
            assert!(
                named.contains(word),
                "{word} in {}",
                text.lines().next().unwrap()
            );
        }
    }
}
