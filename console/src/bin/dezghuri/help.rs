//! What the command says of itself.

use crate::grammar::{Grammar, Opt, COMMANDS, JSON, STAGED};
use crate::labels;

/// What `dezghuri --version` prints.
pub const VERSION: &str = concat!("dezghuri ", env!("CARGO_PKG_VERSION"), "\n");

/// No line is longer.
const WIDTH: usize = 80;

/// The words that stand below a call begin here.
const INDENT: usize = 6;

/// What FILE is.
const FILE: &str = "\
FILE is a text file:

  copies 3                    # of each partition, 1 to 8
  zones 2                     # that these lie in at least
  bits 8                      # 2^8 = 256 partitions; may be left out
  box 1 workshop 4T tower     # id, zone, capacity, and a name if you like
  ceiling 1 40                # box 1 holds at most 40 copies; may be left out

A capacity is in megabytes, or ends in G or T. It is that of the whole disk, of
which a sixteenth stays free. A zone is a name of one word, or a number from 0
to 65535. A ceiling is a number from 0 to 256, for a large disk on a thin line;
a box without one may hold every partition. A # begins a remark.
";

/// What is written, and how a call ends.
const RULES: &str = "\
Nothing is written before the report is printed. A layout that is there already
is replaced only where it is the --former of this plan, or with --replace; it is
kept as NEXT.old. What is not a layout is never replaced. Pages, certificates
and cluster records are kept likewise, and replaced by their like alone.

Each layout that plan writes has a line in FILE.history. By it a layout is told
that is damaged, older than another one or of another cluster; one that is not
what was written there is no LAST of a plan but with --damaged-anyway.

Exit status: 0 done; 1 there is no such layout, it is not valid or not the best,
or a change cannot be made; 2 the call or a file is at fault, or the report
could not be printed.
";

/// What `dezghuri help` prints.
pub fn of_all() -> String {
    let calls: String = COMMANDS.iter().map(calls).collect();
    let with = |option: &str, what: &str| {
        let names = COMMANDS.iter().filter(|c| c.option(option).is_some());
        let names: Vec<&str> = names.map(|command| command.name).collect();
        let names = labels::joined(&names, "and");
        wrapped("", 0, &format!("With {option}, {names} {what}"))
    };
    let staged = with(
        STAGED,
        "take the boxes of FILE with all staged changes made. What is staged is kept in \
         FILE.staged.",
    );
    let json = with(JSON, "print one JSON object.");
    format!(
        "Plans where the copies of a cluster of storage boxes lie.\n\n{calls}  \
         dezghuri help [COMMAND], dezghuri --version\n      \
         tell of all commands, or of one with its options and an example\n\n\
         {FILE}\n{staged}\n{json}\nWords after -- are no options.\n\n{RULES}"
    )
}

/// What `dezghuri help COMMAND` prints.
pub fn of_one(command: &Grammar) -> String {
    let words = |option: &Opt| match option.word {
        Some(word) => format!("{} {word}", option.name),
        None => option.name.into(),
    };
    let widths = command.options.iter().map(|option| words(option).len());
    let indent = 4 + widths.max().unwrap_or(0);
    let options = command.options.iter().map(|option| {
        let begin = format!("  {:1$}", words(option), indent - 2);
        wrapped(&begin, indent, option.what)
    });
    format!(
        "{}\nOptions:\n{}\nExample:\n  {}\n",
        calls(command),
        options.collect::<String>(),
        command.example
    )
}

/// The ways to call a command, each with what it does.
fn calls(command: &Grammar) -> String {
    let begin = format!("  dezghuri {} ", command.name);
    let call = |(words, what): &(&str, &str)| {
        let line = wrapped(&begin, begin.len(), words);
        line + &wrapped(&" ".repeat(INDENT), INDENT, what)
    };
    command.calls.iter().map(call).collect()
}

/// The text after a beginning, in lines that are not too long; those after the first are indented.
fn wrapped(begin: &str, indent: usize, text: &str) -> String {
    let mut lines = String::new();
    let mut line = begin.to_string();
    let mut is_fresh = true;
    for part in parts(text) {
        if !is_fresh && line.len() + 1 + part.len() > WIDTH {
            lines += line.trim_end();
            lines.push('\n');
            line = " ".repeat(indent);
            is_fresh = true;
        }
        if !is_fresh {
            line.push(' ');
        }
        line += part;
        is_fresh = false;
    }
    lines + &line + "\n"
}

/// The words of a text; what stands in square brackets or in quotes is not parted.
fn parts(text: &str) -> Vec<&str> {
    let (mut is_quoted, mut depth) = (false, 0);
    let at_a_break = |c: char| {
        is_quoted ^= c == '"';
        depth += i32::from(c == '[') - i32::from(c == ']');
        c == ' ' && depth == 0 && !is_quoted
    };
    text.split(at_a_break).collect()
}

#[cfg(test)]
mod tests {
    use super::*;

    #[test]
    fn lines_are_wrapped_but_not_within_brackets_or_quotes() {
        let text = "FILE [--former LAST] ".repeat(4);
        let told = wrapped("  dezghuri what-if ", 19, text.trim_end());
        let expected = "  dezghuri what-if FILE [--former LAST] FILE [--former LAST] FILE\n                   \
                        [--former LAST] FILE [--former LAST]\n";
        assert_eq!(told, expected);
        assert_eq!(parts("--add \"a b\" c"), ["--add", "\"a b\"", "c"]);
    }

    /// Each option of a command stands in its help, and what it writes in the calls is an option.
    #[test]
    fn the_calls_name_the_options() {
        for command in COMMANDS {
            let told = of_one(command);
            assert!(told.lines().all(|line| line.len() <= WIDTH), "{told}");
            for (words, _) in command.calls {
                let named = words.split([' ', '[', ']']).filter(|w| w.starts_with("--"));
                for name in named {
                    assert!(command.option(name).is_some(), "{name} of {}", command.name);
                }
            }
            let example = format!("dezghuri {} ", command.name);
            assert!(command.example.starts_with(&example), "{told}");
        }
        assert!(of_all().lines().all(|line| line.len() <= WIDTH));
    }
}
