//! The words that the command is called with.

mod staging;
mod writes;

use crate::grammar::{self, Grammar, Opt, ANYWAY, CEILING, END, JSON, STAGED};
use crate::labels;
use crate::terminal::escaped;
use crate::units;
use dezghuri::Node;
use std::ffi::OsString;
use std::path::PathBuf;

/// One call of the command.
#[derive(Debug, PartialEq, Eq)]
pub struct Call {
    pub command: Command,
    /// Whether one JSON object is printed in the place of a text.
    pub json: bool,
}

/// What is to be done.
#[derive(Debug, PartialEq, Eq)]
pub enum Command {
    /// Of all commands, or of this one.
    Help(Option<&'static str>),
    Version,
    Plan(Plan),
    PlanRecord {
        record: PathBuf,
    },
    Check {
        source: Source,
        layout: PathBuf,
    },
    Show {
        source: Source,
        layout: PathBuf,
        what: Shown,
    },
    Loss {
        source: Source,
        layout: PathBuf,
    },
    Diff {
        source: Source,
        old: PathBuf,
        new: PathBuf,
    },
    Moves(Moves),
    Certify(Certify),
    WhatIf {
        file: PathBuf,
        former: Option<PathBuf>,
        changes: Vec<Change>,
    },
    Report(Report),
    Record {
        file: PathBuf,
        former: Option<PathBuf>,
        out: Option<PathBuf>,
    },
    Stage {
        file: PathBuf,
        staging: Staging,
    },
    Undo {
        file: PathBuf,
    },
    Apply {
        file: PathBuf,
    },
    History {
        file: PathBuf,
    },
}

/// A plan of the cluster of a file.
#[derive(Debug, PartialEq, Eq)]
pub struct Plan {
    pub source: Source,
    pub former: Option<PathBuf>,
    pub out: Option<PathBuf>,
    pub allowance: u16,
    pub replace: bool,
    /// Whether a former layout is taken that is not what was written under its name.
    pub damaged_anyway: bool,
}

/// The steps from one layout to another.
#[derive(Debug, PartialEq, Eq)]
pub struct Moves {
    pub source: Source,
    pub old: PathBuf,
    pub new: PathBuf,
    /// Whether there is a list for each box.
    pub by_box: bool,
    /// How many steps are done; without a number the whole list is asked for.
    pub done: Option<usize>,
}

/// The sheet that shows why no layout is better.
#[derive(Debug, PartialEq, Eq)]
pub struct Certify {
    pub source: Source,
    /// Without one no box held anything before.
    pub former: Option<PathBuf>,
    pub layout: PathBuf,
    pub out: Option<PathBuf>,
}

/// A page that shows a layout.
#[derive(Debug, PartialEq, Eq)]
pub struct Report {
    pub source: Source,
    /// Without one the cluster is planned, and that plan is shown.
    pub layout: Option<PathBuf>,
    /// Without one nothing is said of what moves.
    pub former: Option<PathBuf>,
    pub out: PathBuf,
}

/// A text file, and whether what is staged for it counts.
#[derive(Clone, Debug, PartialEq, Eq)]
pub struct Source {
    pub file: PathBuf,
    pub staged: bool,
}

/// What is done with the staged changes of a file.
#[derive(Clone, Debug, PartialEq, Eq)]
pub enum Staging {
    Show,
    /// The words of a box's line in the file, with its id, and the ceiling.
    Add(String, u16),
    Remove(u32),
    /// The capacity in megabytes.
    Resize(u32, u32),
}

/// What is shown of a layout.
#[derive(Clone, Copy, Debug, PartialEq, Eq)]
pub enum Shown {
    Overview,
    Partition(u8),
    Box(u32),
    All,
}

/// A change of the boxes that is tried.
#[derive(Clone, Debug, PartialEq, Eq)]
pub enum Change {
    /// The words of a box's line in the file, without its id.
    Add(String),
    Remove(u32),
    /// The capacity in megabytes.
    Resize(u32, u32),
    /// The most copies that the box may hold.
    Ceiling(u32, u16),
}

/// The name of a command that takes words, if the word is one.
pub fn command_name(word: &OsString) -> Option<&'static str> {
    Some(known(word)?.name)
}

/// The command that takes words, if the word names one.
fn known(word: &OsString) -> Option<&'static Grammar> {
    word.to_str().and_then(grammar::command)
}

/// The words that may be options: those before the first `--`.
fn before_the_end(words: &[OsString]) -> &[OsString] {
    let end = words.iter().position(|word| word == END);
    &words[..end.unwrap_or(words.len())]
}

/// Whether an object is asked for, whatever else is wrong with the words.
pub fn asks_for_json(words: &[OsString]) -> bool {
    before_the_end(words).iter().any(|word| word == JSON)
}

/// What is told where no command is named.
fn nothing_to_do() -> String {
    let names = grammar::COMMANDS.iter().map(|command| command.name);
    let names: Vec<&str> = names.chain(["help"]).collect();
    format!("say what to do: {}", labels::joined(&names, "or"))
}

/// The call that the words make, or what is wrong with them.
pub fn parse(words: impl IntoIterator<Item = OsString>) -> Result<Call, String> {
    let mut words = words.into_iter();
    let Some(first) = words.next() else {
        return Err(nothing_to_do());
    };
    let words: Vec<OsString> = words.collect();
    if let Some(command) = about_itself(&first, &words)? {
        let json = false;
        return Ok(Call { command, json });
    }
    let grammar = known(&first).ok_or_else(|| no_command(&first))?;
    let words = Words::sort(words, grammar)?;
    let json = words.flag(JSON);
    let command = match grammar.name {
        "plan" => plan(words),
        "check" => check(words),
        "show" => show(words),
        "loss" => loss(words),
        "diff" => diff(words),
        "moves" => moves(words),
        "certify" => certify(words),
        "what-if" => what_if(words),
        "report" => report(words),
        "stage" => staging::stage(words),
        "undo" => staging::undo(words),
        "apply" => staging::apply(words),
        "history" => history(words),
        _ => record(words),
    };
    let command = command?;
    Ok(Call { command, json })
}

fn no_command(word: &OsString) -> String {
    format!("there is no command {word:?}")
}

/// Help may be asked for after every command too, whatever its other words are.
fn about_itself(first: &OsString, words: &[OsString]) -> Result<Option<Command>, String> {
    let asks_for_help = |word: &OsString| word == "--help" || word == "-h";
    Ok(match first.to_str() {
        Some("help" | "--help" | "-h") => Some(Command::Help(help_on(words)?)),
        Some("--version" | "-V" | "version") => Some(Command::Version),
        _ => known(first)
            .filter(|_| before_the_end(words).iter().any(asks_for_help))
            .map(|command| Command::Help(Some(command.name))),
    })
}

/// The command that help is asked for; without one it is all of them.
fn help_on(words: &[OsString]) -> Result<Option<&'static str>, String> {
    let named = words.iter().find(|word| !is_option(word));
    let named = named.filter(|word| *word != "help");
    let found = named.map(|word| command_name(word).ok_or_else(|| no_command(word)));
    found.transpose()
}

fn plan(mut words: Words) -> Result<Command, String> {
    if let Some(record) = words.path("--record") {
        return match words.is_empty() {
            true => Ok(Command::PlanRecord { record }),
            false => Err("--record stands alone: the record holds all that is planned".into()),
        };
    }
    let allowance = match words.option("--allowance") {
        None => dezghuri::ENOUGH,
        Some(word) => number(&word).ok_or("--allowance takes a number from 0 to 65535")?,
    };
    let (former, out) = (words.path("--former"), words.path("--out"));
    let replace = words.flag("--replace");
    if replace && out.is_none() {
        return Err("--replace goes with --out: without it nothing is written".into());
    }
    let damaged_anyway = words.flag(ANYWAY);
    if damaged_anyway && former.is_none() {
        return Err("--damaged-anyway goes with --former: it is that layout that is taken".into());
    }
    let staged = words.flag(STAGED);
    let [file] = words.places("a FILE")?;
    Ok(Command::Plan(Plan {
        source: source(file, staged),
        former,
        out,
        allowance,
        replace,
        damaged_anyway,
    }))
}

fn check(words: Words) -> Result<Command, String> {
    let (source, layout) = source_and_layout(words)?;
    Ok(Command::Check { source, layout })
}

fn source_and_layout(words: Words) -> Result<(Source, PathBuf), String> {
    let staged = words.flag(STAGED);
    let [file, layout] = words.places("a FILE and a LAYOUT")?;
    Ok((source(file, staged), layout.into()))
}

fn show(mut words: Words) -> Result<Command, String> {
    let mut asked = Vec::new();
    if words.places.len() == 3 {
        let partition = words.places.pop().and_then(|word| number(&word));
        let partition = partition.ok_or("PARTITION is a number from 0 to 255")?;
        asked.push(Shown::Partition(partition));
    }
    if let Some(word) = words.option("--box") {
        asked.push(Shown::Box(id("--box", &word)?));
    }
    if words.flag("--all") {
        asked.push(Shown::All);
    }
    let what = match asked[..] {
        [] => Shown::Overview,
        [what] => what,
        _ => return Err("one of PARTITION, --box and --all is shown at a time".into()),
    };
    let staged = words.flag(STAGED);
    let [file, layout] = words.places("a FILE and a LAYOUT, and perhaps a PARTITION")?;
    Ok(Command::Show {
        source: source(file, staged),
        layout: layout.into(),
        what,
    })
}

fn loss(words: Words) -> Result<Command, String> {
    let (source, layout) = source_and_layout(words)?;
    Ok(Command::Loss { source, layout })
}

fn diff(words: Words) -> Result<Command, String> {
    let staged = words.flag(STAGED);
    let [file, old, new] = words.places("a FILE, an OLD and a NEW layout")?;
    Ok(Command::Diff {
        source: source(file, staged),
        old: old.into(),
        new: new.into(),
    })
}

fn moves(mut words: Words) -> Result<Command, String> {
    let wanted =
        |word: &OsString| format!("--done takes how many steps are done, and not {word:?}");
    let done = words.option("--done");
    let done = done.map(|word| number(&word).ok_or_else(|| wanted(&word)));
    let done = done.transpose()?;
    let (by_box, staged) = (words.flag("--by-box"), words.flag(STAGED));
    let [file, old, new] = words.places("a FILE, an OLD and a NEW layout")?;
    Ok(Command::Moves(Moves {
        source: source(file, staged),
        old: old.into(),
        new: new.into(),
        by_box,
        done,
    }))
}

fn certify(mut words: Words) -> Result<Command, String> {
    let (former, out) = (words.path("--former"), words.path("--out"));
    let staged = words.flag(STAGED);
    let [file, layout] = words.places("a FILE and a NEW layout")?;
    Ok(Command::Certify(Certify {
        source: source(file, staged),
        former,
        layout: layout.into(),
        out,
    }))
}

fn what_if(mut words: Words) -> Result<Command, String> {
    let former = words.path("--former");
    let changes = std::mem::take(&mut words.options);
    let changes: Vec<Change> = changes
        .iter()
        .map(|(name, word)| change(name, word))
        .collect::<Result<_, _>>()?;
    if changes.is_empty() {
        return Err("say what would change: --add, --remove, --resize or --ceiling".into());
    }
    let [file] = words.places("a FILE")?;
    Ok(Command::WhatIf {
        file: file.into(),
        former,
        changes,
    })
}

fn change(name: &'static str, word: &OsString) -> Result<Change, String> {
    match name {
        "--remove" => Ok(Change::Remove(id(name, word)?)),
        "--resize" => {
            let what = "--resize takes a box and its capacity, as 3=8T";
            let (box_, capacity) = pair(word).ok_or(what)?;
            let capacity = units::megabytes(capacity)?;
            Ok(Change::Resize(id(name, &box_)?, capacity))
        }
        CEILING => {
            let what = "--ceiling takes a box and the most copies that it may hold, as 3=40";
            let (box_, most) = pair(word).ok_or(what)?;
            Ok(Change::Ceiling(id(name, &box_)?, ceiling(&most.into())?))
        }
        _ => match word.to_str() {
            Some(words) => Ok(Change::Add(words.into())),
            None => Err(format!("{name} takes plain text")),
        },
    }
}

/// A box and what is said of it, as in 3=8T.
fn pair(word: &OsString) -> Option<(OsString, &str)> {
    let (box_, said) = word.to_str()?.split_once('=')?;
    Some((box_.into(), said))
}

fn report(mut words: Words) -> Result<Command, String> {
    let former = words.path("--former");
    let out = words.path("--out");
    let out = out.ok_or("a page is written to a file: --out PAGE")?;
    let layout = match words.places.len() {
        2 => words.places.pop().map(PathBuf::from),
        _ => None,
    };
    let staged = words.flag(STAGED);
    let [file] = words.places("a FILE, and perhaps a LAYOUT,")?;
    Ok(Command::Report(Report {
        source: source(file, staged),
        layout,
        former,
        out,
    }))
}

fn record(mut words: Words) -> Result<Command, String> {
    let (former, out) = (words.path("--former"), words.path("--out"));
    let [file] = words.places("a FILE")?;
    Ok(Command::Record {
        file: file.into(),
        former,
        out,
    })
}

fn history(words: Words) -> Result<Command, String> {
    let [file] = words.places("a FILE")?;
    let file = file.into();
    Ok(Command::History { file })
}

fn source(file: OsString, staged: bool) -> Source {
    let file = file.into();
    Source { file, staged }
}

fn number<T: std::str::FromStr>(word: &OsString) -> Option<T> {
    word.to_str()?.parse().ok()
}

/// The id of a box after an option.
fn id(option: &str, word: &OsString) -> Result<u32, String> {
    let id = number(word).filter(|id| *id != 0);
    id.ok_or_else(|| format!("{option} takes the id of a box, and not {word:?}"))
}

/// The most copies that a box may hold.
fn ceiling(word: &OsString) -> Result<u16, String> {
    let ceiling = number(word).filter(|ceiling| *ceiling <= Node::NO_CEILING);
    let most = Node::NO_CEILING;
    ceiling.ok_or_else(|| format!("{CEILING} takes a number from 0 to {most}, and not {word:?}"))
}

/// The words after the first, options apart from the others.
struct Words {
    places: Vec<OsString>,
    options: Vec<(&'static str, OsString)>,
    flags: Vec<&'static str>,
}

impl Words {
    /// Tells options, each with its value, and flags from the other words.
    fn sort(words: Vec<OsString>, grammar: &Grammar) -> Result<Words, String> {
        let mut sorted = Words {
            places: Vec::new(),
            options: Vec::new(),
            flags: Vec::new(),
        };
        let mut words = words.into_iter().peekable();
        while let Some(word) = words.next() {
            if word == END {
                sorted.places.extend(words);
                break;
            }
            let Some(text) = word.to_str().filter(|text| text.starts_with('-')) else {
                sorted.places.push(word);
                continue;
            };
            let (name, value) = match text.split_once('=') {
                Some((name, value)) => (name, Some(OsString::from(value))),
                None => (text, None),
            };
            let not_here = || format!("{} is not an option here", escaped(name));
            let option = grammar.option(name).ok_or_else(not_here)?;
            match option.word {
                None => sorted.add_flag(option.name, value)?,
                Some(_) => {
                    let value = value.or_else(|| words.next_if(|next| !is_option(next)));
                    sorted.add_option(option, value)?;
                }
            }
        }
        Ok(sorted)
    }

    fn add_flag(&mut self, name: &'static str, value: Option<OsString>) -> Result<(), String> {
        if value.is_some() {
            return Err(format!("{name} takes no word"));
        }
        self.flags.push(name);
        Ok(())
    }

    fn add_option(&mut self, option: &Opt, value: Option<OsString>) -> Result<(), String> {
        let name = option.name;
        if !option.may_repeat && self.options.iter().any(|(earlier, _)| *earlier == name) {
            return Err(format!("{name} is given twice"));
        }
        let Some(value) = value else {
            return Err(format!("{name} needs a word after it"));
        };
        self.options.push((name, value));
        Ok(())
    }

    /// Whether all words have been taken.
    fn is_empty(&self) -> bool {
        self.places.is_empty() && self.options.is_empty() && self.flags.is_empty()
    }

    fn flag(&self, name: &str) -> bool {
        self.flags.contains(&name)
    }

    fn option(&mut self, name: &str) -> Option<OsString> {
        let at = self
            .options
            .iter()
            .position(|(option, _)| *option == name)?;
        Some(self.options.remove(at).1)
    }

    fn path(&mut self, name: &str) -> Option<PathBuf> {
        self.option(name).map(PathBuf::from)
    }

    /// The words that are no options, as many as are wanted.
    fn places<const N: usize>(self, wanted: &str) -> Result<[OsString; N], String> {
        <[OsString; N]>::try_from(self.places)
            .map_err(|places| format!("{wanted} is wanted, not {} words", places.len()))
    }
}

/// Whether the word is an option, and so not the value of the one before it.
fn is_option(word: &OsString) -> bool {
    word.to_str().is_some_and(|text| text.starts_with("--"))
}

#[cfg(test)]
mod tests {
    use super::*;

    fn called(line: &str) -> Result<Command, String> {
        let call = parse(line.split_whitespace().map(OsString::from))?;
        assert!(!call.json);
        Ok(call.command)
    }

    #[test]
    fn options_stand_anywhere_and_either_way() {
        let expected = Command::Plan(Plan {
            source: source("home.txt".into(), true),
            former: Some("last".into()),
            out: Some("next".into()),
            allowance: 7,
            replace: true,
            damaged_anyway: true,
        });
        let line = "plan --former last --replace home.txt --allowance=7 --out next --staged \
                    --damaged-anyway";
        assert_eq!(called(line), Ok(expected));
    }

    #[test]
    fn words_after_the_end_of_the_options_are_plain() {
        let check = |file: &str, layout: &str| {
            let source = source(file.into(), false);
            let layout = layout.into();
            Ok(Command::Check { source, layout })
        };
        assert_eq!(called("check -- -x --json"), check("-x", "--json"));
        assert_eq!(called("check a -- --help"), check("a", "--help"));
        assert_eq!(called("check -- a --"), check("a", "--"));
        assert_eq!(called("check a b --"), check("a", "b"));
        assert_eq!(called("check -x b"), Err("-x is not an option here".into()));
        let told = "--out needs a word after it";
        assert_eq!(called("plan a --out -- b"), Err(told.into()));
        let staging = Staging::Add("7 attic 4T --odd name".into(), 256);
        let file = "a".into();
        let staged = Ok(Command::Stage { file, staging });
        assert_eq!(called("stage a add 7 attic 4T -- --odd name"), staged);
        let asked = |line: &str| {
            let words = line.split_whitespace().map(OsString::from);
            asks_for_json(&words.collect::<Vec<_>>())
        };
        assert!(asked("plan --json -- a"));
        assert!(!asked("plan -- --json"));
    }

    #[test]
    fn a_record_is_planned_by_itself() {
        let planned = |record: &str| {
            let record = record.into();
            Ok(Command::PlanRecord { record })
        };
        assert_eq!(called("plan --record home.record"), planned("home.record"));
        assert_eq!(called("plan --record -"), planned("-"));
        for words in [
            "home.txt",
            "--out next",
            "--allowance 7",
            "--replace",
            "--staged",
        ] {
            let told = "--record stands alone: the record holds all that is planned";
            assert_eq!(
                called(&format!("plan --record - {words}")),
                Err(told.into())
            );
        }
    }

    #[test]
    fn help_may_be_asked_for_anywhere() {
        for line in ["help", "-h", "--help", "help help", "help --all"] {
            assert_eq!(called(line), Ok(Command::Help(None)), "{line}");
        }
        for (line, name) in [
            ("help what-if", "what-if"),
            ("--help plan", "plan"),
            ("plan -h", "plan"),
            ("plan home.txt --help", "plan"),
            ("show --speed 7 -h", "show"),
            ("record home.txt --out --help", "record"),
            ("moves home.txt --done -h", "moves"),
        ] {
            assert_eq!(called(line), Ok(Command::Help(Some(name))), "{line}");
        }
        let none = Err("there is no command \"plam\"".into());
        assert_eq!(called("help plam"), none);
        assert_eq!(called("plam --help"), none);
        for line in ["--version", "-V", "version"] {
            assert_eq!(called(line), Ok(Command::Version), "{line}");
        }
    }

    #[test]
    fn without_an_allowance_a_plan_finishes() {
        let Ok(Command::Plan(Plan { allowance, .. })) = called("plan home.txt") else {
            panic!("a plan is called for");
        };
        assert_eq!(allowance, 2048);
    }

    #[test]
    fn one_thing_of_a_layout_is_shown() {
        let shown = |line| match called(line) {
            Ok(Command::Show { what, .. }) => Ok(what),
            other => Err(other),
        };
        assert_eq!(shown("show home.txt last"), Ok(Shown::Overview));
        assert_eq!(shown("show home.txt last 255"), Ok(Shown::Partition(255)));
        assert_eq!(shown("show home.txt --box 3 last"), Ok(Shown::Box(3)));
        assert_eq!(shown("show home.txt last --all"), Ok(Shown::All));
        assert!(shown("show home.txt last 256").is_err());
        assert!(shown("show home.txt last 1 2").is_err());
        for two in ["17 --all", "17 --box 3", "--box 3 --all"] {
            let told = "one of PARTITION, --box and --all is shown at a time";
            assert_eq!(
                called(&format!("show home.txt last {two}")),
                Err(told.into())
            );
        }
    }

    #[test]
    fn steps_are_listed_whole_by_box_or_from_a_step_on() {
        let listed = |by_box, done, staged| {
            Ok(Command::Moves(Moves {
                source: source("home.txt".into(), staged),
                old: "last".into(),
                new: "next".into(),
                by_box,
                done,
            }))
        };
        let moves = |words: &str| called(&format!("moves home.txt last next {words}"));
        assert_eq!(moves(""), listed(false, None, false));
        assert_eq!(moves("--done 37"), listed(false, Some(37), false));
        let all = moves("--by-box --done=0 --staged");
        assert_eq!(all, listed(true, Some(0), true));
    }

    #[test]
    fn a_layout_is_certified_from_a_former_one_or_from_none() {
        let certified = |former: Option<&str>, out: Option<&str>, staged| {
            Ok(Command::Certify(Certify {
                source: source("home.txt".into(), staged),
                former: former.map(PathBuf::from),
                layout: "next".into(),
                out: out.map(PathBuf::from),
            }))
        };
        let certify = |words: &str| called(&format!("certify home.txt {words}"));
        assert_eq!(certify("next"), certified(None, None, false));
        let all = certify("--former last next --out=prices --staged");
        assert_eq!(all, certified(Some("last"), Some("prices"), true));
    }

    #[test]
    fn changes_come_in_their_order() {
        let words = [
            "what-if", "home.txt", "--resize", "3=1.5T", "--add", "attic 4T",
        ];
        let more = ["--remove=2", "--former", "last", "--add=shed 1T new"];
        let ceilings = ["--ceiling", "3=0", "--ceiling=4=256"];
        let words = words.iter().chain(&more).chain(&ceilings);
        let call = parse(words.map(OsString::from)).unwrap();
        let expected = Command::WhatIf {
            file: "home.txt".into(),
            former: Some("last".into()),
            changes: vec![
                Change::Resize(3, 1_500_000),
                Change::Add("attic 4T".into()),
                Change::Remove(2),
                Change::Add("shed 1T new".into()),
                Change::Ceiling(3, 0),
                Change::Ceiling(4, 256),
            ],
        };
        assert_eq!(call.command, expected);
    }

    #[test]
    fn an_object_may_be_asked_for() {
        for line in [
            "plan home.txt --json",
            "check --json home.txt last",
            "show home.txt last 7 --json",
            "loss home.txt --json last",
            "diff home.txt last next --json",
            "moves home.txt last next --json",
            "certify home.txt next --json",
            "what-if home.txt --remove 2 --json",
            "stage home.txt add 7 attic 4T --json",
            "undo --json home.txt",
            "apply home.txt --json",
            "history home.txt --json",
        ] {
            let call = parse(line.split_whitespace().map(OsString::from));
            assert!(call.unwrap().json, "{line}");
        }
        for line in ["record home.txt --json", "plan --record - --json"] {
            assert!(called(line).is_err(), "{line}");
        }
    }

    #[test]
    fn a_page_needs_no_layout_but_a_place() {
        let report = |layout: Option<&str>| {
            Ok(Command::Report(Report {
                source: source("home.txt".into(), false),
                layout: layout.map(PathBuf::from),
                former: None,
                out: "page".into(),
            }))
        };
        assert_eq!(called("report home.txt --out page"), report(None));
        let shown = called("report home.txt last --out page");
        assert_eq!(shown, report(Some("last")));
        assert!(called("report home.txt last next --out page").is_err());
        let told = "a page is written to a file: --out PAGE";
        assert_eq!(called("report home.txt last"), Err(told.into()));
    }

    #[test]
    fn faulty_calls_are_told() {
        let faults = [
            (
                "",
                "say what to do: plan, check, show, loss, diff, moves, certify, what-if, stage, undo, \
                 apply, history, report, record or help",
            ),
            ("plam home.txt", "there is no command \"plam\""),
            ("plan", "a FILE is wanted, not 0 words"),
            (
                "check home.txt",
                "a FILE and a LAYOUT is wanted, not 1 words",
            ),
            ("check home.txt last --out x", "--out is not an option here"),
            (
                "loss home.txt last next",
                "a FILE and a LAYOUT is wanted, not 3 words",
            ),
            ("loss home.txt last --box 3", "--box is not an option here"),
            (
                "certify home.txt last next",
                "a FILE and a NEW layout is wanted, not 3 words",
            ),
            ("plan home.txt --out", "--out needs a word after it"),
            ("plan home.txt --out a --out b", "--out is given twice"),
            (
                "plan home.txt --out --former a",
                "--out needs a word after it",
            ),
            ("plan home.txt --replace=yes", "--replace takes no word"),
            (
                "plan home.txt --replace",
                "--replace goes with --out: without it nothing is written",
            ),
            (
                "record home.txt --replace",
                "--replace is not an option here",
            ),
            (
                "plan home.txt --damaged-anyway --out next",
                "--damaged-anyway goes with --former: it is that layout that is taken",
            ),
            ("history", "a FILE is wanted, not 0 words"),
            (
                "history home.txt --staged",
                "--staged is not an option here",
            ),
            (
                "plan home.txt --allowance 65536",
                "--allowance takes a number from 0 to 65535",
            ),
        ];
        told(&faults);
    }

    #[test]
    fn faulty_words_for_boxes_and_changes_are_told() {
        let faults = [
            (
                "show home.txt last --box study",
                "--box takes the id of a box, and not \"study\"",
            ),
            (
                "diff home.txt last",
                "a FILE, an OLD and a NEW layout is wanted, not 2 words",
            ),
            (
                "what-if home.txt",
                "say what would change: --add, --remove, --resize or --ceiling",
            ),
            (
                "what-if home.txt --remove 0",
                "--remove takes the id of a box, and not \"0\"",
            ),
            (
                "what-if home.txt --resize 3:8T",
                "--resize takes a box and its capacity, as 3=8T",
            ),
            (
                "what-if home.txt --resize 3=1.5",
                "1.5 is not a whole number of megabytes",
            ),
            (
                "what-if home.txt --ceiling 40",
                "--ceiling takes a box and the most copies that it may hold, as 3=40",
            ),
            (
                "what-if home.txt --ceiling study=40",
                "--ceiling takes the id of a box, and not \"study\"",
            ),
            (
                "what-if home.txt --ceiling 3=257",
                "--ceiling takes a number from 0 to 256, and not \"257\"",
            ),
            (
                "what-if home.txt --remove 1 --former a --former b",
                "--former is given twice",
            ),
        ];
        told(&faults);
    }

    #[test]
    fn faulty_words_for_steps_are_told() {
        let faults = [
            (
                "moves home.txt last",
                "a FILE, an OLD and a NEW layout is wanted, not 2 words",
            ),
            (
                "moves home.txt last next --done -1",
                "--done takes how many steps are done, and not \"-1\"",
            ),
            (
                "moves home.txt last next --done some",
                "--done takes how many steps are done, and not \"some\"",
            ),
        ];
        told(&faults);
    }

    fn told(faults: &[(&str, &str)]) {
        for (line, fault) in faults {
            assert_eq!(called(line), Err((*fault).into()), "{line}");
        }
    }
}
