//! The words of the commands that stage changes.

use super::{ceiling, id, Command, Staging, Words};
use crate::grammar::CEILING;
use crate::terminal::{escaped, shown};
use crate::units;
use dezghuri::Node;
use std::ffi::OsString;
use std::path::{Path, PathBuf};

/// What `stage` can do with a file.
const ACTIONS: &str = "stage FILE add, remove, resize or show";

/// `stage FILE ..`; the file may stand after show, undo and apply too.
pub fn stage(mut words: Words) -> Result<Command, String> {
    let ceiling = words.option(CEILING).map(|word| ceiling(&word));
    let ceiling = ceiling.transpose()?;
    let mut places = words.places;
    let is_plain = |word: &OsString| ["show", "undo", "apply"].iter().any(|w| word == w);
    if places.len() == 2 && is_plain(&places[0]) {
        places.swap(0, 1);
    }
    if places.is_empty() || places.len() == 1 && is_plain(&places[0]) {
        return Err(format!("a FILE is wanted: {ACTIONS}"));
    }
    let file = PathBuf::from(places.remove(0));
    let mut rest = Vec::new();
    for word in &places {
        rest.push(
            word.to_str()
                .ok_or_else(|| format!("{word:?} is not plain text"))?,
        );
    }
    if ceiling.is_some() && rest.first() != Some(&"add") {
        return Err(format!(
            "{CEILING} goes with a new box: stage FILE add 7 attic 4T {CEILING} 40"
        ));
    }
    match rest[..] {
        ["undo"] => Ok(Command::Undo { file }),
        ["apply"] => Ok(Command::Apply { file }),
        ["add", ref words @ ..] => Ok(Command::Stage {
            file,
            staging: add(&words.join(" "), ceiling.unwrap_or(Node::NO_CEILING))?,
        }),
        ["ceiling", ref words @ ..] => Err(no_ceiling(&file, words)),
        _ => Ok(Command::Stage {
            file,
            staging: staging(&rest)?,
        }),
    }
}

/// A change has an id and a capacity, or a whole new box: no ceiling of one that is there.
fn no_ceiling(file: &Path, words: &[&str]) -> String {
    let words = match words {
        [id, number] => escaped(&format!("{id} {number}")),
        _ => "ID N".into(),
    };
    format!(
        "a staged change cannot carry the ceiling of a box that is there: put the line `ceiling \
         {words}` into {}",
        shown(file)
    )
}

pub fn undo(words: Words) -> Result<Command, String> {
    let [file] = words.places("a FILE")?;
    Ok(Command::Undo { file: file.into() })
}

pub fn apply(words: Words) -> Result<Command, String> {
    let [file] = words.places("a FILE")?;
    Ok(Command::Apply { file: file.into() })
}

fn staging(words: &[&str]) -> Result<Staging, String> {
    match words {
        [] | ["show"] => Ok(Staging::Show),
        ["remove", word] => Ok(Staging::Remove(id("remove", &word.into())?)),
        ["resize", word, capacity] => {
            let id = id("resize", &word.into())?;
            Ok(Staging::Resize(id, units::megabytes(capacity)?))
        }
        ["remove", ..] => Err("remove takes the id of a box: stage FILE remove 2".into()),
        ["resize", ..] => Err("resize takes a box and its capacity: stage FILE resize 3 8T".into()),
        ["show" | "undo" | "apply", ..] => Err(format!("{} takes no more words", words[0])),
        [word, ..] => Err(format!("{ACTIONS}, and not {word:?}")),
    }
}

/// The words of a line; that it is one line is all that is asked here.
fn add(words: &str, ceiling: u16) -> Result<Staging, String> {
    if words.contains('\n') || words.split_whitespace().count() < 3 {
        let what = "add takes an id, a zone and a capacity, and perhaps a name: \
                    stage FILE add 7 attic 4T new box";
        return Err(what.into());
    }
    Ok(Staging::Add(words.into(), ceiling))
}

#[cfg(test)]
mod tests {
    use super::super::parse;
    use super::*;

    fn called(line: &str) -> Result<Command, String> {
        parse(line.split_whitespace().map(OsString::from)).map(|call| call.command)
    }

    fn staged(staging: Staging) -> Result<Command, String> {
        let file = "home.txt".into();
        Ok(Command::Stage { file, staging })
    }

    #[test]
    fn changes_are_staged_as_they_are_said() {
        let add = |ceiling| staged(Staging::Add("7 attic 4T new box".into(), ceiling));
        let line = "stage home.txt add 7 attic 4T new box";
        assert_eq!(called(line), add(256));
        for ceiling in [0, 40, 256] {
            assert_eq!(called(&format!("{line} --ceiling {ceiling}")), add(ceiling));
        }
        let between = "stage home.txt --ceiling=40 add 7 attic --json 4T new box";
        assert_eq!(called(between), add(40));
        assert_eq!(
            called("stage home.txt remove 2"),
            staged(Staging::Remove(2))
        );
        let resize = Staging::Resize(3, 8_000_000);
        assert_eq!(called("stage home.txt resize 3 8T"), staged(resize));
    }

    #[test]
    fn the_file_may_stand_on_either_side() {
        for line in [
            "stage home.txt",
            "stage home.txt show",
            "stage show home.txt",
        ] {
            assert_eq!(called(line), staged(Staging::Show), "{line}");
        }
        for (word, command) in [
            (
                "undo",
                Command::Undo {
                    file: "home.txt".into(),
                },
            ),
            (
                "apply",
                Command::Apply {
                    file: "home.txt".into(),
                },
            ),
        ] {
            let expected = Ok(command);
            assert_eq!(called(&format!("{word} home.txt")), expected);
            assert_eq!(called(&format!("stage home.txt {word}")), expected);
            assert_eq!(called(&format!("stage {word} home.txt")), expected);
        }
    }

    #[test]
    fn faulty_words_are_told() {
        let file = "a FILE is wanted: stage FILE add, remove, resize or show";
        let add = "add takes an id, a zone and a capacity, and perhaps a name: stage FILE add 7 \
                   attic 4T new box";
        let remove = "remove takes the id of a box: stage FILE remove 2";
        let resize = "resize takes a box and its capacity: stage FILE resize 3 8T";
        let action = "stage FILE add, remove, resize or show, and not \"grow\"";
        for (line, told) in [
            ("stage", file),
            ("stage show", file),
            ("stage home.txt grow 7", action),
            ("stage home.txt add", add),
            ("stage home.txt add 7 attic", add),
            ("stage home.txt remove", remove),
            ("stage home.txt remove 2 3", remove),
            ("stage home.txt resize 3", resize),
            ("stage home.txt undo 3", "undo takes no more words"),
            ("undo", "a FILE is wanted, not 0 words"),
            ("apply home.txt last", "a FILE is wanted, not 2 words"),
        ] {
            assert_eq!(called(line), Err(told.into()), "{line}");
        }
    }

    #[test]
    fn faulty_numbers_and_options_are_told() {
        let id = "remove takes the id of a box, and not \"study\"";
        let capacity = "1.5 is not a whole number of megabytes";
        let option = "--staged is not an option here";
        for (line, told) in [
            ("stage home.txt remove study", id),
            ("stage home.txt resize 3 1.5", capacity),
            ("stage home.txt remove 3 --staged", option),
        ] {
            assert_eq!(called(line), Err(told.into()), "{line}");
        }
    }

    #[test]
    fn only_a_new_box_has_a_ceiling_here() {
        let add = "--ceiling goes with a new box: stage FILE add 7 attic 4T --ceiling 40";
        let number = "--ceiling takes a number from 0 to 256, and not";
        let no = "a staged change cannot carry the ceiling of a box that is there: put the line";
        for (line, told) in [
            ("resize 3 8T --ceiling 40", add.into()),
            ("show --ceiling 40", add.into()),
            ("ceiling 3 40 --ceiling 40", add.into()),
            ("add 7 a 4T --ceiling 257", format!("{number} \"257\"")),
            ("add 7 a 4T --ceiling few", format!("{number} \"few\"")),
            (
                "add 7 a 4T --ceiling",
                "--ceiling needs a word after it".into(),
            ),
            (
                "add 7 a 4T --ceiling 1 --ceiling 1",
                "--ceiling is given twice".into(),
            ),
            ("ceiling 3 40", format!("{no} `ceiling 3 40` into home.txt")),
            ("ceiling 3", format!("{no} `ceiling ID N` into home.txt")),
            ("ceiling", format!("{no} `ceiling ID N` into home.txt")),
        ] {
            let line = format!("stage home.txt {line}");
            assert_eq!(called(&line), Err(told), "{line}");
        }
        for word in ["undo", "apply"] {
            let option = "--ceiling is not an option here";
            let line = format!("{word} home.txt --ceiling 40");
            assert_eq!(called(&line), Err(option.into()));
        }
    }

    #[test]
    fn a_box_is_one_line() {
        let words = ["stage", "home.txt", "add", "7 attic 4T\nbox 8 attic 4T"];
        assert!(parse(words.map(OsString::from)).is_err());
    }
}
