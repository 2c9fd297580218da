//! Words of others on a terminal: a file may have any name, and a terminal does what control characters
//! tell it.

use std::path::Path;

/// The name of a file as it can be shown: its control characters, and those that turn the direction of
/// writing, stand as escapes.
///
/// ```
/// use std::path::Path;
///
/// assert_eq!(dezghuri::terminal::shown(Path::new("a\n\u{1b}[2Jb")), r"a\n\u{1b}[2Jb");
/// ```
pub fn shown(path: impl AsRef<Path>) -> String {
    escaped(&path.as_ref().to_string_lossy())
}

/// A text as it can be shown, in one line.
pub fn escaped(text: &str) -> String {
    let mut shown = String::with_capacity(text.len());
    for c in text.chars() {
        match is_command(c) {
            true => shown.extend(c.escape_default()),
            false => shown.push(c),
        }
    }
    shown
}

/// Whether it tells the terminal something: it is a control character, or turns the direction of writing.
pub(crate) fn is_command(c: char) -> bool {
    c.is_control() || matches!(c, '\u{202a}'..='\u{202e}' | '\u{2066}'..='\u{2069}')
}

#[cfg(test)]
mod tests {
    use super::*;
    use std::ffi::OsStr;
    use std::os::unix::ffi::OsStrExt;

    #[test]
    fn what_a_terminal_would_obey_is_escaped() {
        let known = [
            ("\0\u{7}\t\n\r\u{1f}", r"\u{0}\u{7}\t\n\r\u{1f}"),
            ("\u{7f}\u{80}\u{9b}\u{9f}", r"\u{7f}\u{80}\u{9b}\u{9f}"),
            ("\u{202a}\u{202e}", r"\u{202a}\u{202e}"),
            ("\u{2066}\u{2069}", r"\u{2066}\u{2069}"),
        ];
        for (text, told) in known {
            assert_eq!(escaped(text), told);
        }
    }

    #[test]
    fn all_else_is_shown_as_it_is() {
        let text = " ~\u{a0}Büro\\n 'a' \"b\" \u{2029}\u{202f}\u{2065}\u{206a} \u{1f5c4}";
        assert_eq!(escaped(text), text);
        let bytes = OsStr::from_bytes(b"a\xff\x9bb");
        assert_eq!(shown(bytes), Path::new(bytes).display().to_string());
    }
}
