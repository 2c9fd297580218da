//! Any file name as one word of a line.

use std::fmt::Write;

/// The bytes as one word: letters, digits and the signs of ASCII stand for themselves; every other byte,
/// and that of a percent sign, a comma and a colon, is a percent sign and two hexadecimal digits.
pub fn escaped(bytes: &[u8]) -> String {
    let mut word = String::new();
    for chunk in bytes.utf8_chunks() {
        for letter in chunk.valid().chars() {
            match stands_for_itself(letter) {
                true => word.push(letter),
                false => escape(&mut word, letter.encode_utf8(&mut [0; 4]).as_bytes()),
            }
        }
        escape(&mut word, chunk.invalid());
    }
    word
}

fn stands_for_itself(letter: char) -> bool {
    letter.is_alphanumeric() || letter.is_ascii_graphic() && !"%,:".contains(letter)
}

fn escape(word: &mut String, bytes: &[u8]) {
    for byte in bytes {
        write!(word, "%{byte:02X}").expect("a text takes all");
    }
}

/// The bytes of a word; nothing where it is not the word of any.
pub fn unescaped(word: &str) -> Option<Vec<u8>> {
    let mut bytes = Vec::new();
    let mut parts = word.split('%');
    bytes.extend(parts.next()?.as_bytes());
    for part in parts {
        let (digits, rest) = part.split_at_checked(2)?;
        bytes.push(u8::from_str_radix(digits, 16).ok()?);
        bytes.extend(rest.as_bytes());
    }
    (escaped(&bytes) == word).then_some(bytes)
}

#[cfg(test)]
mod tests {
    use super::*;

    #[test]
    fn names_are_one_word() {
        for (name, word) in [
            (&b"n.layout"[..], "n.layout"),
            ("b\u{fc}ro/last".as_bytes(), "b\u{fc}ro/last"),
            (b"my layout", "my%20layout"),
            (b"100%,a:b\n", "100%25%2Ca%3Ab%0A"),
            (b"\xff\xc3", "%FF%C3"),
            (
                "\u{202e}\u{2028}\u{9b}".as_bytes(),
                "%E2%80%AE%E2%80%A8%C2%9B",
            ),
        ] {
            assert_eq!(escaped(name), word);
            assert_eq!(unescaped(word).as_deref(), Some(name));
        }
    }

    #[test]
    fn every_byte_comes_back() {
        let all: Vec<u8> = (0..=u8::MAX).collect();
        assert_eq!(unescaped(&escaped(&all)), Some(all));
    }

    #[test]
    fn what_is_no_word_is_refused() {
        for word in [
            "a b", "a,b", "%", "%4", "%4g", "%41", "%e2", "%+4", "\u{7f}",
        ] {
            assert_eq!(unescaped(word), None, "{word}");
        }
    }
}
