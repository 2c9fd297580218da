//! The file of prices that `certify --out` writes, for whoever checks them.

use dezghuri::{Certificate, Cluster};

/// No such file is longer: two lines, and one of at most 28 bytes for each of 32 boxes.
pub const LONGEST: u64 = 1024;

/// Size, copies sent, and the price of each box.
pub fn text_of(cluster: &Cluster, certificate: &Certificate) -> String {
    let mut text = format!("size {}\nsent {}\n", certificate.size, certificate.sent);
    for (node, price) in cluster.nodes.iter().zip(&certificate.prices) {
        text += &format!("price {} {price}\n", node.id);
    }
    text
}

/// Whether the bytes are such a file: each line is in its place, and the ids rise.
pub fn is_certificate(bytes: &[u8]) -> bool {
    let Some(text) = std::str::from_utf8(bytes)
        .ok()
        .and_then(|text| text.strip_suffix('\n'))
    else {
        return false;
    };
    let mut lines = text.split('\n').map(numbers);
    let size = matches!(lines.next(), Some(Some(("size", numbers))) if numbers.len() == 1);
    let sent = matches!(lines.next(), Some(Some(("sent", numbers))) if numbers.len() == 1);
    let ids: Option<Vec<u32>> = lines
        .map(|line| match line {
            Some(("price", numbers)) if numbers.len() == 2 => Some(numbers[0]),
            _ => None,
        })
        .collect();
    size && sent && ids.is_some_and(|ids| !ids.is_empty() && ids.is_sorted_by(|a, b| a < b))
}

/// The word of a line, and the numbers after it.
fn numbers(line: &str) -> Option<(&str, Vec<u32>)> {
    let (word, numbers) = line.split_once(' ')?;
    let numbers = numbers.split(' ').map(|number| number.parse().ok());
    Some((word, numbers.collect::<Option<_>>()?))
}

#[cfg(test)]
mod tests {
    use super::*;

    #[test]
    fn a_certificate_is_known_by_its_lines() {
        let good = "size 19531\nsent 198\nprice 1 1\nprice 4294967295 0\n";
        assert!(is_certificate(good.as_bytes()));
        for (from, to) in [
            ("size 19531\n", ""),
            ("sent 198\n", ""),
            ("sent 198", "sent"),
            ("sent 198", "sent 198 1"),
            ("size 19531\nsent 198", "sent 198\nsize 19531"),
            ("price 1 1", "price 1"),
            ("price 1 1", "price 1 one"),
            ("price 1 1", "prise 1 1"),
            ("price 1 1", ""),
            ("price 1 1", "price 4294967295 1"),
            ("price 1 1\nprice 4294967295 0\n", ""),
            ("0\n", "0"),
            ("0\n", "0\n\n"),
        ] {
            assert!(good.contains(from));
            assert!(
                !is_certificate(good.replace(from, to).as_bytes()),
                "{from:?} {to:?}"
            );
        }
        assert!(!is_certificate(b"") && !is_certificate(b"\xff\n"));
    }
}
