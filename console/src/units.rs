//! Capacities and numbers as people write and read them.

use crate::terminal::escaped;

/// The megabytes of a capacity: a number of megabytes, or one that ends in M, G or T (or MB, GB,
/// TB), by thousands, as disks are sold.
///
/// # Errors
///
/// What is wrong with the word, for its writer.
pub fn megabytes(word: &str) -> Result<u32, String> {
    let end = word.find(|c: char| !c.is_ascii_digit() && c != '.');
    let (number, unit) = word.split_at(end.unwrap_or(word.len()));
    let places = match unit.to_ascii_uppercase().as_str() {
        "" | "M" | "MB" => 0,
        "G" | "GB" => 3,
        "T" | "TB" => 6,
        unit => return Err(other_unit(word, number, unit)),
    };
    let (whole, fraction) = parts(number).ok_or_else(|| no_number(word))?;
    if fraction.len() > places {
        return Err(format!("{word} is not a whole number of megabytes"));
    }
    let digits = format!("{whole}{fraction:0<places$}");
    digits.parse().map_err(|_| too_much(word))
}

/// The digits before the point and after it, zeros at the end apart.
fn parts(number: &str) -> Option<(&str, &str)> {
    let (whole, fraction) = number.split_once('.').unwrap_or((number, ""));
    let has_one = number.contains(|c: char| c.is_ascii_digit());
    (has_one && !fraction.contains('.')).then_some((whole, fraction.trim_end_matches('0')))
}

fn no_number(word: &str) -> String {
    format!("'{word}' is not a capacity: its number is none")
}

fn too_much(word: &str) -> String {
    format!("{word} is more than a box can have: at most 4,294,967,295 megabytes, about 4,294T")
}

/// That the unit is none of a capacity. Disks are sold by thousands: of a unit by 1024 what it comes to is
/// told.
fn other_unit(word: &str, number: &str, unit: &str) -> String {
    let Some(bytes) = binary_unit(unit) else {
        let word = escaped(word);
        return format!(
            "'{word}' is not a capacity: write megabytes, or a number that ends in G or T, as 500G"
        );
    };
    let Some((whole, fraction)) = parts(number) else {
        return no_number(word);
    };
    let digits: Option<u128> = format!("{whole}{fraction}").parse().ok();
    let all = digits.and_then(|digits| digits.checked_mul(bytes));
    let megabyte = u32::try_from(fraction.len() + 6).ok();
    let megabyte = megabyte.and_then(|places| 10u128.checked_pow(places));
    let megabytes = all.zip(megabyte).map(|(all, megabyte)| all / megabyte);
    match megabytes.and_then(|megabytes| u32::try_from(megabytes).ok()) {
        Some(megabytes) => by_thousands(word, megabytes),
        None => too_much(word),
    }
}

/// The bytes of a unit by 1024.
fn binary_unit(unit: &str) -> Option<u128> {
    let power = match unit.strip_suffix('B').unwrap_or(unit) {
        "KI" => 1,
        "MI" => 2,
        "GI" => 3,
        "TI" => 4,
        "PI" => 5,
        _ => return None,
    };
    Some(1024u128.pow(power))
}

/// What to write for so many megabytes.
fn by_thousands(word: &str, megabytes: u32) -> String {
    let told = thousands(megabytes.into());
    let (places, letter) = match megabytes {
        0..1_000 => return format!("{word} is {told} MB: write {megabytes}"),
        1_000..1_000_000 => (3, 'G'),
        _ => (6, 'T'),
    };
    let digits = megabytes.to_string();
    let (whole, fraction) = digits.split_at(digits.len() - places);
    let short = format!("{whole}.{fraction}");
    let short = short.trim_end_matches('0').trim_end_matches('.');
    format!("{word} is {told} MB: write {megabytes}, or {short}{letter}")
}

/// A capacity as owners write it: the number with the largest unit in which it is whole.
///
/// ```
/// use dezghuri::units::{capacity_in_words, megabytes};
///
/// assert_eq!(capacity_in_words(1_500_000), "1500G");
/// assert_eq!(megabytes("1500G"), Ok(1_500_000));
/// ```
pub fn capacity_in_words(megabytes: u32) -> String {
    match megabytes {
        0 => "0".into(),
        n if n % 1_000_000 == 0 => format!("{}T", n / 1_000_000),
        n if n % 1_000 == 0 => format!("{}G", n / 1_000),
        n => format!("{n}M"),
    }
}

/// Whether the word is a unit that stands apart from its number.
pub(crate) fn is_unit(word: &str) -> bool {
    let units = ["M", "MB", "MIB", "G", "GB", "GIB", "T", "TB", "TIB"];
    units.contains(&word.to_ascii_uppercase().as_str())
}

/// A unit that is spelled out, as it is written at a number.
pub(crate) fn spelled_out(word: &str) -> Option<&'static str> {
    let word = word.to_lowercase();
    let word = word.strip_suffix('s').unwrap_or(&word);
    match word.strip_suffix("byte").unwrap_or(word) {
        "mega" | "meg" => Some("M"),
        "giga" | "gig" => Some("G"),
        "tera" => Some("T"),
        "mebi" => Some("MiB"),
        "gibi" => Some("GiB"),
        "tebi" => Some("TiB"),
        _ => None,
    }
}

/// A number with commas between its thousands.
pub fn thousands(number: u64) -> String {
    let digits = number.to_string();
    let mut text = String::new();
    for (place, digit) in digits.chars().enumerate() {
        if place > 0 && (digits.len() - place).is_multiple_of(3) {
            text.push(',');
        }
        text.push(digit);
    }
    text
}

/// The unit of a table: the largest in which each of its capacities has two digits or more.
#[derive(Clone, Copy, Debug, PartialEq, Eq)]
pub struct Unit {
    /// MB, GB or TB.
    pub name: &'static str,
    megabytes: u64,
}

impl Unit {
    /// The unit for a table of these megabytes.
    pub fn for_all(capacities: impl Iterator<Item = u64>) -> Unit {
        let smallest = capacities.filter(|capacity| *capacity > 0).min();
        let (name, megabytes) = match smallest.unwrap_or(0) {
            0..10_000 => ("MB", 1),
            10_000..10_000_000 => ("GB", 1_000),
            _ => ("TB", 1_000_000),
        };
        Unit { name, megabytes }
    }

    /// So many megabytes in this unit, rounded down.
    pub fn of(self, megabytes: u64) -> String {
        thousands(megabytes / self.megabytes)
    }
}

/// A part of a whole in percent, rounded down to a tenth.
pub fn percent(part: u64, whole: u64) -> String {
    match (part * 1000).checked_div(whole) {
        Some(tenths) => format!("{}.{} %", tenths / 10, tenths % 10),
        None => "-".into(),
    }
}

/// A number and its noun.
pub fn count(number: u64, one: &str, many: &str) -> String {
    match number {
        1 => format!("1 {one}"),
        _ => format!("{} {many}", thousands(number)),
    }
}

#[cfg(test)]
mod tests {
    use super::*;

    #[test]
    fn capacities_are_read_by_thousands() {
        let read = [
            ("0", 0),
            ("750000", 750_000),
            ("750M", 750),
            ("500G", 500_000),
            ("500gb", 500_000),
            ("2T", 2_000_000),
            ("1.5T", 1_500_000),
            ("1.50T", 1_500_000),
            (".5T", 500_000),
            ("0.000001T", 1),
            ("4294967295", u32::MAX),
            ("4294.967295T", u32::MAX),
        ];
        for (word, megabytes) in read {
            assert_eq!(super::megabytes(word), Ok(megabytes), "{word}");
        }
    }

    /// 2^40 bytes are 1,099,511.627776 MB, 2^30 are 1,073.741824 MB; rounded down, so that it fits.
    #[test]
    fn units_by_1024_are_told_by_thousands() {
        let known = [
            ("4TiB", "4,398,046 MB: write 4398046, or 4.398046T"),
            ("2Ti", "2,199,023 MB: write 2199023, or 2.199023T"),
            ("0.5tib", "549,755 MB: write 549755, or 549.755G"),
            ("500GiB", "536,870 MB: write 536870, or 536.87G"),
            ("93.1322574GiB", "99,999 MB: write 99999, or 99.999G"),
            (
                "1.0Pi",
                "1,125,899,906 MB: write 1125899906, or 1125.899906T",
            ),
            ("10000MiB", "10,485 MB: write 10485, or 10.485G"),
            ("15625KiB", "16 MB: write 16"),
            ("1KiB", "0 MB: write 0"),
            ("953.67431640625MiB", "1,000 MB: write 1000, or 1G"),
        ];
        for (word, told) in known {
            assert_eq!(megabytes(word), Err(format!("{word} is {told}")));
        }
        let told = "'TiB' is not a capacity: its number is none";
        assert_eq!(megabytes("TiB"), Err(told.into()));
        let huge = "9".repeat(60);
        for word in [
            "4PiB",
            "4000TiB",
            &format!("{huge}Ti"),
            &format!("1.{huge}Ti"),
        ] {
            let told = "is more than a box can have";
            assert!(megabytes(word).unwrap_err().contains(told), "{word}");
        }
    }

    #[test]
    fn what_is_no_capacity_is_refused() {
        for word in [
            "",
            ".",
            "T",
            ".T",
            "1.2.3",
            "-5",
            "+5",
            "5X",
            "5KB",
            "1TiB",
            "1,000",
            "4294967296",
            "5000T",
            "1.5",
            "1.0000001T",
            "99999999999999999999T",
        ] {
            assert!(megabytes(word).is_err(), "{word}");
        }
    }

    #[test]
    fn capacities_are_told_as_they_are_written() {
        for word in ["0", "7M", "1500G", "8T", "1001M", "4294967295M"] {
            assert_eq!(capacity_in_words(megabytes(word).unwrap()), word);
        }
    }

    #[test]
    fn numbers_are_parted_by_thousands() {
        assert_eq!(thousands(0), "0");
        assert_eq!(thousands(999), "999");
        assert_eq!(thousands(1_000), "1,000");
        assert_eq!(thousands(4_294_967_295), "4,294,967,295");
    }

    #[test]
    fn the_smallest_capacity_chooses_the_unit() {
        let unit = |capacities: &[u64]| Unit::for_all(capacities.iter().copied()).name;
        assert_eq!(unit(&[0, 0]), "MB");
        assert_eq!(unit(&[9_999, 4_000_000]), "MB");
        assert_eq!(unit(&[0, 10_000, 4_000_000]), "GB");
        assert_eq!(unit(&[10_000_000, 12_000_000]), "TB");
        let gigabytes = Unit::for_all([500_000].into_iter());
        assert_eq!(gigabytes.of(3_993_999), "3,993");
    }

    #[test]
    fn a_full_disk_is_full_only_at_a_hundred() {
        assert_eq!(percent(999, 1000), "99.9 %");
        assert_eq!(percent(99_999, 100_000), "99.9 %");
        assert_eq!(percent(1000, 1000), "100.0 %");
        assert_eq!(percent(0, 0), "-");
    }
}
