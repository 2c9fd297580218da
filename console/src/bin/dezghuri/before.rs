//! Boxes as versions before 0.6.0 wrote them: in ten bytes, none of which is a ceiling.

use dezghuri::Node;

/// The bytes of such a box in its field.
pub const BOX_BYTES: usize = 10;

/// The field of such a box as it is written now: with the highest ceiling, which limits nothing.
pub fn with_ceiling(tag: u8, body: &[u8]) -> Vec<u8> {
    let ceiling = Node::NO_CEILING.to_be_bytes();
    [&[tag, 0, 12][..], body, &ceiling].concat()
}

/// A cluster record with each such box as it is written now; nothing where a field is cut short.
pub fn record_with_ceilings(bytes: &[u8]) -> Option<Vec<u8>> {
    let mut record = Vec::new();
    let mut rest = bytes;
    while let [tag, high, low, after @ ..] = rest {
        let length = usize::from(u16::from_be_bytes([*high, *low]));
        let (body, after) = after.split_at_checked(length)?;
        match (*tag, length) {
            (4, BOX_BYTES) => record.extend(with_ceiling(*tag, body)),
            _ => record.extend(&rest[..3 + length]),
        }
        rest = after;
    }
    rest.is_empty().then_some(record)
}
