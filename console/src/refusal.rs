//! Why a call is refused, and where.

use std::error::Error;
use std::fmt;

/// A reason to refuse, by the paper's numbers.
#[derive(Clone, Copy, Debug, PartialEq, Eq, Hash, PartialOrd, Ord)]
#[non_exhaustive]
#[repr(u32)]
pub enum Refusal {
    /// 1: a record's last field is cut short.
    Cut = 1,
    /// 2: a field's tag is not allowed where it stands.
    Tag = 2,
    /// 3: a field's length is not legal for its tag.
    Length = 3,
    /// 4: a number lies outside its range; of a node, its id is 0 or its ceiling above 256.
    Range = 4,
    /// 5: ids or partitions do not rise, or a row is not the next.
    Order = 5,
    /// 6: there are more than 32 nodes.
    Nodes = 6,
    /// 7: a record ends before a field or row that it must have.
    Missing = 7,
    /// 8: a lent slice is too short.
    Short = 8,
    /// 9: no layout is valid at size 1, for want of disk space, of zones, or of copies that the nodes
    /// may hold.
    NoLayout = 9,
    /// 10: a row does not name so many different nodes of the cluster.
    Row = 10,
    /// 11: a row lies in too few zones.
    Zones = 11,
    /// 12: a node holds more copies than it can: than its usable capacity takes
    /// ([`Node::usable`](crate::Node::usable)), or than its ceiling allows.
    Capacity = 12,
    /// 13: a node is to be added whose id is there already.
    Present = 13,
    /// 14: a node is to be removed or resized whose id is not there.
    Absent = 14,
    /// 19: a layout is valid at a larger size.
    Larger = 19,
    /// 20: a layout valid at the size sends fewer copies.
    Fewer = 20,
}

/// Each refusal with its meaning, in the order of the numbers.
const MEANINGS: [(Refusal, &str); 16] = [
    (
        Refusal::Cut,
        "one or two bytes left, or a field's body cut short",
    ),
    (Refusal::Tag, "a tag that is not allowed next"),
    (Refusal::Length, "a length that is not legal for the tag"),
    (Refusal::Range, "a value outside its range"),
    (
        Refusal::Order,
        "ids or partitions that do not rise, or a row that is not the next",
    ),
    (Refusal::Nodes, "more than 32 nodes"),
    (
        Refusal::Missing,
        "the record ends before a field or row that it must have",
    ),
    (Refusal::Short, "a lent buffer is too short"),
    (Refusal::NoLayout, "no layout is valid at size 1"),
    (
        Refusal::Row,
        "a row that is not as many rising ids of the cluster as copies are wanted",
    ),
    (Refusal::Zones, "a row in fewer zones than wanted"),
    (
        Refusal::Capacity,
        "a node with more copies than its usable capacity takes at the size, or than its ceiling",
    ),
    (Refusal::Present, "an id to be added that is there already"),
    (
        Refusal::Absent,
        "an id to be removed or resized that is not there",
    ),
    (Refusal::Larger, "a layout is valid at a larger size"),
    (Refusal::Fewer, "a layout of the size sends fewer copies"),
];

impl Refusal {
    /// The refusal of a number; nothing for 0 and for numbers that no call answers.
    pub fn from_number(number: u32) -> Option<Refusal> {
        let mut refusals = MEANINGS.iter().map(|(refusal, _)| *refusal);
        refusals.find(|refusal| refusal.number() == number)
    }

    /// The paper's number, 1 to 14, or 19 or 20 of a certificate.
    pub fn number(self) -> u32 {
        self as u32
    }
}

impl From<Refusal> for u32 {
    fn from(refusal: Refusal) -> u32 {
        refusal.number()
    }
}

/// A number that no call answers as a refusal.
#[derive(Clone, Copy, Debug, PartialEq, Eq, Hash)]
pub struct NoRefusal(
    /// The number.
    pub u32,
);

impl fmt::Display for NoRefusal {
    fn fmt(&self, f: &mut fmt::Formatter<'_>) -> fmt::Result {
        write!(f, "{} is not the number of a refusal", self.0)
    }
}

impl Error for NoRefusal {}

impl TryFrom<u32> for Refusal {
    type Error = NoRefusal;

    fn try_from(number: u32) -> Result<Refusal, NoRefusal> {
        Refusal::from_number(number).ok_or(NoRefusal(number))
    }
}

impl fmt::Display for Refusal {
    fn fmt(&self, f: &mut fmt::Formatter<'_>) -> fmt::Result {
        let meaning = MEANINGS.iter().find(|(refusal, _)| refusal == self);
        f.write_str(meaning.map_or("", |(_, meaning)| meaning))
    }
}

/// What a refusal points at: a byte where a record was handed in, and otherwise what stands in the
/// caller's own values.
#[derive(Clone, Copy, Debug, PartialEq, Eq, Hash)]
#[non_exhaustive]
pub enum Place {
    /// The byte of the record at which the faulty field begins, or the record's length; of a refused
    /// change, the byte that was given.
    Byte(u64),
    /// The partition bits of a cluster.
    Bits,
    /// The replication of a cluster.
    Replication,
    /// The zone redundancy of a cluster.
    Redundancy,
    /// A node of a cluster, whose own values are at fault.
    NodeAt {
        /// Its place among the nodes, from 0 on.
        index: usize,
        /// Its id, which may be what is at fault. Where it is not 0, and the refusal is
        /// [`Refusal::Range`], the ceiling is above 256.
        id: u32,
    },
    /// The partition of a faulty row of a cluster's former layout.
    FormerRow(u8),
    /// The partition of a faulty row of what is held.
    HeldRow(u8),
    /// The partition of a faulty row.
    Partition(u32),
    /// The id of a node with too many copies.
    Node(u32),
}

impl fmt::Display for Place {
    fn fmt(&self, f: &mut fmt::Formatter<'_>) -> fmt::Result {
        match self {
            Place::Byte(byte) => write!(f, "byte {byte}"),
            Place::Bits => f.write_str("the partition bits"),
            Place::Replication => f.write_str("the replication"),
            Place::Redundancy => f.write_str("the zone redundancy"),
            Place::NodeAt { index, id } => write!(f, "nodes[{index}], id {id}"),
            Place::FormerRow(partition) => write!(f, "the former row of partition {partition}"),
            Place::HeldRow(partition) => write!(f, "the held row of partition {partition}"),
            Place::Partition(partition) => write!(f, "partition {partition}"),
            Place::Node(id) => write!(f, "node {id}"),
        }
    }
}

/// A refused call.
#[derive(Clone, Copy, Debug, PartialEq, Eq, Hash)]
pub struct Refused {
    /// Why.
    pub refusal: Refusal,
    /// Where, if the refusal points anywhere.
    pub place: Option<Place>,
}

impl fmt::Display for Refused {
    fn fmt(&self, f: &mut fmt::Formatter<'_>) -> fmt::Result {
        write!(f, "{}", self.refusal)?;
        if let Some(place) = self.place {
            write!(f, ", at {place}")?;
        }
        if let (Refusal::Range, Some(Place::NodeAt { id: 1.., .. })) = (self.refusal, self.place) {
            f.write_str(", whose ceiling is above 256")?;
        }
        write!(f, " (refused {})", self.refusal.number())
    }
}

impl Error for Refused {}

/// The result of a call that answered this refusal number: the byte goes with a fault of a record or
/// of a change, the place with a fault of a layout, where the call answers them.
pub(crate) fn judge(number: u32, byte: Option<u64>, place: Option<u32>) -> Result<(), Refused> {
    if number == 0 {
        return Ok(());
    }
    let refusal = Refusal::from_number(number).expect("a call answers a number of the header");
    let place = match refusal {
        Refusal::Row | Refusal::Zones => place.map(Place::Partition),
        Refusal::Capacity => place.map(Place::Node),
        Refusal::Present | Refusal::Absent => byte.map(Place::Byte),
        _ if refusal <= Refusal::Missing => byte.map(Place::Byte),
        _ => None,
    };
    Err(Refused { refusal, place })
}

/// A number in two cells.
pub(crate) fn wide(high: u32, low: u32) -> u64 {
    u64::from(high) << 32 | u64::from(low)
}

#[cfg(test)]
mod tests {
    use super::*;

    #[test]
    fn numbers_and_refusals_are_one_for_one() {
        for number in (1..=14).chain([19, 20]) {
            let refusal = Refusal::from_number(number).unwrap();
            assert_eq!(refusal.number(), number);
            assert_eq!(Refusal::try_from(u32::from(refusal)), Ok(refusal));
        }
        for number in [0, 15, 18, 21, u32::MAX] {
            assert_eq!(Refusal::from_number(number), None);
            assert_eq!(Refusal::try_from(number), Err(NoRefusal(number)));
        }
    }

    #[test]
    fn messages_say_meaning_place_and_number() {
        let tag = judge(2, Some(wide(1, 4)), Some(0)).unwrap_err();
        assert_eq!(
            tag.to_string(),
            "a tag that is not allowed next, at byte 4294967300 (refused 2)"
        );
        let none = judge(9, Some(0), Some(0)).unwrap_err();
        assert_eq!(none.to_string(), "no layout is valid at size 1 (refused 9)");
        let zones = judge(11, Some(0), Some(7)).unwrap_err();
        assert_eq!(zones.place, Some(Place::Partition(7)));
        let full = judge(12, Some(0), Some(7)).unwrap_err();
        assert_eq!(full.place, Some(Place::Node(7)));
        assert_eq!(
            full.to_string(),
            "a node with more copies than its usable capacity takes at the size, or than its ceiling, \
             at node 7 (refused 12)"
        );
        let present = judge(13, Some(20), None).unwrap_err();
        assert_eq!(
            present.to_string(),
            "an id to be added that is there already, at byte 20 (refused 13)"
        );
        let absent = judge(14, Some(0), None).unwrap_err();
        assert_eq!(
            absent.to_string(),
            "an id to be removed or resized that is not there, at byte 0 (refused 14)"
        );
        assert_eq!(judge(0, Some(0), Some(0)), Ok(()));
    }

    #[test]
    fn places_in_the_callers_own_values_are_named() {
        let node = Place::NodeAt { index: 2, id: 7 };
        let refused = Refused {
            refusal: Refusal::Order,
            place: Some(node),
        };
        assert_eq!(
            refused.to_string(),
            "ids or partitions that do not rise, or a row that is not the next, at nodes[2], id 7 \
             (refused 5)"
        );
        let of_range = |id| Refused {
            refusal: Refusal::Range,
            place: Some(Place::NodeAt { index: 2, id }),
        };
        assert_eq!(
            of_range(0).to_string(),
            "a value outside its range, at nodes[2], id 0 (refused 4)"
        );
        assert_eq!(
            of_range(7).to_string(),
            "a value outside its range, at nodes[2], id 7, whose ceiling is above 256 (refused 4)"
        );
        let names = [Place::Bits, Place::Replication, Place::Redundancy];
        assert_eq!(
            names.map(|place| place.to_string()),
            [
                "the partition bits",
                "the replication",
                "the zone redundancy"
            ]
        );
        assert_eq!(
            Place::FormerRow(9).to_string(),
            "the former row of partition 9"
        );
        assert_eq!(Place::HeldRow(9).to_string(), "the held row of partition 9");
    }
}
