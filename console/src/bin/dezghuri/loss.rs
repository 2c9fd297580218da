//! What the loss of boxes costs a layout, in numbers and in words: at worst so many boxes, and each zone
//! whole.

use crate::json::Json;
use crate::labels;
use crate::units::{count, percent, thousands};
use dezghuri::{Cluster, Description, Layout, Refused, WorstLoss};

/// Told in the place of the zones where none costs anything.
pub const NO_ZONE: &str =
    "If a zone is lost whole, no partition is: each has copies in two zones or more.";

/// What the loss of all boxes of a zone costs.
pub struct ZoneLoss {
    pub zone: u16,
    pub boxes: usize,
    pub lost: u32,
}

/// All of it is counted by the proved functions, that of a zone too, however many boxes it has.
pub struct Loss {
    /// Of 1, 2, .. boxes at worst, up to four and to as many as there are.
    pub worst: Vec<WorstLoss>,
    /// Of each zone, in the order of their first boxes.
    pub zones: Vec<ZoneLoss>,
}

impl Loss {
    /// The losses of a layout of the cluster.
    ///
    /// # Errors
    ///
    /// The refusal of a layout that is not valid even at size 1.
    pub fn of(cluster: &Cluster, layout: &Layout) -> Result<Loss, Refused> {
        let most = Cluster::MOST_LOST.min(cluster.nodes.len() as u32);
        let worst = (1..=most).map(|number| cluster.worst_loss(layout, number));
        let mut zones: Vec<(u16, Vec<u32>)> = Vec::new();
        for node in &cluster.nodes {
            match zones.iter_mut().find(|(zone, _)| *zone == node.zone) {
                Some((_, ids)) => ids.push(node.id),
                None => zones.push((node.zone, vec![node.id])),
            }
        }
        let zones = zones.into_iter().map(|(zone, ids)| {
            Ok(ZoneLoss {
                zone,
                boxes: ids.len(),
                lost: cluster.loss(layout, &ids)?,
            })
        });
        Ok(Loss {
            worst: worst.collect::<Result<_, _>>()?,
            zones: zones.collect::<Result<_, _>>()?,
        })
    }

    /// The zone whose loss costs the most, the first of them; none where no zone costs anything.
    pub fn worst_zone(&self) -> Option<&ZoneLoss> {
        let costly = self.zones.iter().rev().filter(|zone| zone.lost > 0);
        costly.max_by_key(|zone| zone.lost)
    }

    /// How many boxes are lost, and what they cost at worst, with those that do.
    pub fn box_lines(&self, described: &Description) -> Vec<[String; 2]> {
        let line = |worst: &WorstLoss| {
            let boxes = count(worst.nodes.len() as u64, "box", "boxes");
            let cost = cost_in_words(described, worst.lost);
            match worst.lost {
                0 => [boxes, cost],
                _ => {
                    let which = labels::boxes(described, &worst.nodes);
                    [boxes, format!("{cost}: {which}")]
                }
            }
        };
        self.worst.iter().map(line).collect()
    }

    /// Each zone, how many boxes stand there, and what they cost together.
    pub fn zone_lines(&self, described: &Description) -> Vec<[String; 3]> {
        let line = |zone: &ZoneLoss| {
            [
                labels::zone(described, zone.zone).into(),
                thousands(zone.boxes as u64),
                cost_in_words(described, zone.lost),
            ]
        };
        self.zones.iter().map(line).collect()
    }

    /// That no set was left out, and which of several is named.
    pub fn looked_at(&self) -> &'static str {
        let is_named = self.worst.iter().any(|worst| worst.lost > 0);
        match is_named {
            true => {
                "Every set of so many boxes was looked at, and none costs more; of those that cost as many \
                 the first is named."
            }
            false => "Every set of so many boxes was looked at.",
        }
    }

    /// What one box, two boxes and a zone cost at worst, in a sentence.
    pub fn sentence(&self, described: &Description) -> String {
        let which = |worst: &WorstLoss| labels::boxes(described, &worst.nodes);
        let cost = |worst: &WorstLoss| short(described, worst.lost);
        let boxes = match &self.worst[..] {
            // Whatever else is lost with it costs no more.
            [one, ..] if u64::from(one.lost) == described.cluster.partitions() => {
                return format!("{} alone costs all data.", which(one));
            }
            [_, two, ..] if two.lost == 0 && self.worst_zone().is_none() => {
                return "no one box, no two and no zone cost a partition.".into();
            }
            [_, two, ..] if two.lost == 0 => "no one box and no two cost a partition".into(),
            [one, two, ..] => {
                let one = match one.lost {
                    0 => "no one box costs a partition".into(),
                    _ => format!("the worst one, {}, costs {}", which(one), cost(one)),
                };
                let two = format!("the worst two, {}, cost {}", which(two), cost(two));
                format!("{one}; {two}")
            }
            _ => unreachable!("who has one box loses all with it"),
        };
        format!("{boxes}; {}.", self.worst_zone_in_words(described))
    }

    fn worst_zone_in_words(&self, described: &Description) -> String {
        let Some(worst) = self.worst_zone() else {
            return "no zone costs one".into();
        };
        let which = match self.zones.len() {
            1 => "only",
            _ => "worst",
        };
        let zone = labels::zone(described, worst.zone);
        let cost = short(described, worst.lost);
        format!("the {which} zone, {zone}, costs {cost}")
    }

    /// All numbers.
    pub fn json(&self, described: &Description) -> [(&'static str, Json); 2] {
        let worst = self.worst.iter().map(|worst| {
            Json::Object(vec![
                ("boxes", worst.nodes.len().into()),
                ("lost", worst.lost.into()),
                ("ids", Json::list(worst.nodes.clone())),
            ])
        });
        let zones = self.zones.iter().map(|zone| {
            Json::Object(vec![
                ("zone", labels::zone(described, zone.zone).into()),
                ("boxes", zone.boxes.into()),
                ("lost", zone.lost.into()),
            ])
        });
        [("worst", Json::list(worst)), ("zones", Json::list(zones))]
    }
}

/// So many partitions, and how much of the data that is: never 0 % of it where there is one, and 100 % only
/// where it is all, since one of 256 is more than a tenth of a percent.
pub fn cost_in_words(described: &Description, lost: u32) -> String {
    let (lost, all) = (u64::from(lost), described.cluster.partitions());
    match lost {
        0 => "no partition".into(),
        _ => format!(
            "{lost} of {}, {} of the data",
            count(all, "partition", "partitions"),
            percent(lost, all)
        ),
    }
}

/// The same in a few words.
fn short(described: &Description, lost: u32) -> String {
    let all = described.cluster.partitions();
    match u64::from(lost) {
        lost if lost == all => "all data".into(),
        lost => format!("{lost} of {}", count(all, "partition", "partitions")),
    }
}

#[cfg(test)]
mod tests {
    use super::*;

    /// Boxes 1 to 4, two of them with a name, in these zones; 2^bits partitions.
    fn described(bits: u8, zones: [&str; 4]) -> Description {
        let [a, b, c, d] = zones;
        let text = format!(
            "copies 2\nzones 1\nbits {bits}\nbox 1 {a} 9 big tower\nbox 2 {b} 9\nbox 3 {c} 9 study\n\
             box 4 {d} 9\n"
        );
        text.parse().unwrap()
    }

    /// What the first boxes cost at worst, and what each zone costs.
    fn loss(worst: &[u32], zones: &[u32]) -> Loss {
        let worst = worst.iter().zip(1..).map(|(lost, number)| WorstLoss {
            lost: *lost,
            nodes: (1..=number).collect(),
        });
        let zones = zones.iter().zip(0..).map(|(lost, zone)| ZoneLoss {
            zone,
            boxes: 2,
            lost: *lost,
        });
        Loss {
            worst: worst.collect(),
            zones: zones.collect(),
        }
    }

    #[test]
    fn one_box_two_and_a_zone_are_told_in_a_sentence() {
        let two = described(8, ["home", "home", "shop", "shop"]);
        for (worst, zones, told) in [
            (
                [0, 0],
                [0, 0],
                "no one box, no two and no zone cost a partition.",
            ),
            (
                [0, 0],
                [0, 40],
                "no one box and no two cost a partition; the worst zone, shop, costs 40 of 256 partitions.",
            ),
            (
                [0, 103],
                [0, 0],
                "no one box costs a partition; the worst two, boxes 1 (big tower) and 2, cost 103 of 256 \
                 partitions; no zone costs one.",
            ),
            (
                [1, 255],
                [7, 7],
                "the worst one, box 1 (big tower), costs 1 of 256 partitions; the worst two, boxes 1 (big \
                 tower) and 2, cost 255 of 256 partitions; the worst zone, home, costs 7 of 256 \
                 partitions.",
            ),
            (
                [255, 256],
                [255, 256],
                "the worst one, box 1 (big tower), costs 255 of 256 partitions; the worst two, boxes 1 \
                 (big tower) and 2, cost all data; the worst zone, shop, costs all data.",
            ),
            (
                [256, 256],
                [256, 3],
                "box 1 (big tower) alone costs all data.",
            ),
        ] {
            assert_eq!(loss(&worst, &zones).sentence(&two), told);
        }
    }

    /// Who has one zone, or one box, loses all with it.
    #[test]
    fn the_only_zone_and_the_only_box_are_told_plainly() {
        let one = described(0, ["home"; 4]);
        let told = "no one box and no two cost a partition; the only zone, home, costs all data.";
        assert_eq!(loss(&[0, 0], &[1]).sentence(&one), told);
        let told = "box 1 (big tower) alone costs all data.";
        assert_eq!(loss(&[1], &[1]).sentence(&one), told);
    }

    /// 1 / 256 is 0.39 %, 255 / 256 is 99.61 %.
    #[test]
    fn a_share_is_nothing_or_all_only_where_it_is() {
        let told = |bits, lost| cost_in_words(&described(bits, ["home"; 4]), lost);
        assert_eq!(told(8, 0), "no partition");
        assert_eq!(told(8, 1), "1 of 256 partitions, 0.3 % of the data");
        assert_eq!(told(8, 255), "255 of 256 partitions, 99.6 % of the data");
        assert_eq!(told(8, 256), "256 of 256 partitions, 100.0 % of the data");
        assert_eq!(told(0, 1), "1 of 1 partition, 100.0 % of the data");
    }

    #[test]
    fn boxes_are_named_where_they_cost_something() {
        let described = described(8, ["home", "home", "shop", "shop"]);
        let lost = loss(&[0, 64, 256], &[64, 0]);
        let lines = [
            ["1 box", "no partition"],
            [
                "2 boxes",
                "64 of 256 partitions, 25.0 % of the data: boxes 1 (big tower) and 2",
            ],
            [
                "3 boxes",
                "256 of 256 partitions, 100.0 % of the data: boxes 1 (big tower), 2 and 3 (study)",
            ],
        ];
        assert_eq!(lost.box_lines(&described), lines);
        let lines = [
            ["home", "2", "64 of 256 partitions, 25.0 % of the data"],
            ["shop", "2", "no partition"],
        ];
        assert_eq!(lost.zone_lines(&described), lines);
    }

    /// Of zones that cost as many the first is the worst.
    #[test]
    fn the_worst_zone_is_the_first() {
        let worst = |zones: &[u32]| loss(&[], zones).worst_zone().map(|worst| worst.zone);
        assert_eq!(worst(&[0, 5, 3, 5]), Some(1));
        assert_eq!(worst(&[0, 0]), None);
    }
}
