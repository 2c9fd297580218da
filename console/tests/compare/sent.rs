//! What the copies to be sent have to do with the report's count, the distance.

use crate::clusters::{self, Kind, LARGE, MEDIUM, SMALL};
use crate::lent;
use crate::{soak_factor, soak_seed};
use reference::random::Random;
use reference::records::cluster_record;
use reference::{distance, sent};

/// Of the R times P copies of a layout those that are not sent are former ones, and the distance has
/// all other former ones too, on nodes that are gone as well.
fn try_law(seed: u64, cases: u64, kind: Kind) {
    let mut r = Random::new(seed);
    let (mut planned, mut not_half) = (0, 0);
    for _ in 0..cases {
        let (c, former, _) = clusters::case(kind, &mut r);
        let record = cluster_record(&c, &former);
        let all = c.replication * c.partitions();
        let before: usize = former.iter().map(Vec::len).sum();
        for allowance in [0, r.below(30) as u16, 2048] {
            let Ok(plan) = lent::plan(&record, allowance, &mut r) else {
                continue;
            };
            planned += 1;
            let (copies, far) = (plan.sent as usize, distance(&plan.layout, &former));
            assert_eq!(copies, sent(&plan.layout, &former), "{c:?} {former:?}");
            assert_eq!(far + all, 2 * copies + before, "{c:?} {former:?}");
            assert!(copies <= 2048);
            not_half += u64::from(far != 2 * copies);
        }
    }
    assert!(planned > cases, "too few of the clusters have a layout");
    assert!(
        not_half * 2 > planned,
        "too few tell it from half of the distance"
    );
}

#[test]
fn distance_is_twice_what_is_sent_and_a_fixed_difference() {
    try_law(61, 4000, SMALL);
    try_law(62, 1000, MEDIUM);
    try_law(63, 300, LARGE);
}

#[test]
#[ignore = "make soak"]
fn soak_law() {
    try_law(soak_seed(64), 4000 * soak_factor(), SMALL);
    try_law(soak_seed(65), 1000 * soak_factor(), MEDIUM);
    try_law(soak_seed(66), 300 * soak_factor(), LARGE);
}
