//! The plain program of the method beside the proved planner, at any allowance: on the path of the
//! proved planner it gives the same rows and numbers; where it searches for each improvement, it
//! comes to another of the nearest layouts, and to the same first of them.

use crate::clusters::{self, Kind, LARGE, MEDIUM, SMALL};
use crate::lent::{self, Planned};
use crate::{soak_factor, soak_seed};
use reference::cells::{layout_of, CELLS};
use reference::exchanges::{plan_record, Path};
use reference::random::Random;
use reference::records::cluster_record;
use reference::{is_valid, sent, Cluster, Layout};

/// The plan of the plain program.
fn plain(record: &[u8], allowance: u16, path: Path) -> Result<Planned, (u32, u64)> {
    let mut cells = vec![7; CELLS];
    match plan_record(record, allowance.into(), path, &mut cells) {
        Err((refusal, byte)) => Err((refusal, byte as u64)),
        Ok(n) => Ok(Planned {
            size: n.size,
            sent: n.sent,
            finished: n.verdict == 1,
            improvements: n.improvements,
            layout: layout_of(&cells, 1 << n.bits),
        }),
    }
}

/// The path on which each improvement is searched for ends in the same layout, and stops only where it
/// has to.
fn ends_alike(c: &Cluster, former: &Layout, allowance: u16, nearest: &Planned) {
    let record = cluster_record(c, former);
    let stopped = plain(&record, allowance, Path::Searched).expect("a layout exists");
    let ended = plain(&record, u16::MAX, Path::Searched).expect("a layout exists");
    assert_eq!(
        (ended.size, ended.sent, ended.finished),
        (nearest.size, nearest.sent, true)
    );
    assert_eq!(ended.layout, nearest.layout, "{c:?} {former:?}");
    for planned in [&stopped, &ended] {
        assert!(is_valid(c, &planned.layout, planned.size.into()));
        assert_eq!(sent(&planned.layout, former), planned.sent as usize);
        assert_eq!(planned.finished, planned.sent == nearest.sent);
    }
    assert_eq!(
        stopped.improvements,
        ended.improvements.min(allowance.into())
    );
}

fn try_paths(seed: u64, cases: u64, kind: Kind) {
    let mut r = Random::new(seed);
    let (mut planned, mut improved) = (0, 0);
    for _ in 0..cases {
        let (c, former, _) = clusters::case(kind, &mut r);
        let record = cluster_record(&c, &former);
        let most = [3, 30, 300][r.below(3) as usize];
        let some = r.below(most) as u16;
        for allowance in [some, u16::MAX] {
            assert_eq!(
                lent::plan(&record, allowance, &mut r),
                plain(&record, allowance, Path::Repeated),
                "{c:?} {former:?}"
            );
        }
        if let Ok(nearest) = plain(&record, u16::MAX, Path::Repeated) {
            planned += 1;
            improved += u64::from(nearest.improvements > 0);
            ends_alike(&c, &former, some, &nearest);
        }
    }
    assert!(improved * 4 > planned, "too few of the layouts improve");
}

#[test]
fn the_plain_program_goes_the_proved_planners_path() {
    try_paths(51, 4000, SMALL);
    try_paths(52, 1000, MEDIUM);
    try_paths(53, 300, LARGE);
}

#[test]
#[ignore = "make soak"]
fn soak_paths() {
    try_paths(soak_seed(54), 4000 * soak_factor(), SMALL);
    try_paths(soak_seed(55), 1000 * soak_factor(), MEDIUM);
    try_paths(soak_seed(56), 300 * soak_factor(), LARGE);
}
