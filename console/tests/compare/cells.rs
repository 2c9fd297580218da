//! Check, figures, certify, showing a row, and short slices, against what document 01 says of lent cells.

use crate::clusters::{self, MEDIUM, SMALL};
use crate::lent;
use crate::{soak_factor, soak_seed};
use dezghuri::ffi;
use reference::cells::{cells_of, check, figures, hope, layout_of, CELLS};
use reference::certificate::{self, Fault};
use reference::exchanges::certify_record;
use reference::random::Random;
use reference::records::cluster_record;
use reference::{report, Cluster, Layout, Node};

/// Cells of a layout that is valid, nearly valid, or any.
fn some_cells(c: &Cluster, layout: &Layout, r: &mut Random) -> Vec<u32> {
    let mut cells = cells_of(layout);
    for _ in 0..r.below(3) {
        let rows = c.partitions() + 1;
        let at = (8 * r.below(rows as u64) + r.below(c.replication as u64 + 1)) as usize;
        let some_id = |r: &mut Random| match c.nodes.len() as u64 {
            0 => 1,
            n => c.nodes[r.below(n) as usize].id,
        };
        let at = if r.chance(5) { CELLS - 1 } else { at % CELLS };
        cells[at] = match r.below(4) {
            0 => 0,
            1 => r.number() as u32,
            _ => some_id(r),
        };
        if r.chance(60) {
            let row = at / 8 * 8;
            cells[row..row + c.replication].sort_unstable();
        }
    }
    cells
}

/// Gives one of the nodes a ceiling about as high as the copies that the cells have of it.
fn lower_a_ceiling(c: &mut Cluster, cells: &[u32], r: &mut Random) {
    let at = r.below(c.nodes.len().max(1) as u64) as usize;
    if let Some(node) = c.nodes.get_mut(at) {
        let held = cells[..CELLS].iter().filter(|id| **id == node.id).count();
        let ceiling = (held + r.below(3) as usize).saturating_sub(1);
        node.ceiling = ceiling.min(Node::NO_CEILING.into()) as u16;
    }
}

/// Whether the node of the id passes its ceiling, but not what may be filled of its disk.
fn only_ceiling_passed(c: &Cluster, cells: &[u32], size: u32, id: u32) -> bool {
    let node = c.nodes.iter().find(|node| node.id == id);
    let node = node.expect("a node of the cluster");
    let held = cells[..CELLS].iter().filter(|cell| **cell == id).count() as u64;
    held * u64::from(size) <= node.usable().into()
}

/// What certify answers of a layout that nothing was before: all layouts of a size send as many copies, so the
/// prices are 0, and only the size can fail.
fn certified(c: &Cluster, cells: &[u32], size: u32) -> Result<Vec<u32>, (u32, u64, u32)> {
    let (none, layout) = (
        vec![vec![]; c.partitions()],
        layout_of(cells, c.partitions()),
    );
    let prices = vec![0; c.nodes.len()];
    match certificate::check(c, &none, &layout, size.into(), &prices) {
        Err(Fault::LargerSize) => Err((19, 0, 0)),
        checked => checked
            .map(|()| vec![0; 32])
            .map_err(|fault| panic!("{fault:?}")),
    }
}

/// Check, figures and certify answer as laid down.
fn agrees(c: &Cluster, cells: &[u32], size: u32, r: &mut Random) -> u32 {
    let record = cluster_record(c, &vec![]);
    let (refusal, place) = check(c, cells, size);
    assert_eq!(
        lent::check(&record, cells, size, r),
        (refusal, 0, place),
        "{c:?}"
    );
    let expected = match refusal {
        0 => Ok((figures(c, cells), hope(c))),
        _ => Err((refusal, 0, place)),
    };
    assert_eq!(lent::figures(&record, cells, size, r), expected, "{c:?}");
    let expected = match refusal {
        0 => certified(c, cells, size),
        _ => Err((refusal, 0, place)),
    };
    assert_eq!(lent::certify(&record, cells, size, r), expected, "{c:?}");
    let plain = certify_record(&record, cells, size).map(Vec::from);
    assert_eq!(plain, expected.map_err(|(refusal, ..)| refusal), "{c:?}");
    refusal
}

fn try_cells(seed: u64, cases: u64) {
    let mut r = Random::new(seed);
    let mut met = [0; 13];
    let mut by_ceiling = 0;
    for case in 0..cases {
        let kind = if case % 4 == 0 { MEDIUM } else { SMALL };
        let mut c = clusters::cluster(kind, &mut r);
        let former = clusters::former(&c, &mut r);
        let planned = report::plan(&c, &former);
        let size = planned.as_ref().map_or(1, |planned| planned.size) as u32;
        let layout = planned.map_or(former, |planned| planned.layout);
        for _ in 0..4 {
            let mut cells = some_cells(&c, &layout, &mut r);
            cells.extend(lent::pattern(r.below(5) as usize, &mut r));
            let size = match r.below(8) {
                0 => 0,
                1 => size.saturating_add(1),
                2 => u32::MAX,
                3 => 1,
                _ => size,
            };
            if r.chance(30) {
                lower_a_ceiling(&mut c, &cells, &mut r);
            }
            met[agrees(&c, &cells, size, &mut r) as usize] += 1;
            if let (12, id) = check(&c, &cells, size) {
                by_ceiling += u64::from(only_ceiling_passed(&c, &cells, size, id));
            }
        }
    }
    assert!([0, 4, 10, 11, 12].iter().all(|n| met[*n] > 0), "{met:?}");
    let enough = by_ceiling * 40 > cases;
    assert!(enough, "{by_ceiling} of {cases} pass a ceiling alone");
}

#[test]
fn check_and_figures_answer_as_laid_down() {
    try_cells(31, 8000);
}

#[test]
#[ignore = "make soak"]
fn soak_cells() {
    try_cells(soak_seed(32), 8000 * soak_factor());
}

/// A cluster of up to 32 large nodes, and rows of different nodes for the most partitions.
fn drawn_rows(r: &mut Random) -> (Cluster, Layout) {
    let number = r.between(1, 32);
    let replication = r.between(1, number.min(8)) as usize;
    let mut id = 0;
    let node = |_| {
        id += r.between(1, 3) as u32;
        Node {
            id,
            zone: r.below(4) as u16,
            capacity: u32::MAX,
            ceiling: Node::NO_CEILING,
        }
    };
    let nodes: Vec<Node> = (0..number).map(node).collect();
    let row = |_| {
        let mut left: Vec<u32> = nodes.iter().map(|node| node.id).collect();
        let mut drawn = || left.remove(r.below(left.len() as u64) as usize);
        let mut row: Vec<u32> = (0..replication).map(|_| drawn()).collect();
        row.sort_unstable();
        row
    };
    let rows = (0..256).map(row).collect();
    let c = Cluster {
        bits: 8,
        replication,
        redundancy: 1,
        nodes,
    };
    (c, rows)
}

/// The counts after 1, 2, 4 and on up to 256 rows are what the rows so far add, one after another; check
/// refuses a ceiling below one of them.
fn try_rows(seed: u64, cases: u64) {
    let mut r = Random::new(seed);
    for _ in 0..cases {
        let (mut c, rows) = drawn_rows(&mut r);
        let mut counts = [0; 32];
        let mut met = 0;
        for bits in 0..=8 {
            c.bits = bits;
            for id in rows[met..c.partitions()].iter().flatten() {
                let slot = c.nodes.iter().position(|node| node.id == *id);
                counts[slot.expect("a node of the cluster")] += 1;
            }
            met = c.partitions();
            let cells = cells_of(&rows[..met].to_vec());
            let record = cluster_record(&c, &vec![]);
            let (figures, _) = lent::figures(&record, &cells, 1, &mut r).expect("it is valid");
            assert_eq!(figures[..32], counts);
            assert_eq!(agrees(&c, &cells, 1, &mut r), 0);

            let mut low = c.clone();
            let slot = r.below(c.nodes.len() as u64) as usize;
            low.nodes[slot].ceiling = counts[slot].saturating_sub(1) as u16;
            let expected = if counts[slot] == 0 { 0 } else { 12 };
            assert_eq!(agrees(&low, &cells, 1, &mut r), expected);
        }
    }
}

#[test]
fn copies_are_those_of_the_rows_so_far() {
    try_rows(35, 200);
}

#[test]
#[ignore = "make soak"]
fn soak_rows() {
    try_rows(soak_seed(36), 200 * soak_factor());
}

#[test]
fn copies_times_size_does_not_overflow() {
    let c = Cluster {
        bits: 8,
        replication: 1,
        redundancy: 1,
        nodes: vec![Node {
            id: 1,
            zone: 0,
            capacity: u32::MAX,
            ceiling: Node::NO_CEILING,
        }],
    };
    let r = &mut Random::new(1);
    let cells = cells_of(&vec![vec![1]; 256]);
    let largest = 4_026_531_840 / 256; // all but a sixteenth of the disk
    assert_eq!(agrees(&c, &cells, largest, r), 0);
    for size in [largest + 1, 1 << 24, (1 << 24) + 1, 1 << 31, u32::MAX] {
        assert_eq!(agrees(&c, &cells, size, r), 12);
    }
}

#[test]
fn a_row_is_its_eight_cells() {
    let mut r = Random::new(33);
    for length in [CELLS, CELLS + 1, CELLS + 77] {
        let cells = lent::pattern(length, &mut r);
        for partition in (0..300).chain([1 << 16, u32::MAX]) {
            let lent = lent::pattern(ffi::ROW_CELLS + r.below(3) as usize, &mut r);
            let mut row = lent.clone();
            let refusal = ffi::show_row(&cells, partition, &mut row);
            if partition > 255 {
                assert_eq!((refusal, row), (4, lent));
                continue;
            }
            let at = 8 * partition as usize;
            assert_eq!(refusal, 0);
            assert_eq!(row[..8], cells[at..at + 8]);
            lent::kept(&row, &lent, 8);
        }
    }
}

#[test]
fn short_cells_are_refused_and_nothing_is_touched() {
    let c = clusters::cluster(SMALL, &mut Random::new(2));
    let record = cluster_record(&c, &vec![]);
    let cells = vec![0; CELLS - 1];
    let whole = vec![0; CELLS];
    let mut answer = [7; 6];
    assert_eq!(ffi::check(&record, &cells, 0, &mut answer[..3]), 8);
    assert_eq!(answer, [0, 0, 0, 7, 7, 7]);
    let mut prices = [7; ffi::CERTIFY_ANSWER];
    assert_eq!(ffi::certify(&record, &cells, 0, &mut prices), 8);
    assert_eq!(prices, [0; ffi::CERTIFY_ANSWER]);
    let mut lost = [7; ffi::WORST_LOSS_ANSWER];
    assert_eq!(ffi::worst_loss(&record, &cells, 5, &mut lost), 8);
    assert_eq!(lost, [0; ffi::WORST_LOSS_ANSWER]);
    assert_eq!(ffi::loss(&record, &cells, &[], &mut answer[..4]), 8);
    assert_eq!(answer, [0, 0, 0, 0, 7, 7]);
    let mut counts = [5; 64];
    assert_eq!(
        ffi::figures(&record, &cells, 0, &mut counts, &mut answer[..5]),
        8
    );
    assert_eq!(
        ffi::figures(&record, &whole, 0, &mut counts[..63], &mut answer[..5]),
        8
    );
    assert_eq!((counts, answer), ([5; 64], [0, 0, 0, 0, 0, 7]));
    let mut row = [5; 8];
    assert_eq!(ffi::show_row(&cells, 300, &mut row), 8);
    assert_eq!(ffi::show_row(&whole, 300, &mut row[..7]), 8);
    assert_eq!(row, [5; 8]);
    for (assignment, scratch) in [(CELLS - 1, 16384), (CELLS, 16383), (0, 0)] {
        let (mut a, mut s) = (vec![5; assignment], vec![6; scratch]);
        answer = [7; 6];
        assert_eq!(ffi::plan(&record, 0, &mut a, &mut s, &mut answer), 8);
        assert_eq!(answer, [0; 6]);
        assert!(a.iter().all(|cell| *cell == 5) && s.iter().all(|cell| *cell == 6));
    }
}

#[test]
fn a_short_answer_is_refused_before_all_and_nothing_is_touched() {
    let record = [1]; // a fault of its own, which is not looked at
    let (mut a, mut s, mut f) = (vec![5; CELLS], vec![6; 16384], vec![7; 64]);
    let mut out = [9; 60];
    let numbers = ffi::Numbers {
        bits: 9,
        replication: 9,
        size: 0,
        sent: 0,
        verdict: 0,
        improvements: 0,
    };
    let mut lent = [8; 134];
    assert_eq!(ffi::read_cluster(&record, &mut a, &mut lent[..133]), 8);
    assert_eq!(ffi::read_layout(&record, &mut a, &mut lent[..7]), 8);
    assert_eq!(ffi::plan(&record, 0, &mut a, &mut s, &mut lent[..5]), 8);
    assert_eq!(ffi::check(&record, &a, 0, &mut lent[..2]), 8);
    assert_eq!(ffi::certify(&record, &a, 0, &mut lent[..34]), 8);
    assert_eq!(ffi::worst_loss(&record, &a, 5, &mut lent[..7]), 8);
    assert_eq!(ffi::worst_loss(&record, &[], 5, &mut []), 8);
    assert_eq!(ffi::loss(&record, &a, &[1], &mut lent[..3]), 8);
    assert_eq!(ffi::loss(&record, &[], &[], &mut []), 8);
    assert_eq!(ffi::figures(&record, &a, 0, &mut f, &mut lent[..4]), 8);
    assert_eq!(ffi::write_layout(numbers, &a, &mut out, &mut lent[..1]), 8);
    assert_eq!(ffi::plan(&record, 0, &mut [], &mut [], &mut []), 8);
    assert_eq!(lent, [8; 134]);
    assert_eq!(out, [9; 60]);
    assert!(a.iter().all(|cell| *cell == 5) && s.iter().all(|cell| *cell == 6));
    assert!(f.iter().all(|cell| *cell == 7));
}
