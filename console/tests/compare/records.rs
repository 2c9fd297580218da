//! Both readings against an independent parser, on records that are whole, cut, longer, changed in
//! a few bits or bytes, put together from odd fields, or random; and what is written read back.

use crate::clusters::{self, SMALL};
use crate::lent;
use crate::{soak_factor, soak_seed};
use dezghuri::ffi;
use reference::cells::{cells_of, layout_of, write_fault, CELLS};
use reference::random::Random;
use reference::records::{self, cluster_record, layout_record, Numbers};
use reference::{Cluster, Layout, Node};

/// Any cluster within the limits, up to the largest.
fn any_cluster(r: &mut Random) -> (Cluster, Layout) {
    if r.chance(60) {
        let c = clusters::cluster(SMALL, r);
        let former = clusters::former(&c, r);
        return (c, former);
    }
    let replication = r.between(1, 8) as usize;
    let mut id = 0u32;
    let mut nodes = Vec::new();
    let above = r.chance(10);
    for _ in 0..[31, 32, 33][r.below(3) as usize] {
        id = id.saturating_add(r.between(1, 1 << 28) as u32);
        nodes.push(Node {
            id,
            zone: r.number() as u16,
            capacity: r.number() as u32,
            ceiling: ceiling(above, r),
        });
    }
    let c = Cluster {
        bits: r.between(0, 8) as u32,
        replication,
        redundancy: r.between(1, replication as u64) as usize,
        nodes,
    };
    let former = (0..c.partitions())
        .map(|_| ids(r.between(0, 8), r))
        .collect();
    (c, former)
}

/// Any ceiling within its range, or at times just above it, or the highest.
fn ceiling(above: bool, r: &mut Random) -> u16 {
    match r.below(40) {
        0 if above => 257,
        1 if above => u16::MAX,
        _ => r.below(257) as u16,
    }
}

/// So many rising ids.
pub fn ids(number: u64, r: &mut Random) -> Vec<u32> {
    let mut ids: Vec<u32> = Vec::new();
    while (ids.len() as u64) < number {
        let id = r.number() as u32 >> r.below(32);
        if id != 0 && !ids.contains(&id) {
            ids.push(id);
        }
    }
    ids.sort_unstable();
    ids
}

/// Any layout within the limits.
fn any_layout(r: &mut Random) -> (Numbers, Layout) {
    let edge = |least: u64, most: u64, r: &mut Random| match r.below(4) {
        0 => least,
        1 => most,
        _ => r.between(least, most),
    };
    let most_bits = if r.chance(80) { 3 } else { 8 };
    let numbers = Numbers {
        bits: r.between(0, most_bits) as u32,
        replication: r.between(1, 8) as u32,
        size: edge(1, u32::MAX.into(), r) as u32,
        sent: edge(0, 2048, r) as u32,
        verdict: r.between(0, 1) as u32,
        improvements: edge(0, 2048, r) as u32,
    };
    let row = |r: &mut Random| ids(numbers.replication.into(), r);
    let layout = (0..1 << numbers.bits).map(|_| row(r)).collect();
    (numbers, layout)
}

/// A record that something has happened to.
pub fn damaged(mut record: Vec<u8>, r: &mut Random) -> Vec<u8> {
    for _ in 0..r.between(0, 2) {
        let length = record.len() as u64;
        match r.below(8) {
            0 => record.truncate(r.between(0, length) as usize),
            1 => record.extend((0..r.between(1, 4)).map(|_| r.number() as u8)),
            2 => record.extend(odd_field(r)),
            3 if length > 0 => record[r.below(length) as usize] ^= 1 << r.below(8),
            4 if length > 0 => record[r.below(length.min(40)) as usize] = r.below(12) as u8,
            5 => drop(record.splice(0..r.below(length + 1) as usize, [])),
            6 => repeat_field(&mut record, r),
            _ => {
                let at = r.below(length + 1) as usize;
                drop(record.splice(at..at, odd_field(r)));
            }
        }
    }
    record
}

/// Some field, with a tag and a length that may be wrong.
fn odd_field(r: &mut Random) -> Vec<u8> {
    let length = match r.below(3) {
        0 => [1, 2, 4, 10, 12][r.below(5) as usize],
        1 => 2 + 4 * r.between(0, 9),
        _ => r.below(40),
    };
    let claimed = if r.chance(90) {
        length
    } else {
        r.below(70_000)
    };
    let mut field = vec![r.below(13) as u8];
    field.extend((claimed as u16).to_be_bytes());
    let small = r.chance(70);
    field.extend((0..length).map(|_| {
        if small {
            r.below(4) as u8
        } else {
            r.number() as u8
        }
    }));
    field
}

/// One of the record's fields once more, right after itself.
fn repeat_field(record: &mut Vec<u8>, r: &mut Random) {
    let mut fields = Vec::new();
    let mut at = 0;
    while let Some(head) = record.get(at..at + 3) {
        let end = at + 3 + u16::from_be_bytes([head[1], head[2]]) as usize;
        if end > record.len() {
            break;
        }
        fields.push(at..end);
        at = end;
    }
    if !fields.is_empty() {
        let field = fields[r.below(fields.len() as u64) as usize].clone();
        let bytes = record[field.clone()].to_vec();
        drop(record.splice(field.end..field.end, bytes));
    }
}

fn random_bytes(r: &mut Random) -> Vec<u8> {
    let length = r.below(60);
    let small = r.chance(50);
    let byte = |r: &mut Random| if small { r.below(11) } else { r.number() } as u8;
    (0..length).map(|_| byte(r)).collect()
}

/// Reading answers as the parser does, and the other calls refuse what it refuses.
fn cluster_reading_agrees(record: &[u8], r: &mut Random) -> u32 {
    let expected = records::read_cluster(record);
    let answered = lent::read_cluster(record, r);
    match expected {
        Ok((c, former)) => {
            assert_eq!(answered, Ok((c, cells_of(&former))), "{record:?}");
            0
        }
        Err((refusal, byte)) => {
            let byte = byte as u64;
            assert_eq!(answered, Err((refusal, byte)), "{record:?}");
            assert_eq!(lent::plan(record, 7, r), Err((refusal, byte)));
            let cells = lent::pattern(CELLS, r);
            let size = r.below(3) as u32;
            assert_eq!(lent::check(record, &cells, size, r), (refusal, byte, 0));
            let refused = (refusal, byte, 0);
            assert_eq!(lent::figures(record, &cells, size, r), Err(refused));
            assert_eq!(lent::certify(record, &cells, size, r), Err(refused));
            refusal
        }
    }
}

/// Reading answers as the parser does, and what is accepted is written again byte for byte.
fn layout_reading_agrees(record: &[u8], r: &mut Random) -> u32 {
    let answered = lent::read_layout(record, r);
    match records::read_layout(record) {
        Ok((numbers, layout)) => {
            let cells = cells_of(&layout);
            assert_eq!(answered, Ok((numbers, cells.clone())), "{record:?}");
            let room = record.len() + r.below(3) as usize;
            let written = lent::write_layout(&numbers, &cells, room, r);
            assert_eq!(written.as_deref(), Ok(record));
            0
        }
        Err((refusal, byte)) => {
            assert_eq!(answered, Err((refusal, byte as u64)), "{record:?}");
            refusal
        }
    }
}

/// Tries so many records; each refusal has to come up.
fn try_readings(seed: u64, cases: u64) {
    let mut r = Random::new(seed);
    let (mut of_clusters, mut of_layouts) = ([0; 13], [0; 13]);
    for _ in 0..cases {
        let (c, former) = any_cluster(&mut r);
        let (numbers, layout) = any_layout(&mut r);
        let (mut cluster, mut layout) = (
            cluster_record(&c, &former),
            layout_record(&numbers, &layout),
        );
        if r.chance(90) {
            cluster = damaged(cluster, &mut r);
            layout = damaged(layout, &mut r);
        }
        if r.chance(10) {
            cluster = random_bytes(&mut r);
            layout = random_bytes(&mut r);
        }
        of_clusters[cluster_reading_agrees(&cluster, &mut r) as usize] += 1;
        of_layouts[layout_reading_agrees(&layout, &mut r) as usize] += 1;
        of_clusters[cluster_reading_agrees(&layout, &mut r) as usize] += 1;
        of_layouts[layout_reading_agrees(&cluster, &mut r) as usize] += 1;
    }
    assert!(
        of_clusters[..8].iter().all(|met| *met > 0),
        "{of_clusters:?}"
    );
    let without_nodes = [0, 1, 2, 3, 4, 5, 7];
    assert!(
        without_nodes.iter().all(|n| of_layouts[*n] > 0),
        "{of_layouts:?}"
    );
}

/// What is written reads back as the same numbers and the same cells.
fn try_round_trips(seed: u64, cases: u64) {
    let mut r = Random::new(seed);
    for _ in 0..cases {
        let (numbers, layout) = any_layout(&mut r);
        let cells = cells_of(&layout);
        let length = 29 + layout.len() * (5 + 4 * numbers.replication as usize);
        let room = length + r.below(40) as usize;
        let record = lent::write_layout(&numbers, &cells, room, &mut r).expect("a whole layout");
        assert_eq!(record.len(), length);
        assert_eq!(record, layout_record(&numbers, &layout));
        assert_eq!(lent::read_layout(&record, &mut r), Ok((numbers, cells)));
    }
}

/// Gives one of the numbers a value at the edge of some range.
fn change_a_number(n: &mut Numbers, r: &mut Random) {
    let edges = [0, 1, 2, 8, 9, 2048, 2049, 4096, u32::MAX];
    let edge = edges[r.below(edges.len() as u64) as usize];
    match r.below(6) {
        0 => n.bits = edge,
        1 => n.replication = edge,
        2 => n.size = edge,
        3 => n.sent = edge,
        4 => n.verdict = edge,
        _ => n.improvements = edge,
    }
}

/// Writing refuses what it must, and nothing else.
fn try_writing(seed: u64, cases: u64) {
    let mut r = Random::new(seed);
    let mut met = [0; 13];
    for _ in 0..cases {
        let (mut numbers, layout) = any_layout(&mut r);
        let length = 29 + layout.len() * (5 + 4 * numbers.replication as usize);
        let mut cells = cells_of(&layout);
        if r.chance(30) {
            change_a_number(&mut numbers, &mut r);
        }
        if r.chance(30) {
            let at = r.below(CELLS as u64) as usize % (8 * layout.len() + 16).min(CELLS);
            cells[at] = r.below(3) as u32;
        }
        cells.extend(lent::pattern(r.below(5) as usize, &mut r));
        let room = if r.chance(30) {
            r.below(length as u64) as usize
        } else {
            length
        };
        let fault = write_fault(&numbers, &cells, room);
        let written = lent::write_layout(&numbers, &cells, room, &mut r);
        match written {
            Err(refusal) => assert_eq!(refusal, fault, "{numbers:?}"),
            Ok(record) => {
                assert_eq!(fault, 0, "{numbers:?}");
                let rows = layout_of(&cells, 1 << numbers.bits);
                assert_eq!(record, layout_record(&numbers, &rows));
            }
        }
        met[fault as usize] += 1;
    }
    assert!([0, 4, 8, 10].iter().all(|n| met[*n] > 0), "{met:?}");
}

/// A record of each kind that is small enough to change every byte of it.
fn small_records() -> [Vec<u8>; 2] {
    let node = |id, zone, capacity, ceiling| Node {
        id,
        zone,
        capacity,
        ceiling,
    };
    let c = Cluster {
        bits: 1,
        replication: 3,
        redundancy: 2,
        nodes: vec![node(1, 1, 100, 256), node(2, 1, 70, 2), node(3, 2, 50, 0)],
    };
    let former = vec![vec![1, 2], vec![3]];
    let numbers = Numbers {
        bits: 1,
        replication: 2,
        size: 25,
        sent: 3,
        verdict: 1,
        improvements: 3,
    };
    let layout = vec![vec![1, 2], vec![2, 3]];
    [
        cluster_record(&c, &former),
        layout_record(&numbers, &layout),
    ]
}

#[test]
fn every_byte_of_a_record_may_be_any_other() {
    let mut r = Random::new(21);
    for record in small_records() {
        for at in 0..record.len() {
            for value in 0..=255 {
                let mut record = record.clone();
                record[at] = value;
                cluster_reading_agrees(&record, &mut r);
                layout_reading_agrees(&record, &mut r);
            }
        }
    }
}

/// There are 256 partitions at most, so no node has to hold more. Node 2 begins at byte 27, and its ceiling
/// at byte 40; planning, check and figures refuse what reading refuses.
#[test]
fn ceilings_are_0_to_256() {
    let mut r = Random::new(30);
    let [mut record, _] = small_records();
    for ceiling in 0..=u16::MAX {
        record[40..42].copy_from_slice(&ceiling.to_be_bytes());
        let refusal = if ceiling <= 256 { 0 } else { 4 };
        let read = cluster_reading_agrees(&record, &mut r);
        assert_eq!(read, refusal, "{ceiling}");
        let refused = records::read_cluster(&record).err();
        assert_eq!(refused, (refusal != 0).then_some((4, 27)), "{ceiling}");
    }
}

/// No layout has more than 2,048 copies, so no more are sent. Field 7 begins at byte 15.
#[test]
fn at_most_2048_copies_are_sent() {
    let mut r = Random::new(29);
    let [_, record] = small_records();
    let (mut numbers, layout) = records::read_layout(&record).expect("a layout record");
    let cells = cells_of(&layout);
    let refusal = |sent: u32| if sent <= 2048 { 0 } else { 4 };
    for sent in 0..=u16::MAX {
        let mut record = record.clone();
        record[15..20].copy_from_slice(&[7, 0, 2, (sent >> 8) as u8, sent as u8]);
        let refusal = refusal(sent.into());
        assert_eq!(layout_reading_agrees(&record, &mut r), refusal, "{sent}");
        let refused = records::read_layout(&record).err();
        assert_eq!(refused, (refusal != 0).then_some((4, 15)), "{sent}");
    }
    for sent in (0..5000).chain([65_535, 65_536, 65_537, u32::MAX]) {
        numbers.sent = sent;
        let fault = write_fault(&numbers, &cells, record.len());
        let written = lent::write_layout(&numbers, &cells, record.len(), &mut r);
        let refused = written.err().unwrap_or(0);
        assert_eq!((fault, refused), (refusal(sent), refusal(sent)), "{sent}");
    }
}

#[test]
fn a_record_may_end_anywhere_and_go_on_with_anything() {
    let mut r = Random::new(22);
    for record in small_records() {
        for end in 0..=record.len() {
            for more in 0..=255u8 {
                let more = [more, 0, 1, 7];
                for length in 0..=more.len() {
                    let record = [&record[..end], &more[..length]].concat();
                    cluster_reading_agrees(&record, &mut r);
                    layout_reading_agrees(&record, &mut r);
                }
            }
        }
    }
}

#[test]
fn short_buffers_are_refused_before_the_record_is_looked_at() {
    let [cluster, layout] = small_records();
    for record in [&cluster[..], &layout[..], &[]] {
        for length in [0, 1, CELLS - 1] {
            let lent = lent::pattern(length, &mut Random::new(1));
            let mut cells = lent.clone();
            let mut answer = [7; ffi::READ_CLUSTER_ANSWER];
            assert_eq!(ffi::read_cluster(record, &mut cells, &mut answer), 8);
            assert_eq!(answer[..6], [0, 0, 0, 1, 1, 0]);
            assert!(answer[6..].iter().all(|cell| *cell == 0));
            let mut answer = [7; ffi::READ_LAYOUT_ANSWER];
            assert_eq!(ffi::read_layout(record, &mut cells, &mut answer), 8);
            assert_eq!(answer, [0; 8]);
            assert_eq!(cells, lent);
        }
    }
}

#[test]
fn readings_agree_with_an_independent_parser() {
    try_readings(23, 20_000);
}

#[test]
fn layouts_are_written_and_read_back() {
    try_round_trips(24, 3000);
}

#[test]
fn writing_refuses_as_laid_down() {
    try_writing(25, 8000);
}

#[test]
#[ignore = "make soak"]
fn soak_records() {
    try_readings(soak_seed(26), 20_000 * soak_factor());
    try_round_trips(soak_seed(27), 3000 * soak_factor());
    try_writing(soak_seed(28), 8000 * soak_factor());
}
