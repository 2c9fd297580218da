//! Calls with lent buffers that are filled with a pattern and longer than they need to be: each
//! call here checks that every cell comes back as laid down for the outcome.

use crate::certificates;
use dezghuri::ffi;
use reference::cells::{layout_of, CELLS};
use reference::random::Random;
use reference::records::Numbers;
use reference::{Cluster, Layout};

/// Cells that no call would write by chance.
pub fn pattern(length: usize, r: &mut Random) -> Vec<u32> {
    let salt = r.number() as u32;
    let cell = |i: usize| (i as u32).wrapping_mul(0x9E37_79B9) ^ salt | 1;
    (0..length).map(cell).collect()
}

/// A buffer of so many cells, or some more.
fn lend(least: usize, r: &mut Random) -> Vec<u32> {
    let more = if r.chance(50) { r.below(20) } else { 0 };
    pattern(least + more as usize, r)
}

/// Checks that the cells from `from` on are as they were lent.
pub fn kept<T: PartialEq>(now: &[T], before: &[T], from: usize) {
    assert_eq!(now.len(), before.len());
    assert!(now[from..] == before[from..], "cells were touched");
}

fn byte(answer: &[u32]) -> u64 {
    u64::from(answer[0]) << 32 | u64::from(answer[1])
}

/// What planning answers.
#[derive(Clone, Debug, PartialEq, Eq)]
pub struct Planned {
    pub size: u32,
    pub sent: u32,
    pub finished: bool,
    pub improvements: u32,
    pub layout: Layout,
}

/// Plans, and has the plan judged by the stranger's check; refused, the refusal and the byte.
pub fn plan(record: &[u8], allowance: u16, r: &mut Random) -> Result<Planned, (u32, u64)> {
    let lent = (
        lend(CELLS, r),
        lend(ffi::SCRATCH_CELLS, r),
        lend(ffi::PLAN_ANSWER, r),
    );
    let (mut assignment, mut scratch, mut answer) = lent.clone();
    let refusal = ffi::plan(
        record,
        allowance,
        &mut assignment,
        &mut scratch,
        &mut answer,
    );
    let scratched = refusal == 0 || refusal == 9;
    kept(&assignment, &lent.0, if refusal == 0 { CELLS } else { 0 });
    kept(
        &scratch,
        &lent.1,
        if scratched { ffi::SCRATCH_CELLS } else { 0 },
    );
    kept(&answer, &lent.2, ffi::PLAN_ANSWER);
    if scratched {
        assert!(scratch[..ffi::SCRATCH_CELLS].iter().all(|cell| *cell == 0));
    }
    if refusal != 0 {
        assert_eq!(answer[2..ffi::PLAN_ANSWER], [0; 4], "numbers of a refusal");
        return Err((refusal, byte(&answer)));
    }
    let planned = planned(1 << record[3], &assignment, &answer);
    certificates::judge(record, &planned);
    Ok(planned)
}

/// The answer to an accepted record of so many partitions.
fn planned(partitions: usize, assignment: &[u32], answer: &[u32]) -> Planned {
    assert_eq!(byte(answer), 0, "the byte of an accepted record");
    assert!(answer[4] <= 1, "a verdict");
    assert!(assignment[8 * partitions..CELLS]
        .iter()
        .all(|cell| *cell == 0));
    Planned {
        size: answer[2],
        sent: answer[3],
        finished: answer[4] == 1,
        improvements: answer[5],
        layout: layout_of(assignment, partitions),
    }
}

/// Reads a cluster; refused, the refusal and the byte.
pub fn read_cluster(record: &[u8], r: &mut Random) -> Result<(Cluster, Vec<u32>), (u32, u64)> {
    let lent = (lend(CELLS, r), lend(ffi::READ_CLUSTER_ANSWER, r));
    let (mut former, mut answer) = lent.clone();
    let refusal = ffi::read_cluster(record, &mut former, &mut answer);
    kept(&former, &lent.0, if refusal == 0 { CELLS } else { 0 });
    kept(&answer, &lent.1, ffi::READ_CLUSTER_ANSWER);
    let cluster = cluster_of(&answer[2..ffi::READ_CLUSTER_ANSWER]);
    if refusal != 0 {
        assert_eq!(cluster, no_nodes(), "the cluster of a refusal");
        return Err((refusal, byte(&answer)));
    }
    assert_eq!(byte(&answer), 0, "the byte of an accepted record");
    former.truncate(CELLS);
    Ok((cluster, former))
}

/// The cluster that a refused reading answers.
pub fn no_nodes() -> Cluster {
    Cluster {
        bits: 0,
        replication: 1,
        redundancy: 1,
        nodes: Vec::new(),
    }
}

/// The cluster of the cells of an answer: three numbers, that of the nodes, and the nodes, four cells
/// each.
fn cluster_of(cells: &[u32]) -> Cluster {
    let (used, unused) = cells[4..].split_at(4 * cells[3] as usize);
    assert!(unused.iter().all(|cell| *cell == 0), "unused nodes");
    let node = |cells: &[u32]| reference::Node {
        id: cells[0],
        zone: cells[1].try_into().expect("a zone has 16 bits"),
        capacity: cells[2],
        ceiling: cells[3].try_into().expect("a ceiling has 16 bits"),
    };
    Cluster {
        bits: cells[0],
        replication: cells[1] as usize,
        redundancy: cells[2] as usize,
        nodes: used.chunks(4).map(node).collect(),
    }
}

/// Reads a layout; refused, the refusal and the byte.
pub fn read_layout(record: &[u8], r: &mut Random) -> Result<(Numbers, Vec<u32>), (u32, u64)> {
    let lent = (lend(CELLS, r), lend(ffi::READ_LAYOUT_ANSWER, r));
    let (mut assignment, mut answer) = lent.clone();
    let refusal = ffi::read_layout(record, &mut assignment, &mut answer);
    kept(&assignment, &lent.0, if refusal == 0 { CELLS } else { 0 });
    kept(&answer, &lent.1, ffi::READ_LAYOUT_ANSWER);
    if refusal != 0 {
        assert_eq!(answer[2..8], [0; 6], "numbers of a refusal");
        return Err((refusal, byte(&answer)));
    }
    assert_eq!(byte(&answer), 0, "the byte of an accepted record");
    assignment.truncate(CELLS);
    let numbers = Numbers {
        bits: answer[2],
        replication: answer[3],
        size: answer[4],
        sent: answer[5],
        verdict: answer[6],
        improvements: answer[7],
    };
    Ok((numbers, assignment))
}

/// A check's refusal, byte and place.
pub fn check(record: &[u8], assignment: &[u32], size: u32, r: &mut Random) -> (u32, u64, u32) {
    let lent = lend(ffi::CHECK_ANSWER, r);
    let mut answer = lent.clone();
    let refusal = ffi::check(record, assignment, size, &mut answer);
    kept(&answer, &lent, ffi::CHECK_ANSWER);
    (refusal, byte(&answer), answer[2])
}

/// The prices that certify an assignment, one for each of 32 nodes; refused, the refusal, byte and place.
pub fn certify(
    record: &[u8],
    assignment: &[u32],
    size: u32,
    r: &mut Random,
) -> Result<Vec<u32>, (u32, u64, u32)> {
    let lent = lend(ffi::CERTIFY_ANSWER, r);
    let mut answer = lent.clone();
    let refusal = ffi::certify(record, assignment, size, &mut answer);
    kept(&answer, &lent, ffi::CERTIFY_ANSWER);
    let prices = answer[3..ffi::CERTIFY_ANSWER].to_vec();
    if refusal != 0 {
        assert_eq!(prices, [0; 32], "prices of a refusal");
        return Err((refusal, byte(&answer), answer[2]));
    }
    assert_eq!(answer[..3], [0; 3], "byte and place without a refusal");
    Ok(prices)
}

/// The worst loss of so many nodes: how many partitions are lost, and the ids; refused, the refusal, byte and place.
pub fn worst_loss(
    record: &[u8],
    assignment: &[u32],
    number: u32,
    r: &mut Random,
) -> Result<(u32, Vec<u32>), (u32, u64, u32)> {
    let lent = lend(ffi::WORST_LOSS_ANSWER, r);
    let mut answer = lent.clone();
    let refusal = ffi::worst_loss(record, assignment, number, &mut answer);
    kept(&answer, &lent, ffi::WORST_LOSS_ANSWER);
    if refusal != 0 {
        let numbers = &answer[3..ffi::WORST_LOSS_ANSWER];
        assert_eq!(numbers, [0; 5], "numbers of a refusal");
        return Err((refusal, byte(&answer), answer[2]));
    }
    assert_eq!(answer[..3], [0; 3], "byte and place without a refusal");
    let (ids, zeros) = answer[4..ffi::WORST_LOSS_ANSWER].split_at(number as usize);
    assert!(zeros.iter().all(|cell| *cell == 0), "past the ids");
    Ok((answer[3], ids.to_vec()))
}

/// How many partitions are lost with nodes; refused, the refusal, byte and place.
pub fn loss(
    record: &[u8],
    assignment: &[u32],
    nodes: &[u32],
    r: &mut Random,
) -> Result<u32, (u32, u64, u32)> {
    let lent = lend(ffi::LOSS_ANSWER, r);
    let mut answer = lent.clone();
    let refusal = ffi::loss(record, assignment, nodes, &mut answer);
    kept(&answer, &lent, ffi::LOSS_ANSWER);
    number_answered(refusal, &answer)
}

/// The 64 figures and the size to hope for; refused, the refusal, byte and place.
pub fn figures(
    record: &[u8],
    assignment: &[u32],
    size: u32,
    r: &mut Random,
) -> Result<(Vec<u32>, u64), (u32, u64, u32)> {
    let lent = (lend(ffi::FIGURES_CELLS, r), lend(ffi::FIGURES_ANSWER, r));
    let (mut figures, mut answer) = lent.clone();
    let refusal = ffi::figures(record, assignment, size, &mut figures, &mut answer);
    kept(
        &figures,
        &lent.0,
        if refusal == 0 { ffi::FIGURES_CELLS } else { 0 },
    );
    kept(&answer, &lent.1, ffi::FIGURES_ANSWER);
    let hope = byte(&answer[3..]);
    if refusal != 0 {
        assert_eq!(hope, 0, "numbers of a refusal");
        return Err((refusal, byte(&answer), answer[2]));
    }
    assert_eq!(answer[..3], [0; 3], "byte and place without a refusal");
    figures.truncate(ffi::FIGURES_CELLS);
    Ok((figures, hope))
}

/// The record that writing makes in an output of so many bytes; refused, the refusal.
pub fn write_layout(
    n: &Numbers,
    assignment: &[u32],
    room: usize,
    r: &mut Random,
) -> Result<Vec<u8>, u32> {
    let lent: Vec<u8> = (0..room).map(|_| r.number() as u8).collect();
    let lent_answer = lend(ffi::WRITE_LAYOUT_ANSWER, r);
    let (mut out, mut answer) = (lent.clone(), lent_answer.clone());
    let numbers = ffi::Numbers {
        bits: n.bits,
        replication: n.replication,
        size: n.size,
        sent: n.sent,
        verdict: n.verdict,
        improvements: n.improvements,
    };
    let refusal = ffi::write_layout(numbers, assignment, &mut out, &mut answer);
    let length = byte(&answer) as usize;
    kept(&answer, &lent_answer, ffi::WRITE_LAYOUT_ANSWER);
    kept(&out, &lent, length);
    if refusal != 0 {
        assert_eq!(length, 0, "the length of a refusal");
        return Err(refusal);
    }
    out.truncate(length);
    Ok(out)
}

/// What making a change answers.
#[derive(Clone, Debug, PartialEq, Eq)]
pub struct Changed {
    pub refusal: u32,
    /// The byte of a refused reading.
    pub read: u64,
    /// The next byte, or the given one.
    pub byte: u64,
    pub reverse: Vec<u8>,
    pub cluster: Cluster,
}

/// Makes the change at a byte on the cluster of a record.
pub fn change(record: &[u8], changes: &[u8], at: usize, r: &mut Random) -> Changed {
    let room = ffi::REVERSE_BYTES as u64 + r.below(4);
    let lent: Vec<u8> = (0..room).map(|_| r.number() as u8 | 1).collect();
    let lent_answer = lend(ffi::CHANGE_ANSWER, r);
    let (mut reverse, mut answer) = (lent.clone(), lent_answer.clone());
    let refusal = ffi::change(record, changes, at, &mut reverse, &mut answer);
    kept(&answer, &lent_answer, ffi::CHANGE_ANSWER);
    let written = if refusal == 0 { ffi::REVERSE_BYTES } else { 0 };
    kept(&reverse, &lent, written);
    let length = answer[4] as usize;
    assert_eq!(length > 0, refusal == 0, "the length of a reverse");
    let rest = &reverse[length..written.max(length)];
    assert!(rest.iter().all(|byte| *byte == 0), "past the reverse");
    reverse.truncate(length);
    Changed {
        refusal,
        read: byte(&answer),
        byte: byte(&answer[2..]),
        reverse,
        cluster: cluster_of(&answer[5..ffi::CHANGE_ANSWER]),
    }
}

/// The number of steps from what is held to an assignment; refused, the refusal, byte and place.
pub fn count_moves(
    record: &[u8],
    former: &[u32],
    assignment: &[u32],
    r: &mut Random,
) -> Result<u32, (u32, u64, u32)> {
    let lent = lend(ffi::MOVES_ANSWER, r);
    let mut answer = lent.clone();
    let refusal = ffi::count_moves(record, former, assignment, &mut answer);
    kept(&answer, &lent, ffi::MOVES_ANSWER);
    number_answered(refusal, &answer)
}

/// The steps that a list makes in so many cells; refused, the refusal, byte and place.
pub fn moves(
    record: &[u8],
    former: &[u32],
    assignment: &[u32],
    room: usize,
    r: &mut Random,
) -> Result<Vec<[u32; 4]>, (u32, u64, u32)> {
    let lent = (pattern(room, r), lend(ffi::MOVES_ANSWER, r));
    let (mut moves, mut answer) = lent.clone();
    let refusal = ffi::moves(record, former, assignment, &mut moves, &mut answer);
    kept(&answer, &lent.1, ffi::MOVES_ANSWER);
    let steps = number_answered(refusal, &answer);
    let written = 4 * steps.unwrap_or(0) as usize;
    kept(&moves, &lent.0, written);
    steps?;
    let step = |cells: &[u32]| [cells[0], cells[1], cells[2], cells[3]];
    Ok(moves[..written].chunks(4).map(step).collect())
}

/// The number of an answer that has one, behind byte and place.
fn number_answered(refusal: u32, answer: &[u32]) -> Result<u32, (u32, u64, u32)> {
    if refusal != 0 {
        assert_eq!(answer[3], 0, "the number of a refusal");
        return Err((refusal, byte(answer), answer[2]));
    }
    assert_eq!(answer[..3], [0; 3], "byte and place without a refusal");
    Ok(answer[3])
}
