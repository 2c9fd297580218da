//! A parser and a writer of both records, written from document 01.

use crate::{Cluster, Layout, Node};

/// A refusal: its number and the byte at which the field begins.
pub type Refused = (u32, usize);

/// The fields of a record, one after the other.
pub(crate) struct Fields<'a> {
    pub bytes: &'a [u8],
    pub at: usize,
}

impl<'a> Fields<'a> {
    fn done(&self) -> bool {
        self.at == self.bytes.len()
    }

    /// The next field's tag, body and first byte; `due` judges the tag, and `legal` tag and length.
    pub fn next(
        &mut self,
        due: impl Fn(u8) -> bool,
        legal: impl Fn(u8, usize) -> bool,
    ) -> Result<(u8, &'a [u8], usize), Refused> {
        let at = self.at;
        let rest = &self.bytes[at..];
        if rest.len() < 3 {
            return Err((1, at));
        }
        let (tag, len) = (rest[0], u16::from_be_bytes([rest[1], rest[2]]) as usize);
        if !due(tag) {
            return Err((2, at));
        }
        if !legal(tag, len) {
            return Err((3, at));
        }
        if rest.len() < 3 + len {
            return Err((1, at));
        }
        self.at = at + 3 + len;
        Ok((tag, &rest[3..3 + len], at))
    }
}

pub(crate) fn number(bytes: &[u8]) -> u64 {
    bytes.iter().fold(0, |n, b| n << 8 | *b as u64)
}

fn ids(bytes: &[u8]) -> impl Iterator<Item = u32> + Clone + '_ {
    let id = |c: &[u8]| u32::from_be_bytes([c[0], c[1], c[2], c[3]]);
    bytes.chunks_exact(4).map(id)
}

fn fixed(tag: u8, len: usize) -> bool {
    len == match tag {
        1 | 2 | 3 | 8 => 1,
        4 => 12,
        6 => 4,
        7 | 9 => 2,
        _ => return false,
    }
}

fn rows(tag: u8, len: usize) -> bool {
    if tag == 5 || tag == 10 {
        (6..=34).contains(&len) && len % 4 == 2
    } else {
        fixed(tag, len)
    }
}

/// Takes a field of one number that must come next and lie in its range.
fn number_field(f: &mut Fields, tag: u8, least: u64, most: u64) -> Result<u64, Refused> {
    if f.done() {
        return Err((7, f.bytes.len()));
    }
    let (_, body, at) = f.next(|next| next == tag, rows)?;
    let v = number(body);
    if v < least || v > most {
        return Err((4, at));
    }
    Ok(v)
}

fn take_node(c: &mut Cluster, body: &[u8], at: usize) -> Result<(), Refused> {
    let node = Node {
        id: number(&body[..4]) as u32,
        zone: number(&body[4..6]) as u16,
        capacity: number(&body[6..10]) as u32,
        ceiling: number(&body[10..]) as u16,
    };
    if !node.is_in_range() {
        return Err((4, at));
    }
    if c.nodes.last().is_some_and(|n| n.id >= node.id) {
        return Err((5, at));
    }
    if c.nodes.len() == 32 {
        return Err((6, at));
    }
    c.nodes.push(node);
    Ok(())
}

/// Whether the ids rise from above 0 on.
fn rising(row: &[u8]) -> bool {
    let mut last = 0;
    ids(row).all(|id| std::mem::replace(&mut last, id) < id)
}

/// The partition of a row and the bytes of its ids; the partition has to be one that `follows` the
/// rows before.
fn take_row(
    body: &[u8],
    at: usize,
    partitions: usize,
    follows: impl Fn(usize) -> bool,
) -> Result<(usize, &[u8]), Refused> {
    let p = u16::from_be_bytes([body[0], body[1]]) as usize;
    let row = &body[2..];
    let rises = rising(row);
    if p >= partitions || !rises && ids(row).any(|id| id == 0) {
        return Err((4, at));
    }
    if !follows(p) || !rises {
        return Err((5, at));
    }
    Ok((p, row))
}

/// Reads a cluster record, all of whose nodes stand before its rows, and hands on the rows.
fn read(bytes: &[u8], mut take: impl FnMut(&Cluster, usize, &[u8])) -> Result<Cluster, Refused> {
    let mut f = Fields { bytes, at: 0 };
    let bits = number_field(&mut f, 1, 0, 8)? as u32;
    let replication = number_field(&mut f, 2, 1, 8)?;
    let redundancy = number_field(&mut f, 3, 1, replication)? as usize;
    let mut c = Cluster {
        bits,
        replication: replication as usize,
        redundancy,
        nodes: Vec::with_capacity(32),
    };
    let mut last_row: Option<usize> = None;
    while !f.done() {
        let due = |tag| tag == 5 || tag == 4 && last_row.is_none();
        let (tag, body, at) = f.next(due, rows)?;
        if tag == 4 {
            take_node(&mut c, body, at)?;
        } else {
            let rises = |p| last_row.is_none_or(|q| q < p);
            let (p, row) = take_row(body, at, c.partitions(), rises)?;
            take(&c, p, row);
            last_row = Some(p);
        }
    }
    Ok(c)
}

/// Reads a cluster record: the cluster and its former layout, P rows.
pub fn read_cluster(bytes: &[u8]) -> Result<(Cluster, Layout), Refused> {
    let mut former: Layout = vec![Vec::new(); 256];
    let c = read(bytes, |_, p, row| former[p] = ids(row).collect())?;
    former.truncate(c.partitions());
    Ok((c, former))
}

/// Reads a cluster record: the cluster, and its former rows as sets of the nodes that are still
/// there.
pub fn read_masks(bytes: &[u8]) -> Result<(Cluster, [u32; 256]), Refused> {
    let mut former = [0; 256];
    let c = read(bytes, |c, p, row| former[p] = mask(&c.nodes, ids(row)))?;
    Ok((c, former))
}

/// The set of the nodes with these ids; both rise.
pub(crate) fn mask(nodes: &[Node], ids: impl Iterator<Item = u32>) -> u32 {
    let (mut set, mut b) = (0, 0);
    for id in ids {
        while b < nodes.len() && nodes[b].id < id {
            b += 1;
        }
        if b < nodes.len() && nodes[b].id == id {
            set |= 1 << b;
        }
    }
    set
}

/// The numbers of a layout record.
#[derive(Clone, Copy, Debug, PartialEq, Eq)]
pub struct Numbers {
    pub bits: u32,
    pub replication: u32,
    pub size: u32,
    pub sent: u32,
    pub verdict: u32,
    pub improvements: u32,
}

/// Reads a layout record.
pub fn read_layout(bytes: &[u8]) -> Result<(Numbers, Layout), Refused> {
    let mut f = Fields { bytes, at: 0 };
    let mut head = |tag, least, most| number_field(&mut f, tag, least, most).map(|v| v as u32);
    let numbers = Numbers {
        bits: head(1, 0, 8)?,
        replication: head(2, 1, 8)?,
        size: head(6, 1, u32::MAX.into())?,
        sent: head(7, 0, 2048)?,
        verdict: head(8, 0, 1)?,
        improvements: head(9, 0, 2048)?,
    };
    let mut layout: Layout = vec![Vec::new(); 1 << numbers.bits];
    for next in 0..layout.len() {
        if f.done() {
            return Err((7, bytes.len()));
        }
        let of_this_record = |_, len| len == 2 + 4 * numbers.replication as usize;
        let (_, body, at) = f.next(|tag| tag == 10, of_this_record)?;
        let (p, row) = take_row(body, at, layout.len(), |p| p == next)?;
        layout[p] = ids(row).collect();
    }
    if !f.done() {
        f.next(|_| false, rows)?;
    }
    Ok((numbers, layout))
}

pub(crate) fn field(out: &mut Vec<u8>, tag: u8, body: &[u8]) {
    out.push(tag);
    out.extend((body.len() as u16).to_be_bytes());
    out.extend(body);
}

fn row_body(p: usize, row: &[u32]) -> Vec<u8> {
    let mut body = (p as u16).to_be_bytes().to_vec();
    row.iter().for_each(|id| body.extend(id.to_be_bytes()));
    body
}

/// The record of a cluster and its former layout.
pub fn cluster_record(c: &Cluster, former: &Layout) -> Vec<u8> {
    let mut out = Vec::new();
    field(&mut out, 1, &[c.bits as u8]);
    field(&mut out, 2, &[c.replication as u8]);
    field(&mut out, 3, &[c.redundancy as u8]);
    for n in &c.nodes {
        field(&mut out, 4, &n.body());
    }
    for (p, row) in former.iter().enumerate().filter(|(_, r)| !r.is_empty()) {
        field(&mut out, 5, &row_body(p, row));
    }
    out
}

/// The record of a layout.
pub fn layout_record(n: &Numbers, layout: &Layout) -> Vec<u8> {
    let mut out = Vec::new();
    field(&mut out, 1, &[n.bits as u8]);
    field(&mut out, 2, &[n.replication as u8]);
    field(&mut out, 6, &n.size.to_be_bytes());
    field(&mut out, 7, &(n.sent as u16).to_be_bytes());
    field(&mut out, 8, &[n.verdict as u8]);
    field(&mut out, 9, &(n.improvements as u16).to_be_bytes());
    for (p, row) in layout.iter().enumerate() {
        field(&mut out, 10, &row_body(p, row));
    }
    out
}
