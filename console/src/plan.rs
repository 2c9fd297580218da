//! Planning, and layout records.

use crate::cluster::{narrow, Cluster};
use crate::ffi;
use crate::layout::Layout;
use crate::refusal::{judge, wide, Refused};

/// This many improvements finish every plan.
pub const ENOUGH: u16 = 2048;

/// Whether a nearer layout can be had.
#[derive(Clone, Copy, Debug, PartialEq, Eq, Hash)]
pub enum Verdict {
    /// The allowance was used up, and some valid layout of the size lies nearer to the former one.
    Stopped,
    /// No valid layout of the size lies nearer to the former one, and of those as near this is the
    /// first: rows compared from partition 0 on, ids from the left, the smaller first.
    Finished,
}

impl Verdict {
    fn from_number(number: u32) -> Verdict {
        match number {
            0 => Verdict::Stopped,
            _ => Verdict::Finished,
        }
    }

    fn number(self) -> u32 {
        match self {
            Verdict::Stopped => 0,
            Verdict::Finished => 1,
        }
    }
}

/// What planning answers, and what a layout record holds.
#[derive(Clone, Debug, PartialEq, Eq, Hash)]
pub struct Plan {
    /// There are 2 to the power of `bits` partitions.
    pub bits: u8,
    /// Copies of each partition.
    pub replication: u8,
    /// Megabytes that each partition may grow to.
    pub size: u32,
    /// Copies to be sent: those that stand in this layout and not in the former one.
    pub sent: u32,
    /// Whether a nearer layout can be had.
    pub verdict: Verdict,
    /// Improvements made.
    pub improvements: u32,
    /// Which nodes hold which partition.
    pub layout: Layout,
}

impl Cluster {
    /// Plans the cluster with at most so many improvements; [`ENOUGH`] finishes. The same cluster, with
    /// the same former layout, has the same layout at every allowance that finishes.
    ///
    /// # Errors
    ///
    /// A fault of the cluster, with the value at fault, or
    /// [`Refusal::NoLayout`](crate::Refusal::NoLayout).
    pub fn plan(&self, allowance: u16) -> Result<Plan, Refused> {
        let mut layout = Layout::default();
        let mut scratch = vec![0; ffi::SCRATCH_CELLS];
        let mut answer = [0; ffi::PLAN_ANSWER];
        let refusal = ffi::plan(
            &self.to_record(),
            allowance,
            layout.cells_mut(),
            &mut scratch,
            &mut answer,
        );
        judge(refusal, Some(wide(answer[0], answer[1])), None)
            .map_err(|refused| self.in_own_terms(refused))?;
        Ok(Plan {
            bits: self.bits,
            replication: self.replication,
            size: answer[2],
            sent: answer[3],
            verdict: Verdict::from_number(answer[4]),
            improvements: answer[5],
            layout,
        })
    }
}

impl Plan {
    /// The plan of a layout record.
    ///
    /// # Errors
    ///
    /// The first fault of the record, with its byte.
    pub fn from_record(record: &[u8]) -> Result<Plan, Refused> {
        let mut layout = Layout::default();
        let mut answer = [0; ffi::READ_LAYOUT_ANSWER];
        let refusal = ffi::read_layout(record, layout.cells_mut(), &mut answer);
        judge(refusal, Some(wide(answer[0], answer[1])), None)?;
        Ok(Plan {
            bits: narrow(answer[2]),
            replication: narrow(answer[3]),
            size: answer[4],
            sent: answer[5],
            verdict: Verdict::from_number(answer[6]),
            improvements: answer[7],
            layout,
        })
    }

    /// The plan's layout record.
    ///
    /// # Errors
    ///
    /// [`Refusal::Range`](crate::Refusal::Range) or [`Refusal::Row`](crate::Refusal::Row) for a
    /// plan that was put together by hand and is none.
    pub fn to_record(&self) -> Result<Vec<u8>, Refused> {
        let numbers = ffi::Numbers {
            bits: self.bits.into(),
            replication: self.replication.into(),
            size: self.size,
            sent: self.sent,
            verdict: self.verdict.number(),
            improvements: self.improvements,
        };
        let mut record = vec![0; ffi::LAYOUT_RECORD_BYTES];
        let mut answer = [0; ffi::WRITE_LAYOUT_ANSWER];
        let cells = self.layout.cells();
        let refusal = ffi::write_layout(numbers, cells, &mut record, &mut answer);
        judge(refusal, None, None)?;
        let length = wide(answer[0], answer[1]);
        record.truncate(usize::try_from(length).expect("no longer than the buffer"));
        Ok(record)
    }
}

impl TryFrom<&[u8]> for Plan {
    type Error = Refused;

    fn try_from(record: &[u8]) -> Result<Plan, Refused> {
        Plan::from_record(record)
    }
}

#[cfg(test)]
mod tests {
    use super::*;
    use crate::{Node, Place, Refusal};

    /// Example E of the paper: both partitions lie at node 2, whose disk is the smaller.
    fn moving() -> Cluster {
        let node = |id, capacity| Node {
            id,
            zone: 1,
            capacity,
            ceiling: Node::NO_CEILING,
        };
        let mut former = Layout::default();
        former.set_row(0, &[2]);
        former.set_row(1, &[2]);
        Cluster {
            bits: 1,
            replication: 1,
            redundancy: 1,
            nodes: vec![node(1, 10), node(2, 4)],
            former,
        }
    }

    #[test]
    fn size_comes_before_nearness() {
        let plan = moving().plan(ENOUGH).unwrap();
        assert_eq!((plan.size, plan.sent), (5, 2));
        assert_eq!(plan.verdict, Verdict::Finished);
        assert_eq!(plan.layout.row(0), [1]);
        assert_eq!(plan.layout.row(1), [1]);
    }

    #[test]
    fn no_node_holds_more_than_its_ceiling() {
        let mut cluster = moving();
        cluster.nodes[0].ceiling = 1;
        let plan = cluster.plan(ENOUGH).unwrap();
        assert_eq!((plan.size, plan.sent), (4, 1));
        assert_eq!(plan.layout.row(0), [1]);
        assert_eq!(plan.layout.row(1), [2]);
        cluster.nodes[1].ceiling = 0;
        let refused = cluster.plan(ENOUGH).unwrap_err();
        assert_eq!((refused.refusal, refused.place), (Refusal::NoLayout, None));
    }

    #[test]
    fn a_plan_is_written_and_read_back() {
        let plan = moving().plan(ENOUGH).unwrap();
        let record = plan.to_record().unwrap();
        assert_eq!(record.len(), 29 + 2 * (5 + 4));
        assert_eq!(Plan::try_from(&record[..]), Ok(plan));
    }

    #[test]
    fn a_cut_record_is_refused_where_it_is_cut() {
        let record = moving().plan(ENOUGH).unwrap().to_record().unwrap();
        let refused = Plan::from_record(&record[..record.len() - 1]).unwrap_err();
        assert_eq!(refused.refusal, Refusal::Cut);
        assert_eq!(refused.place, Some(Place::Byte(38)));
    }

    #[test]
    fn a_plan_that_is_none_is_not_written() {
        let mut plan = moving().plan(ENOUGH).unwrap();
        plan.size = 0;
        assert_eq!(plan.to_record().unwrap_err().refusal, Refusal::Range);
        plan.size = 5;
        plan.sent = 2049;
        assert_eq!(plan.to_record().unwrap_err().refusal, Refusal::Range);
        plan.sent = 2048;
        assert!(plan.to_record().is_ok());
        plan.layout.set_row(1, &[]);
        let refused = plan.to_record().unwrap_err();
        assert_eq!((refused.refusal, refused.place), (Refusal::Row, None));
    }

    #[test]
    fn a_cluster_without_a_layout_is_refused() {
        let mut cluster = moving();
        cluster.replication = 3;
        let refused = cluster.plan(ENOUGH).unwrap_err();
        assert_eq!((refused.refusal, refused.place), (Refusal::NoLayout, None));
        cluster.redundancy = 4;
        let refused = cluster.plan(ENOUGH).unwrap_err();
        assert_eq!(refused.refusal, Refusal::Range);
        assert_eq!(refused.place, Some(Place::Redundancy));
    }
}
