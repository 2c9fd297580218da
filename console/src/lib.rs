//! Layouts of a cluster of storage boxes, planned by proved functions.
//!
//! A [`Cluster`] has nodes (the boxes), each in a zone, with a capacity in megabytes and with a ceiling,
//! the most copies that it may hold ([`Node::NO_CEILING`] where any number will do); it wants every
//! partition of its data kept as so many copies, on different nodes and in so many zones at least.
//! [`Cluster::plan`] answers which nodes hold which partition: first the largest size of a partition
//! that the disks and ceilings allow, a sixteenth of each disk kept free ([`Node::usable`]), then, among
//! all layouts of that size, the first of those that lie nearest to the former layout: none needs
//! fewer copies to be sent ([`Plan::sent`]), and of those that need as few it comes before all others,
//! rows compared from partition 0 on and ids from the left, the smaller first.
//!
//! Before planning, changes of the nodes are made on the cluster in hand: [`Cluster::change`] makes one
//! [`Change`] and answers the one that reverses it, so that they can be undone in backward order.
//!
//! After planning, [`Cluster::moves`] lists the transfers one after another, from what the nodes hold
//! ([`Held`]) to the new layout: power may go after any of these steps, and a list made afresh goes on.
//!
//! Of a layout in hand, whoever planned it, [`Cluster::certify`] tells why none has a larger size and none
//! of its size sends fewer copies: a price for each node, from which anybody can check it with sums alone.
//!
//! Plans, checks, figures, prices, changes, moves and records are the work of the C functions of
//! `include/dezghuri.h`, whose contracts are proved; this library lends them their buffers and names
//! their answers. [`ffi`] has them one for one.
//!
//! The rest is plain Rust around them. [`Description`] reads the text file in which an owner
//! describes a cluster, and [`Description::rewritten`] writes it anew for other boxes.
//! [`Layout::diff`] and [`Cluster::transfers`] tell what changes place between two layouts,
//! [`Cluster::losses`] which partitions had their last copies on nodes that are gone, and
//! [`Cluster::counts`] why the size is no larger.
//!
//! ```
//! use dezghuri::{Cluster, Layout, Node, Verdict};
//!
//! let cluster = Cluster {
//!     bits: 1,
//!     replication: 3,
//!     redundancy: 2,
//!     nodes: vec![
//!         Node { id: 1, zone: 1, capacity: 100, ceiling: Node::NO_CEILING },
//!         Node { id: 2, zone: 1, capacity: 70, ceiling: Node::NO_CEILING },
//!         Node { id: 3, zone: 2, capacity: 50, ceiling: Node::NO_CEILING },
//!     ],
//!     former: Layout::default(),
//! };
//! let plan = cluster.plan(dezghuri::ENOUGH)?;
//! assert_eq!(plan.size, 23); // two copies each in 94, 66 and 47 MB
//! assert_eq!(plan.verdict, Verdict::Finished);
//! assert_eq!(plan.layout.row(0), [1, 2, 3]);
//! cluster.check(&plan.layout, plan.size)?;
//! # Ok::<(), dezghuri::Refused>(())
//! ```
//!
//! The boxes of an owner's text file, planned, and the layout kept:
//!
//! ```no_run
//! let described = dezghuri::Description::parse(&std::fs::read("shop.txt")?)?;
//! let plan = described.cluster.plan(dezghuri::ENOUGH)?;
//! std::fs::write("shop-1.layout", plan.to_record()?)?;
//! # Ok::<(), Box<dyn std::error::Error>>(())
//! ```

#![deny(unsafe_code, missing_docs)]

mod certificate;
mod change;
mod check;
mod cluster;
mod counts;
mod description;
mod diff;
#[allow(unsafe_code)]
pub mod ffi;
mod layout;
mod losses;
mod moves;
mod plan;
mod refusal;
mod rewrite;
#[cfg(test)]
mod small;
pub mod terminal;
pub mod units;
mod worst_loss;

pub use certificate::{Certificate, Group, Line};
pub use change::{Change, Changed, Staged};
pub use check::Figures;
pub use cluster::{Cluster, Node};
pub use counts::{Counts, Unused};
pub use description::{Description, Faults, Label, Note};
pub use diff::{Diff, NodeDiff, Transfers};
pub use layout::Layout;
pub use losses::Losses;
pub use moves::{Held, Step, StepKind};
pub use plan::{Plan, Verdict, ENOUGH};
pub use refusal::{NoRefusal, Place, Refusal, Refused};
pub use worst_loss::WorstLoss;
