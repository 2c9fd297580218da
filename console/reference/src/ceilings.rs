//! Random ceilings.

use crate::exchanges::{layout, plan, Path};
use crate::random::Random;
use crate::{Cluster, Node};

/// Gives the nodes of a cluster ceilings. Half of the clusters have none; of the others some nodes have
/// any ceiling, or one about as many copies as they hold in a layout without ceilings, so that it binds.
pub fn draw(c: &mut Cluster, r: &mut Random) {
    match r.below(4) {
        0 => {
            let percent = r.between(10, 90);
            let partitions = c.partitions();
            for node in &mut c.nodes {
                if r.chance(percent) {
                    node.ceiling = any(partitions, r);
                }
            }
        }
        1 => about_what_is_held(c, r),
        _ => (),
    }
}

/// A ceiling for a node of so many partitions: few copies, nearly all, all, or none at all.
pub fn any(partitions: usize, r: &mut Random) -> u16 {
    let all = partitions as u64;
    let ceiling = match r.below(8) {
        0 => 0,
        1 => Node::NO_CEILING.into(),
        2 => all,
        3 => all - 1,
        _ => r.between(1, all),
    };
    ceiling as u16
}

/// Some of the nodes may hold one copy less than they hold, as many, or one more.
fn about_what_is_held(c: &mut Cluster, r: &mut Random) {
    let none = vec![Vec::new(); c.partitions()];
    let Some(planned) = plan(c, &none, 0, Path::Searched) else {
        return;
    };
    let rows = layout(c, &planned.rows);
    let percent = r.between(10, 90);
    for node in &mut c.nodes {
        let held = rows.iter().filter(|row| row.contains(&node.id)).count() as u16;
        if r.chance(percent) {
            let ceiling = (held + r.below(3) as u16).saturating_sub(1);
            node.ceiling = ceiling.min(Node::NO_CEILING);
        }
    }
}
