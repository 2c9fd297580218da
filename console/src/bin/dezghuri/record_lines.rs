//! The lines that the program `plan` prints of a cluster record.

use crate::failure::REFUSED;
use dezghuri::{Cluster, Plan, Refused, Verdict, ENOUGH};

/// The lines for a record, and the exit status that goes with them.
pub fn planned(record: &[u8]) -> (String, u8) {
    match Cluster::from_record(record).and_then(|cluster| cluster.plan(ENOUGH)) {
        Ok(plan) => (of_plan(&plan), 0),
        Err(refused) => (of_refusal(refused), REFUSED),
    }
}

fn of_refusal(refused: Refused) -> String {
    format!("refused {}\n", refused.refusal.number())
}

fn of_plan(plan: &Plan) -> String {
    let verdict = match plan.verdict {
        Verdict::Finished => "finished",
        Verdict::Stopped => "stopped",
    };
    let mut text = format!(
        "size {}\nsent {}\nimprovements {}\n{verdict}\n",
        plan.size, plan.sent, plan.improvements
    );
    for (partition, ids) in plan.layout.rows() {
        text += &format!("{partition}:");
        for id in ids {
            text += &format!(" {id}");
        }
        text += "\n";
    }
    text
}
