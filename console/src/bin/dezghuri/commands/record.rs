//! `record`, and `plan --record`: cluster records written and planned.

use super::{describe, output, Answer};
use crate::args::Source;
use crate::failure::Failure;
use crate::files;
use crate::history::of_other_boxes;
use crate::losses;
use crate::output::Kind;
use crate::record_lines;
use crate::terminal::shown;
use crate::units::count;
use std::path::Path;

pub fn run(
    file: &Path,
    former: Option<&Path>,
    out: Option<&Path>,
    warnings: &mut Vec<String>,
) -> Result<Answer, Failure> {
    let source = Source {
        file: file.into(),
        staged: false,
    };
    let known = describe(&source, former, warnings)?;
    if let (Some(former), Some(plan)) = (former, &known.former) {
        warnings.extend(of_other_boxes(&known.described, file, former, plan));
    }
    let cluster = known.described.cluster;
    warnings.extend(losses::in_words(&cluster));
    let record = cluster.to_record();
    let Some(out) = out else {
        return Ok(Answer::report(record));
    };
    let bytes = count(record.len() as u64, "byte", "bytes");
    let report = format!("{} makes a cluster record of {bytes}.\n", shown(file));
    let output = output(Kind::Cluster, record, file, out)?;
    Ok(Answer::report(report).writing(output))
}

/// Plans a record and prints what the program `plan` prints of it.
pub fn plan(record: &Path) -> Result<Answer, Failure> {
    let (lines, status) = record_lines::planned(&files::read_cluster_record(record)?);
    Ok(Answer {
        status,
        ..Answer::report(lines)
    })
}
