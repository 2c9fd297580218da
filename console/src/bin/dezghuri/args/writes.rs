//! Which files a call writes.

use super::{Command, Staging};
use crate::staged;
use std::path::PathBuf;

impl Command {
    /// The files that the call may write or remove, as the owner calls them; none where it only reads.
    pub fn writes(&self) -> Vec<PathBuf> {
        match self {
            Command::Stage {
                staging: Staging::Show,
                ..
            } => Vec::new(),
            Command::Stage { file, .. } | Command::Undo { file } | Command::Apply { file } => {
                vec![file.clone(), staged::path_of(file)]
            }
            // The text is not written, but has to stay as it is until its layout is; and its history grows.
            Command::Plan(call) => match &call.out {
                Some(out) => vec![call.source.file.clone(), out.clone()],
                None => Vec::new(),
            },
            Command::Report(call) => vec![call.out.clone()],
            Command::Certify(call) => call.out.iter().cloned().collect(),
            Command::Record { out, .. } => out.iter().cloned().collect(),
            Command::Help(_)
            | Command::Version
            | Command::PlanRecord { .. }
            | Command::Check { .. }
            | Command::Show { .. }
            | Command::Loss { .. }
            | Command::Diff { .. }
            | Command::Moves(_)
            | Command::WhatIf { .. }
            | Command::History { .. } => Vec::new(),
        }
    }
}
