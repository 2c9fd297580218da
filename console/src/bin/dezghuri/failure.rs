//! Why the command fails, and with which exit status.

use crate::json::Json;
use dezghuri::Refused;

/// The status of a call to which the planner says no.
pub const REFUSED: u8 = 1;
/// The status of a call that is at fault itself, or whose files are.
pub const BAD: u8 = 2;

/// What went wrong, in lines for the owner.
#[derive(Debug, PartialEq, Eq)]
pub enum Failure {
    /// The planner says no: there is no such layout, or the layout is not valid.
    Refused(String, Refused),
    /// A file can't be used.
    Bad(Vec<String>),
    /// The words of the call make no sense.
    Usage(String),
    /// Too late for an object: standard output has the report already, or takes nothing.
    Late(String),
}

impl Failure {
    /// One thing wrong with a file.
    pub fn bad(what: String) -> Failure {
        Failure::Bad(vec![what])
    }

    /// The same failure, after the report was printed.
    pub fn late(self) -> Failure {
        Failure::Late(self.lines().join("\n"))
    }

    /// Whether no object can go to standard output any more.
    pub fn is_late(&self) -> bool {
        matches!(self, Failure::Late(_))
    }

    pub fn lines(&self) -> Vec<String> {
        match self {
            Failure::Refused(what, _) => vec![what.clone()],
            Failure::Late(what) => vec![what.clone()],
            Failure::Bad(faults) => faults.clone(),
            Failure::Usage(what) => vec![
                format!("dezghuri: {what}"),
                "`dezghuri help` says how it is called".into(),
            ],
        }
    }

    pub fn status(&self) -> u8 {
        match self {
            Failure::Refused(..) => REFUSED,
            Failure::Bad(_) | Failure::Usage(_) | Failure::Late(_) => BAD,
        }
    }

    /// What `--json` prints in the place of an answer.
    pub fn json(&self) -> Json {
        let refusal = match self {
            Failure::Refused(_, refused) => Some(refused.refusal.number()),
            _ => None,
        };
        Json::Object(vec![
            ("status", self.status().into()),
            ("refusal", refusal.into()),
            ("lines", Json::list(self.lines())),
        ])
    }
}
