//! What a call does to files once its report is printed.

use crate::failure::Failure;
use crate::history::Addition;
use crate::output::{Output, Removal};

/// One step; steps are done in order, and after one that fails none is done.
pub enum Deed {
    /// Writes a file, and says so.
    Write(Output),
    /// Writes a file of which the owner need not hear: a later step removes it.
    Prepare(Output),
    Remove(Removal),
    /// Adds a line to a history. Where that fails, it is warned of, and the other steps are done.
    Append(Addition),
}

impl Deed {
    /// Does it; what to say of it.
    pub fn act(&self) -> Result<String, Failure> {
        match self {
            Deed::Write(output) => output.write(),
            Deed::Prepare(output) => output.write().map(|_| String::new()),
            Deed::Remove(removal) => removal.remove(),
            Deed::Append(addition) => {
                if let Some(warning) = addition.add() {
                    crate::warn(&warning);
                }
                Ok(String::new())
            }
        }
    }
}
