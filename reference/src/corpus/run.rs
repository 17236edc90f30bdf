//! A run with the answers that stand beside it.

use crate::script::Script;

/// A run: its name, the window's lines, and its events as lines of a script, parted by semicolons.
/// Every event but those that get none has its `expect`; or the run has its `refused`.
#[derive(Clone, Debug, PartialEq, Eq)]
pub struct Run {
    pub name: String,
    pub lines: u16,
    pub script: String,
}

impl Run {
    pub(super) fn new(name: &str, lines: u16, script: &str) -> Run {
        Run {
            name: name.to_string(),
            lines,
            script: script.to_string(),
        }
    }

    /// The events alone.
    pub fn events(&self) -> String {
        let lines = self.script.split(';').map(str::trim);
        let is_event = |line: &&str| !line.starts_with("expect ") && !line.starts_with("refused ");
        lines.filter(is_event).collect::<Vec<_>>().join("; ")
    }

    /// The events with their answers.
    pub fn read(&self) -> Script {
        let text = format!("lines {}\n{}", self.lines, self.script.replace(';', "\n"));
        Script::parse(&text).unwrap_or_else(|mistake| panic!("{text}: {mistake:?}"))
    }
}
