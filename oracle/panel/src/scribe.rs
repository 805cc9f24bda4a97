//! Writes scripts: each line is answered by the Rust as it is written. A line that lies outside the domain has no answer and no
//! effect, and is left out.
use crate::panel::Panel;

pub struct Scribe {
    pub panel: Panel,
    pub script: Vec<String>,
}

impl Scribe {
    pub fn new() -> Self {
        Scribe { panel: Panel::new(), script: Vec::new() }
    }

    pub fn say(&mut self, line: impl Into<String>) -> bool {
        let line = line.into();
        let is_answered = self.panel.line(&line).is_ok();
        if is_answered {
            self.script.push(line);
        }
        is_answered
    }

    /// Where the last segment ends.
    pub fn end(&self) -> usize {
        self.panel.log.records().last().map_or(0, |last| last.end())
    }
}

/// What the Rust answers to a script, or why it is no case.
pub fn answer(script: &[String]) -> Result<String, String> {
    let mut panel = Panel::new();
    for (k, line) in script.iter().enumerate() {
        panel.line(line).map_err(|why| format!("line {}: {why}", k + 1))?;
    }
    Ok(panel.out)
}
