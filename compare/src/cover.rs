//! What the scripts reached: a line for each class, branch and refusal. A line at 0 fails the run.
use std::collections::BTreeMap;

#[derive(Default)]
pub struct Cover {
    lines: BTreeMap<&'static str, u64>,
    quiet: bool,
}

impl Cover {
    pub fn new(lines: &[&'static str]) -> Self {
        Self {
            lines: lines.iter().map(|line| (*line, 0)).collect(),
            quiet: false,
        }
    }
    /// For plays that are not counted, as when a script is cut down.
    pub fn nothing() -> Self {
        Self {
            lines: BTreeMap::new(),
            quiet: true,
        }
    }
    pub fn reached(&mut self, line: &'static str) {
        if self.quiet {
            return;
        }
        match self.lines.get_mut(line) {
            Some(count) => *count += 1,
            None => panic!("no line '{line}' in the table"),
        }
    }
    pub fn reached_if(&mut self, holds: bool, line: &'static str) {
        if holds {
            self.reached(line);
        }
    }
    pub fn print(&self, part: &str) {
        for (line, count) in &self.lines {
            println!("  {count:>10}  {part}: {line}");
        }
    }
    pub fn missing(&self) -> Vec<&'static str> {
        let zero = self.lines.iter().filter(|(_, count)| **count == 0);
        zero.map(|(line, _)| *line).collect()
    }
}
