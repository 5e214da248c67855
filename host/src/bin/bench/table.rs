//! The table of all that was timed.

use crate::rounds::Times;

#[derive(Default)]
pub struct Table {
    lines: Vec<String>,
}

impl Table {
    /// The ratios are ours over theirs, and the chip's mode over the Rust's.
    pub fn add(&mut self, inputs: &str, work: &str, times: &Times) {
        let Times { rust, chip, theirs } = times;
        let (ratio, modes) = (rust / theirs, chip / rust);
        let figures =
            format!("{rust:>7.1} | {theirs:>9.1} | {ratio:>5.2} | {chip:>7.1} | {modes:>9.2}");
        self.lines
            .push(format!("| {inputs:<12} | {work:<18} | {figures} |"));
    }

    pub fn print(&self) {
        println!("| inputs       | work               | ours ns | theirs ns | ratio | chip ns | chip/ours |");
        println!("|--------------|--------------------|--------:|----------:|------:|--------:|----------:|");
        for line in &self.lines {
            println!("{line}");
        }
    }
}
