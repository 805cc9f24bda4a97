//! Holds the panel program against the Rust. Many cases are asked of one process: each begins with a directory that is empty.
use std::collections::BTreeMap;
use std::io::{Read, Write};
use std::process::{Command, Stdio};

use crate::scribe::{self, Scribe};

/// Bytes of script at which a batch is asked. The panel takes 1,048,576.
const FULL: usize = 200_000;

type Counts = BTreeMap<String, usize>;

/// What was compared: cases, and lines by their first word, asked and answered.
#[derive(Default)]
pub struct Tally {
    pub cases: usize,
    asked: Counts,
    answered: Counts,
}

pub struct Comparison {
    /// The panel program, with what starts it.
    command: Vec<String>,
    pub scribe: Scribe,
    /// Each case's name, and where its lines begin in the script.
    cases: Vec<(String, usize)>,
    pub tally: Tally,
}

/// What the panel program prints. It reads its script to the end before it answers.
fn ask(command: &[String], script: &[String]) -> String {
    let mut child = Command::new(&command[0])
        .args(&command[1..])
        .stdin(Stdio::piped())
        .stdout(Stdio::piped())
        .spawn()
        .expect("the panel program starts");
    let text = script.join("\n") + "\n";
    child.stdin.take().unwrap().write_all(text.as_bytes()).expect("the panel program reads its script");
    let mut out = Vec::new();
    child.stdout.take().unwrap().read_to_end(&mut out).unwrap();
    assert!(child.wait().unwrap().success(), "the panel program ends well");
    String::from_utf8_lossy(&out).into_owned()
}

fn count<'a>(counts: &mut Counts, lines: impl Iterator<Item = &'a str>) {
    for line in lines {
        let word = line.split(' ').next().unwrap_or_default();
        *counts.entry(word.to_string()).or_default() += 1;
    }
}

fn print(what: &str, counts: &Counts) {
    let words: Vec<String> = counts.iter().map(|(word, count)| format!("{word} {count}")).collect();
    println!("{what}: {}", words.join(", "));
}

impl Tally {
    /// An answer of 0, such as `partial 0`, tells of nothing that happened.
    fn take(&mut self, script: &[String], out: &str) {
        count(&mut self.asked, script.iter().map(String::as_str));
        count(&mut self.answered, out.lines().filter(|line| !line.ends_with(" 0")));
    }

    pub fn print(&self) {
        print(&format!("{} lines", self.asked.values().sum::<usize>()), &self.asked);
        print("answers that do not end with a 0", &self.answered);
    }
}

impl Comparison {
    pub fn new(command: Vec<String>) -> Self {
        Comparison { command, scribe: Scribe::new(), cases: Vec::new(), tally: Tally::default() }
    }

    /// A case, written by `write`. False at a difference, which is printed.
    pub fn case(&mut self, name: String, write: impl FnOnce(&mut Scribe)) -> bool {
        self.cases.push((name, self.scribe.script.len()));
        write(&mut self.scribe);
        let bytes: usize = self.scribe.script.iter().map(|line| line.len() + 1).sum();
        bytes < FULL || self.finish()
    }

    /// Asks the panel for what was written. False at a difference, which is printed.
    pub fn finish(&mut self) -> bool {
        let scribe = std::mem::replace(&mut self.scribe, Scribe::new());
        let cases = std::mem::take(&mut self.cases);
        if ask(&self.command, &scribe.script) != scribe.panel.out {
            self.show_first(&scribe.script, &cases);
            return false;
        }
        self.tally.cases += cases.len();
        self.tally.take(&scribe.script, &scribe.panel.out);
        true
    }

    fn differs(&self, script: &[String]) -> bool {
        scribe::answer(script).is_ok_and(|rust| rust != ask(&self.command, script))
    }

    /// The first case that differs by itself; or the batch, if it takes several cases to differ.
    fn show_first(&self, script: &[String], cases: &[(String, usize)]) {
        let ends = cases.iter().skip(1).map(|(_, start)| *start).chain([script.len()]);
        for ((name, start), end) in cases.iter().zip(ends) {
            if self.differs(&script[*start..end]) {
                return self.show(name, self.shrink(script[*start..end].to_vec()));
            }
        }
        self.show("several cases together", self.shrink(script.to_vec()));
    }

    fn show(&self, name: &str, script: Vec<String>) {
        println!("difference: {name}\nthe script:\n{}", script.join("\n"));
        println!("the Rust says:\n{}", scribe::answer(&script).unwrap_or_default());
        println!("the panel says:\n{}", ask(&self.command, &script));
    }

    /// Drops lines, many at a time and then one by one, as long as the rest still differs.
    fn shrink(&self, script: Vec<String>) -> Vec<String> {
        let mut script = script;
        let mut part = script.len().div_ceil(2);
        loop {
            let shorter = self.without_parts(script.clone(), part);
            let is_done = part == 1 && shorter.len() == script.len();
            script = shorter;
            if is_done {
                return script;
            }
            part = part.div_ceil(2);
        }
    }

    fn without_parts(&self, script: Vec<String>, part: usize) -> Vec<String> {
        let mut script = script;
        let mut at = 0;
        while at < script.len() {
            let mut shorter = script.clone();
            shorter.drain(at..(at + part).min(script.len()));
            if self.differs(&shorter) {
                script = shorter;
            } else {
                at += part;
            }
        }
        script
    }
}
