//! What bench_panel should print, by the unchanged Rust; and the two held against each other.
//!
//!     panel answer < SCRIPT           the Rust's answers to a script
//!     panel case SEED                 the script of a random case
//!     panel sample                    the script of the fixed list: the shorter ones of the first cases
//!     panel random N SEED COMMAND..   N random cases, with seeds from SEED on, against the panel program
//!     panel exhaustive COMMAND..      small logs with every cut and every byte changed, against the panel program
//!     panel outside                   what the Rust does outside document 01's domain
mod cases;
mod compare;
mod exhaustive;
mod hex;
mod lists;
mod log;
mod names;
mod outside;
mod panel;
mod parts;
mod payloads;
mod places;
mod random;
mod recovery;
mod scribe;
mod walk;
mod words;

use std::io::Read;
use std::process::ExitCode;

use compare::Comparison;
use scribe::Scribe;

/// Cases between two progress lines.
const PROGRESS: u64 = 5_000;

/// The fixed list: the cases of the seeds up to this, whose scripts are at most so many bytes, with a table and a checkpoint.
const SAMPLED: u64 = 600;
const SHORT: usize = 2_500;

fn answer() -> ExitCode {
    let mut text = String::new();
    std::io::stdin().read_to_string(&mut text).expect("a script");
    let script: Vec<String> = text.lines().map(String::from).collect();
    match scribe::answer(&script) {
        Ok(out) => {
            print!("{out}");
            ExitCode::SUCCESS
        }
        Err(why) => {
            eprintln!("outside the domain: {why}");
            ExitCode::FAILURE
        }
    }
}

fn written(seed: u64) -> Scribe {
    let mut scribe = Scribe::new();
    cases::write(&mut scribe, seed);
    scribe
}

fn sample() -> ExitCode {
    println!(
        "# The fixed list: random cases whose answers are the Rust's. Of the seeds 1 to {SAMPLED} those of at most {SHORT} bytes"
    );
    println!("# with a row of the table and a checkpoint among their answers. `oracle/differential sample` writes them, and");
    println!("# `oracle/differential answer` gives the Rust's answers.");
    for seed in 1..=SAMPLED {
        let case = written(seed);
        let text = case.script.join("\n");
        let out = &case.panel.out;
        if text.len() <= SHORT && out.contains("\nset ") && out.contains("\ncheckpoint ") {
            println!("# Seed {seed}.\n{text}");
        }
    }
    ExitCode::SUCCESS
}

fn random(n: u64, seed: u64, command: &[String]) -> ExitCode {
    let mut comparison = Comparison::new(command.to_vec());
    for k in 0..n {
        if !comparison.case(format!("seed {}", seed + k), |scribe| cases::write(scribe, seed + k)) {
            return ExitCode::FAILURE;
        }
        if (k + 1) % PROGRESS == 0 {
            eprintln!("{} of {n} cases", k + 1);
        }
    }
    finish(comparison, &format!("random cases, seeds {seed} to {}", seed + n - 1))
}

fn exhaustive(command: &[String]) -> ExitCode {
    let mut comparison = Comparison::new(command.to_vec());
    if !exhaustive::run(&mut comparison) {
        return ExitCode::FAILURE;
    }
    finish(comparison, "cases of small logs, every cut and every byte changed")
}

fn finish(mut comparison: Comparison, what: &str) -> ExitCode {
    if !comparison.finish() {
        return ExitCode::FAILURE;
    }
    println!("{} {what}: no difference", comparison.tally.cases);
    comparison.tally.print();
    ExitCode::SUCCESS
}

fn main() -> ExitCode {
    let words: Vec<String> = std::env::args().skip(1).collect();
    let number = |k: usize| words[k].parse::<u64>().expect("a number");
    match words.first().map(String::as_str) {
        Some("answer") => answer(),
        Some("case") if words.len() == 2 => {
            println!("{}", written(number(1)).script.join("\n"));
            ExitCode::SUCCESS
        }
        Some("sample") => sample(),
        Some("random") if words.len() > 3 && number(1) > 0 => random(number(1), number(2), &words[3..]),
        Some("exhaustive") if words.len() > 1 => exhaustive(&words[1..]),
        Some("outside") => {
            outside::run();
            ExitCode::SUCCESS
        }
        _ => {
            eprintln!("usage: panel answer | case SEED | sample | random N SEED COMMAND.. | exhaustive COMMAND.. | outside");
            ExitCode::FAILURE
        }
    }
}
