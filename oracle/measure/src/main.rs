//! measure FOLDER: the Rust's times, for bench/run. A line each: a name, two times in seconds, what was answered. bench/rust.h
//! says what stands where.
mod appends;
mod clock;
mod logs;

use std::path::Path;

/// The bytes of bench/bench.c's checksum, and how many are timed at once.
const CHECKED: usize = 49_152;
const CHECKS: usize = 64;

fn print_checksum() {
    let mut bytes: Vec<u8> = (0..CHECKED).map(|i| (i * 31 + i / 256) as u8).collect();
    let crc = crc32fast::hash(&bytes);
    let taken = clock::measure(|| {
        for i in 0..CHECKS {
            std::hint::black_box(crc32fast::hash(&bytes));
            bytes[i] ^= 1;
        }
    });
    println!("checksum {:e} 0 0 0 0 {crc:08x}", taken / CHECKS as f64);
}

fn main() {
    let Some(folder) = std::env::args().nth(1) else {
        eprintln!("usage: measure FOLDER");
        std::process::exit(2);
    };
    print_checksum();
    appends::print();
    logs::print_all(Path::new(&folder));
}
