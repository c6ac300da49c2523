//! Times a program and this one on the same input, side by side in one run: the least of many whole runs of the process.

use std::process::{Command, Stdio};
use std::time::{Duration, Instant};

fn once(program: &str, words: &[&str], path: &str) -> Duration {
    let input = std::fs::File::open(path).expect("an input");
    let start = Instant::now();
    let status = Command::new(program).args(words).stdin(input).stdout(Stdio::null()).stderr(Stdio::null()).status().expect("a program");
    assert!(status.success());
    start.elapsed()
}

/// Prints the least time of each in microseconds: of a program, and of the command of this one that does the same.
pub fn times(program: &str, command: &str, path: &str) {
    let me = std::env::current_exe().expect("my own path");
    let me = me.to_str().expect("a plain path");
    let (mut theirs, mut mine) = (Duration::MAX, Duration::MAX);
    let begun = Instant::now();
    let mut runs = 0;
    while runs < 5 || (runs < 400 && begun.elapsed() < Duration::from_secs(3)) {
        theirs = theirs.min(once(program, &[], path));
        mine = mine.min(once(me, &[command], path));
        runs += 1;
    }
    println!("{} {}", theirs.as_micros(), mine.as_micros());
}
