//! Instructions of each call, counted by valgrind. They don't move with the
//! machine's load, as times do.
//!
//! The benchmark starts itself once more under callgrind. There every call of
//! every row is made a few times between two marks, and callgrind writes a file
//! of what it counted at each mark.

use crate::timing::Timed;
use std::env::{current_exe, temp_dir};
use std::fs;
use std::hint::black_box;
use std::path::Path;
use std::process::{id, Command, Stdio};

/// The argument with which the benchmark counts and times nothing.
pub const COUNT: &str = "count";

/// How often a call is made between two marks.
const TIMES: u64 = 8;

/// Callgrind knows it by its name.
#[no_mangle]
#[inline(never)]
extern "C" fn captions_bench_mark() {
    black_box(());
}

/// The calls of a row, in the process that is counted.
pub fn make(calls: &mut [Timed]) {
    for call in calls {
        captions_bench_mark();
        call(TIMES);
        captions_bench_mark();
    }
}

/// What each call of each row takes, in the rows' order; nothing where
/// valgrind isn't there.
pub fn counted() -> Option<Vec<f64>> {
    let folder = temp_dir().join(format!("captions-bench-{}", id()));
    fs::create_dir_all(&folder).ok()?;
    let counts = counted_in(&folder);
    let _ = fs::remove_dir_all(&folder);
    counts
}

fn counted_in(folder: &Path) -> Option<Vec<f64>> {
    let status = Command::new("valgrind")
        .args(["--tool=callgrind", "--dump-before=captions_bench_mark"])
        .arg(format!(
            "--callgrind-out-file={}",
            folder.join("out").display()
        ))
        .arg(current_exe().ok()?)
        .arg(COUNT)
        .stdout(Stdio::null())
        .stderr(Stdio::null())
        .status()
        .ok()?;
    if !status.success() {
        return None;
    }
    // Part 1 ends at the first mark, and every second part lies between calls.
    let mut counts = Vec::new();
    let mut part = 2;
    while let Ok(text) = fs::read_to_string(folder.join(format!("out.{part}"))) {
        let total = text
            .lines()
            .find_map(|line| line.strip_prefix("summary: "))?;
        counts.push(total.trim().parse::<f64>().ok()? / TIMES as f64);
        part += 2;
    }
    Some(counts)
}
