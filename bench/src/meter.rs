//! Times and instructions of a row's calls, the tables' lines, and the aims.

use crate::instructions;
use crate::timing::{Samples, Timed};
use std::vec::IntoIter;

/// What an aim is set for.
#[derive(Clone, Copy, PartialEq)]
pub enum Aims {
    Reads,
    DatedReads,
    Writes,
    Cmac,
    Panels,
    Blocks,
    Layout,
    Present,
    Conversions,
    None,
}

/// The most that the library is to take of the baseline's time.
const AIMS: [(Aims, &str, f64); 9] = [
    (Aims::Reads, "read", 0.70),
    (Aims::DatedReads, "dated read", 0.70),
    (Aims::Writes, "write", 0.85),
    (Aims::Cmac, "CMAC", 0.85),
    (Aims::Panels, "panel of 65536 bytes", 0.80),
    (Aims::Blocks, "block calls with 0xffff", 0.95),
    (Aims::Layout, "layout test", 1.00),
    (Aims::Present, "PRESENT's block, read and write", 1.10),
    (Aims::Conversions, "conversion", 1.00),
];

/// Counts in the process that valgrind watches, and times in the other.
pub struct Meter {
    counting: bool,
    counts: Option<IntoIter<f64>>,
    ratios: Vec<(Aims, f64)>,
}

impl Meter {
    pub fn counting() -> Meter {
        Meter {
            counting: true,
            counts: None,
            ratios: Vec::new(),
        }
    }

    pub fn timing() -> Meter {
        let counts = instructions::counted();
        if counts.is_none() {
            println!("valgrind isn't there, or didn't run: no instructions are counted.");
        }
        Meter {
            counting: false,
            counts: counts.map(Vec::into_iter),
            ratios: Vec::new(),
        }
    }

    pub fn row(&mut self, calls: Vec<Timed>) -> Row {
        self.row_of(1, calls)
    }

    /// A row of calls that each do the same so many times: figures are for one.
    pub fn row_of(&mut self, times: usize, mut calls: Vec<Timed>) -> Row {
        let times = times as f64;
        if self.counting {
            instructions::make(&mut calls);
            return Row {
                samples: None,
                counts: Vec::new(),
                times,
            };
        }
        let counts = match &mut self.counts {
            Some(counts) => counts.take(calls.len()).collect(),
            None => Vec::new(),
        };
        Row {
            samples: Some(Samples::of(calls)),
            counts,
            times,
        }
    }

    pub fn head(&self, title: &str, notes: &str, columns: &str) {
        if !self.counting {
            let rule = "---|".repeat(columns.split('|').count());
            println!("\n## {title}\n\n{notes}\n\n| {columns} |\n|{rule}");
        }
    }

    pub fn print(&self, cells: &[&str]) {
        if !self.counting {
            println!("| {} |", cells.join(" | "));
        }
    }

    pub fn aim(&mut self, aim: Aims, ratio: f64) {
        self.ratios.push((aim, ratio));
    }

    /// The aims, each with the ratios that it is set for.
    pub fn say_aims(&self) {
        self.head(
            "Aims",
            "\
An aim is met where the unrounded ratio of every row of its calls is at most that.",
            "Aim, of the baseline | Least ratio | Greatest | ",
        );
        for (aim, name, most) in AIMS {
            let ratios = self.ratios.iter().filter(|(a, _)| *a == aim);
            let (least, greatest) = ratios.fold((f64::MAX, 0.0_f64), |(low, high), (_, ratio)| {
                (low.min(*ratio), high.max(*ratio))
            });
            self.print(&[
                &format!("{name} at most {most:.2}"),
                &format!("{least:.2}"),
                &format!("{greatest:.2}"),
                if greatest <= most { "met" } else { "not met" },
            ]);
        }
    }
}

/// A row's times and counts, by the calls' places.
pub struct Row {
    samples: Option<Samples>,
    counts: Vec<f64>,
    times: f64,
}

impl Row {
    pub fn nanoseconds(&self, call: usize) -> f64 {
        let samples = self.samples.as_ref();
        samples.map_or(0.0, |s| s.nanoseconds(call) / self.times)
    }

    /// What a call takes more than another.
    pub fn more(&self, call: usize, than: usize) -> f64 {
        self.nanoseconds(call) - self.nanoseconds(than)
    }

    pub fn ratio(&self, call: usize, to: usize) -> f64 {
        self.samples.as_ref().map_or(0.0, |s| s.ratio(call, to))
    }

    pub fn ratio_cell(&self, call: usize, to: usize) -> String {
        format!("{:.2}", self.ratio(call, to))
    }

    /// A call's instructions, and their part of another's.
    pub fn instructions(&self, call: usize, to: usize) -> String {
        match (self.counts.get(call), self.counts.get(to)) {
            (Some(count), Some(other)) => {
                format!("{:.0} ({:.2})", count / self.times, count / other)
            }
            _ => "-".to_string(),
        }
    }

    /// Instructions that a call takes more than another, and their part of those that a
    /// third takes more than a fourth.
    pub fn more_instructions(&self, calls: [usize; 4]) -> String {
        match calls.map(|call| self.counts.get(call)) {
            [Some(call), Some(than), Some(other), Some(than_other)] => {
                let more = call - than;
                format!("{:.0} ({:.2})", more, more / (other - than_other))
            }
            _ => "-".to_string(),
        }
    }
}

/// Three digits that count, or as many as three decimals leave.
pub fn figure(value: f64) -> String {
    let decimals = match value {
        0.0..1.0 => 3,
        1.0..10.0 => 2,
        10.0..100.0 => 1,
        _ => 0,
    };
    format!("{value:.decimals$}")
}
