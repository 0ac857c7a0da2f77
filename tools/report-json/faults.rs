//! Why a run ends before its end: what is said on standard error, and the status.

use std::io;

pub enum Fault {
    Usage,
    /// A line that is none, counted from 1, and why.
    Line(u64, String),
    /// A capture that is none, or is not that of the report.
    Capture(String),
    Read(io::Error),
    Write(io::Error),
}

impl Fault {
    /// The statuses are those of `flowdir`: 2 for words, 3 for a read, 4 for a write, 5 for a fault of the input.
    pub fn status(&self) -> u8 {
        match self {
            Fault::Usage => 2,
            Fault::Read(_) => 3,
            Fault::Write(_) => 4,
            Fault::Line(..) | Fault::Capture(_) => 5,
        }
    }

    pub fn complaint(&self) -> String {
        match self {
            Fault::Usage => {
                let tables = "csv calls|sessions|adds|totals | csv sessions all | csv flows [CAPTURE]";
                format!("usage: report-json json | text | {tables} | flows [CAPTURE] | prom [FILE]")
            }
            Fault::Line(line, why) => format!("line {line}: {why}"),
            Fault::Capture(why) => format!("the capture: {why}"),
            Fault::Read(why) => format!("a read failed: {why}"),
            Fault::Write(why) => format!("a write failed: {why}"),
        }
    }
}

/// What a line is that is none.
pub fn bad(line: u64, why: &str) -> Fault {
    Fault::Line(line, why.to_string())
}
