//! `prom`: the last counts of a report of flows that end by time, as text for Prometheus.
//!
//! Source: Prometheus' text format 0.0.4, which node_exporter's textfile collector reads. A file is written beside
//! itself and renamed, so who reads it finds the counts whole.

use crate::faults::Fault;
use crate::out::Out;
use crate::report::{another_mode, open, Heading};
use crate::tails::Input;
use crate::text::put_number;
use crate::timed::{read_timed, Record, TimedReader, ENDS};
use std::fs;
use std::io::BufRead;

/// Counters, what each counts, and their places in the counts.
const COUNTERS: [(&str, &str, usize); 4] = [
    ("flowdir_packets_total", "Packets that were read.", 0),
    ("flowdir_calls_total", "Packets of TCP and UDP that belong to flows.", 1),
    ("flowdir_passed_packets_total", "Packets that belong to no flow.", 2),
    ("flowdir_flows_total", "Flows that have ended.", 3),
];
const BY_REASON: &str = "flowdir_flow_ends_total";

struct Counts<'a> {
    path: Option<&'a str>,
    last: Vec<u64>,
}

/// Writes the counts: the last ones, or each into the file at this path, in place of those before.
pub fn put_counts(input: impl BufRead, path: Option<&str>) -> Result<(), Fault> {
    let (heading, mut lines) = open(input)?;
    let head = match heading {
        Heading::Timed(head) => head,
        _ => return Err(another_mode()),
    };
    let mut counts = Counts { path, last: Vec::new() };
    read_timed(&head, &mut lines, &mut counts)?;
    let mut out = Out::default();
    if path.is_none() {
        put_metrics(&counts.last, &mut out.text);
    }
    out.end()
}

fn put_metrics(counts: &[u64], out: &mut Vec<u8>) {
    for (name, help, place) in &COUNTERS {
        put_kind(name, help, out);
        put_value(name, "", counts[*place], out);
    }
    put_kind(BY_REASON, "Flows that have ended, by reason.", out);
    for ((reason, _), count) in ENDS.iter().zip(&counts[COUNTERS.len()..]) {
        put_value(BY_REASON, &format!("{{reason=\"{reason}\"}}"), *count, out);
    }
}

fn put_kind(name: &str, help: &str, out: &mut Vec<u8>) {
    out.extend_from_slice(format!("# HELP {name} {help}\n# TYPE {name} counter\n").as_bytes());
}

fn put_value(name: &str, label: &str, value: u64, out: &mut Vec<u8>) {
    out.extend_from_slice(format!("{name}{label} ").as_bytes());
    put_number(out, value);
    out.push(b'\n');
}

impl TimedReader for Counts<'_> {
    fn record(&mut self, _: &Record) -> Result<(), Fault> {
        Ok(())
    }

    fn counts(&mut self, counts: &[u64]) -> Result<(), Fault> {
        self.last = counts.to_vec();
        if let Some(path) = self.path {
            let mut text = Vec::new();
            put_metrics(counts, &mut text);
            let beside = format!("{path}.new");
            fs::write(&beside, &text).and_then(|()| fs::rename(&beside, path)).map_err(Fault::Write)?;
        }
        Ok(())
    }

    fn input(&mut self, _: &Input) -> Result<(), Fault> {
        Ok(())
    }
}
