//! A report of `flowdir serve`, `play`, `flows` or `totals` as JSON lines or as a table, and JSON lines back as the
//! report.
//!
//! Outside of the proof. What it makes needs no trust: `report-json text` gives the report back byte for byte, and
//! `flowdir check` judges one of `serve` or `play`. docs/FORMATS.md has the fields.

mod adds;
mod blocks;
mod capture;
mod faults;
mod fields;
mod flows;
mod heads;
mod json;
mod kept;
mod kept_adds;
mod kept_blocks;
mod kept_calls;
mod kept_timed;
mod key;
mod lines;
mod objects;
mod out;
mod prom;
mod report;
mod rows;
mod tails;
mod text;
mod timed;
mod timed_fields;

use faults::Fault;
use fields::{Fields, Row};
use flows::Flows;
use objects::put_objects;
use out::{Out, PIECE};
use prom::put_counts;
use report::{open, read_calls, Heading, Lines};
use rows::{put_rows, put_rows_of, Table};
use std::io::{self, BufReader, ErrorKind};
use std::process::ExitCode;

/// The flows of a report as rows. A report that tells each when it has ended needs no capture.
fn put_flow_rows(input: impl io::BufRead) -> Result<(), Fault> {
    let (heading, lines) = open(input)?;
    if matches!(heading, Heading::Timed(_)) {
        return put_rows_of(heading, lines, Table::Records);
    }
    join_flows(heading, lines, None, true)
}

/// The flows of a report, joined with the packets of a capture if there is one, as objects or as rows.
fn put_flows(input: impl io::BufRead, path: Option<&str>, is_table: bool) -> Result<(), Fault> {
    let (heading, lines) = open(input)?;
    join_flows(heading, lines, path, is_table)
}

fn join_flows(
    heading: Heading,
    mut lines: Lines<impl io::BufRead>,
    path: Option<&str>,
    is_table: bool,
) -> Result<(), Fault> {
    let mut flows = Flows::new(path)?;
    read_calls(heading.of_calls()?.seats, &mut lines, &mut flows)?;
    let mut out = Out::default();
    let mut row = Row::new(&flows::COLUMNS);
    if is_table {
        row.put_names(&mut out.text);
    }
    for flow in flows.all() {
        if is_table {
            flow.tell(&mut row);
            row.put(&mut out.text);
            out.pass()?;
        } else {
            out.object(|json| {
                json.text("type", b"flow");
                flow.tell(json);
            })?;
        }
    }
    out.end()
}

/// The report of these JSON lines.
fn put_text(input: impl io::BufRead) -> Result<(), Fault> {
    let mut out = Out::default();
    kept::read_kept(input, &mut |text| {
        out.text.append(text);
        out.pass()
    })?;
    out.end()
}

fn run(words: &[String]) -> Result<(), Fault> {
    let input = BufReader::with_capacity(PIECE, io::stdin());
    let words: Vec<&str> = words.iter().map(String::as_str).collect();
    match words[..] {
        ["json"] => put_objects(input),
        ["text"] => put_text(input),
        ["csv", "calls"] => put_rows(input, Table::Calls),
        ["csv", "sessions"] => put_rows(input, Table::Sessions),
        ["csv", "sessions", "all"] => put_rows(input, Table::Left),
        ["csv", "adds"] => put_rows(input, Table::Adds),
        ["csv", "totals"] => put_rows(input, Table::Totals),
        ["csv", "flows"] => put_flow_rows(input),
        ["csv", "flows", path] => put_flows(input, Some(path), true),
        ["flows"] => put_flows(input, None, false),
        ["flows", path] => put_flows(input, Some(path), false),
        ["prom"] => put_counts(input, None),
        ["prom", path] => put_counts(input, Some(path)),
        _ => Err(Fault::Usage),
    }
}

fn main() -> ExitCode {
    let words: Vec<String> = std::env::args().skip(1).collect();
    match run(&words) {
        Ok(()) => ExitCode::SUCCESS,
        Err(fault) => {
            // (whoever closed the pipe wants no more)
            if !matches!(&fault, Fault::Write(why) if why.kind() == ErrorKind::BrokenPipe) {
                eprintln!("report-json: {}", fault.complaint());
            }
            ExitCode::from(fault.status())
        }
    }
}
