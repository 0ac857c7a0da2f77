//! `csv`: some lines of a report as the rows of a table.

use crate::adds::{read_adds, AddBatch, AddReader, TotalsTail};
use crate::blocks::{read_blocks, Block, BlockReader};
use crate::faults::Fault;
use crate::fields::{tell_add, tell_call, tell_left, tell_place, tell_session, tell_total, Row};
use crate::fields::{ADDS, CALLS, LEFT, SESSIONS, TOTALS};
use crate::lines::Session;
use crate::out::Out;
use crate::report::{another_mode, open, read_calls, Entry, Heading, Lines, Reader};
use crate::tails::{Input, Tail};
use crate::timed::{read_timed, Record, TimedReader};
use crate::timed_fields::{tell_record, RECORDS};
use std::io::BufRead;

/// Which lines are rows.
#[derive(Clone, Copy, PartialEq)]
pub enum Table {
    Calls,
    /// The sessions at the end: those of the last block, if there are blocks.
    Sessions,
    /// The sessions of each block.
    Left,
    Adds,
    Totals,
    /// The flows that have ended, of a report that tells each once.
    Records,
}

impl Table {
    fn columns(self) -> &'static [&'static str] {
        match self {
            Table::Calls => &CALLS,
            Table::Sessions => &SESSIONS,
            Table::Left => &LEFT,
            Table::Adds => &ADDS,
            Table::Totals => &TOTALS,
            Table::Records => &RECORDS,
        }
    }
}

struct Rows {
    out: Out,
    row: Row,
    table: Table,
    /// The last block so far, if its sessions alone are rows.
    last: Option<Block>,
}

/// Writes the table, if a report of its mode has one.
pub fn put_rows(input: impl BufRead, table: Table) -> Result<(), Fault> {
    let (heading, lines) = open(input)?;
    put_rows_of(heading, lines, table)
}

/// Writes the table of a report whose head line was read.
pub fn put_rows_of(heading: Heading, mut lines: Lines<impl BufRead>, table: Table) -> Result<(), Fault> {
    let mut rows = Rows { out: Out::default(), row: Row::new(table.columns()), table, last: None };
    rows.row.put_names(&mut rows.out.text);
    if table == Table::Records {
        rows.out.end()?;
    }
    match (heading, table) {
        (Heading::Calls(head), Table::Calls | Table::Sessions) => read_calls(head.seats, &mut lines, &mut rows)?,
        (Heading::Blocks(_), Table::Sessions | Table::Left) => read_blocks(&mut lines, &mut rows)?,
        (Heading::Adds(head), Table::Adds | Table::Totals) => read_adds(head.seats, &mut lines, &mut rows)?,
        (Heading::Timed(head), Table::Records) => read_timed(&head, &mut lines, &mut rows)?,
        _ => return Err(another_mode()),
    }
    rows.out.end()
}

impl Rows {
    fn row(&mut self, tell: impl FnOnce(&mut Row)) -> Result<(), Fault> {
        tell(&mut self.row);
        self.row.put(&mut self.out.text);
        self.out.pass()
    }

    fn sessions(&mut self, block: &Block) -> Result<(), Fault> {
        block.sessions.iter().try_for_each(|it| self.row(|row| tell_left(block.at, it, row)))
    }
}

impl Reader for Rows {
    fn batch(&mut self, entries: &[Entry]) -> Result<(), Fault> {
        if self.table != Table::Calls {
            return Ok(());
        }
        entries.iter().try_for_each(|it| self.row(|row| tell_call(&it.call, it.batch, it.place, row)))
    }

    fn session(&mut self, session: &Session) -> Result<(), Fault> {
        if self.table != Table::Sessions {
            return Ok(());
        }
        self.row(|row| tell_session(session, row))
    }

    fn tail(&mut self, _: &Tail) -> Result<(), Fault> {
        Ok(())
    }
}

impl BlockReader for Rows {
    fn block(&mut self, block: Block) -> Result<(), Fault> {
        if self.table == Table::Sessions {
            self.last = Some(block);
            return Ok(());
        }
        // (the next block may be long in coming)
        self.sessions(&block)?;
        self.out.end()
    }

    fn input(&mut self, _: &Input) -> Result<(), Fault> {
        let last = self.last.take();
        last.map_or(Ok(()), |block| self.sessions(&block))
    }
}

impl TimedReader for Rows {
    /// A row is written when its line is read, since the next one may be long in coming.
    fn record(&mut self, record: &Record) -> Result<(), Fault> {
        self.row(|row| tell_record(record, row))?;
        self.out.end()
    }

    fn counts(&mut self, _: &[u64]) -> Result<(), Fault> {
        Ok(())
    }

    fn input(&mut self, _: &Input) -> Result<(), Fault> {
        Ok(())
    }
}

impl AddReader for Rows {
    fn batch(&mut self, batch: &AddBatch) -> Result<(), Fault> {
        if self.table != Table::Adds {
            return Ok(());
        }
        batch.adds.iter().try_for_each(|it| {
            self.row(|row| {
                tell_add(&it.add, batch.number, row);
                tell_place(it.place, row);
            })
        })
    }

    fn tail(&mut self, tail: &TotalsTail) -> Result<(), Fault> {
        if self.table != Table::Totals {
            return Ok(());
        }
        tail.totals.iter().try_for_each(|it| self.row(|row| tell_total(it, row)))
    }
}
