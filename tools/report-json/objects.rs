//! `json`: a report of any mode as an object a line.

use crate::adds::{read_adds, AddBatch, AddReader, TotalsTail};
use crate::blocks::{read_blocks, Block, BlockReader};
use crate::faults::Fault;
use crate::fields::{tell_call, tell_head, tell_session, tell_tail};
use crate::fields::{tell_add, tell_order, tell_total, tell_totals_head, tell_totals_tail};
use crate::fields::{tell_block, tell_flows_end, tell_flows_head, tell_left};
use crate::lines::{Session, A_LINE};
use crate::out::Out;
use crate::report::{open, read_calls, Entry, Heading, Reader};
use crate::tails::{Input, Tail};
use crate::timed::{read_timed, Record, TimedReader};
use crate::timed_fields::{tell_counts, tell_record, tell_timed_head};
use std::io::BufRead;

#[derive(Default)]
struct Objects {
    out: Out,
}

pub fn put_objects(input: impl BufRead) -> Result<(), Fault> {
    let (heading, mut lines) = open(input)?;
    let mut objects = Objects::default();
    match heading {
        Heading::Calls(head) => {
            objects.out.object(|json| tell_head(&head, json))?;
            read_calls(head.seats, &mut lines, &mut objects)?;
        }
        Heading::Blocks(head) => {
            objects.out.object(|json| tell_flows_head(&head, json))?;
            read_blocks(&mut lines, &mut objects)?;
        }
        Heading::Adds(head) => {
            objects.out.object(|json| tell_totals_head(&head, json))?;
            read_adds(head.seats, &mut lines, &mut objects)?;
        }
        Heading::Timed(head) => {
            objects.out.object(|json| tell_timed_head(&head, json))?;
            objects.out.end()?;
            read_timed(&head, &mut lines, &mut objects)?;
        }
    }
    objects.out.end()
}

impl Reader for Objects {
    fn batch(&mut self, entries: &[Entry]) -> Result<(), Fault> {
        entries.iter().try_for_each(|it| self.out.object(|json| tell_call(&it.call, it.batch, it.place, json)))
    }

    fn session(&mut self, session: &Session) -> Result<(), Fault> {
        self.out.object(|json| tell_session(session, json))
    }

    fn tail(&mut self, tail: &Tail) -> Result<(), Fault> {
        self.out.object(|json| tell_tail(tail, json))
    }
}

impl BlockReader for Objects {
    /// A block is written when it is read, since the next one may be long in coming.
    fn block(&mut self, block: Block) -> Result<(), Fault> {
        self.out.object(|json| tell_block(&block, json))?;
        block.sessions.iter().try_for_each(|it| self.out.object(|json| tell_left(block.at, it, json)))?;
        self.out.end()
    }

    fn input(&mut self, input: &Input) -> Result<(), Fault> {
        self.out.object(|json| tell_flows_end(input, json))
    }
}

/// Each line is written when it is read, since the next one may be long in coming.
impl TimedReader for Objects {
    fn record(&mut self, record: &Record) -> Result<(), Fault> {
        self.out.object(|json| tell_record(record, json))?;
        self.out.end()
    }

    fn counts(&mut self, counts: &[u64]) -> Result<(), Fault> {
        self.out.object(|json| tell_counts(counts, json))?;
        self.out.end()
    }

    fn input(&mut self, input: &Input) -> Result<(), Fault> {
        self.out.object(|json| tell_flows_end(input, json))
    }
}

impl AddReader for Objects {
    fn batch(&mut self, batch: &AddBatch) -> Result<(), Fault> {
        batch.adds.iter().try_for_each(|it| self.out.object(|json| tell_add(&it.add, batch.number, json)))?;
        let mut orders = batch.order.chunks(A_LINE);
        orders.try_for_each(|it| self.out.object(|json| tell_order(it, batch.number, json)))
    }

    fn tail(&mut self, tail: &TotalsTail) -> Result<(), Fault> {
        tail.totals.iter().try_for_each(|it| self.out.object(|json| tell_total(it, json)))?;
        self.out.object(|json| tell_totals_tail(tail, json))
    }
}
