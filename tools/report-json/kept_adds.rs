//! JSON lines of a report of `totals`, as its text.
//!
//! The adds of a batch may come in any order: their packets tell how the report had them. Its order lines come behind.

use crate::adds::{Add, AddBatch, Placed, Total, TotalsHead, ADD_STEPS, CLASSES};
use crate::fields::FRAME;
use crate::json::Object;
use crate::kept::{input_of, numbers_of, seats_of, seen_of, NONE, OUT_OF_TURN};
use crate::lines::{put_orders, A_LINE, MOST};
use crate::tails::put_numbers;

/// The report of the objects so far.
pub struct KeptAdds {
    seats: u64,
    batch: AddBatch,
    /// How many totals there were.
    totals: usize,
    pub is_ended: bool,
}

impl KeptAdds {
    /// Takes the head, and puts its line.
    pub fn begin(object: &Object<'_>, text: &mut Vec<u8>) -> Option<Self> {
        let head = TotalsHead { seats: seats_of(object)?, batch: object.optional("batch")? };
        head.put(text);
        Some(KeptAdds { seats: head.seats, batch: AddBatch::default(), totals: 0, is_ended: false })
    }

    /// Takes the next object, which is of this kind; the fault is a text.
    pub fn take(&mut self, kind: &str, object: &Object<'_>, text: &mut Vec<u8>) -> Result<(), &'static str> {
        let are_adds_over = self.totals > 0;
        let are_totals_over = self.totals == CLASSES.len();
        match kind {
            "add" if !are_adds_over => self.take_add(object, text),
            "order" if !are_adds_over => self.take_order(object),
            "total" if !are_totals_over => self.take_total(object, text),
            "end" if are_totals_over && !self.is_ended => {
                let (input, steps) = (input_of(object).ok_or(NONE)?, numbers_of(object, &ADD_STEPS).ok_or(NONE)?);
                input.put(text);
                put_numbers(text, &ADD_STEPS, &steps);
                self.is_ended = true;
                Ok(())
            }
            "head" | "add" | "order" | "total" | "end" => Err(OUT_OF_TURN),
            _ => Err(NONE),
        }
    }

    fn take_add(&mut self, object: &Object<'_>, text: &mut Vec<u8>) -> Result<(), &'static str> {
        let add = add_of(object, self.seats).ok_or(NONE)?;
        let number = object.number("batch", u64::MAX).ok_or(NONE)?;
        if self.batch.is_begun() && number != self.batch.number {
            if number < self.batch.number {
                return Err("an add of an earlier batch");
            }
            self.put_batch(text)?;
        }
        if self.batch.is_ordered() {
            return Err(OUT_OF_TURN);
        }
        self.batch.number = number;
        self.batch.adds.push(Placed { add, place: None });
        Ok(())
    }

    fn take_order(&mut self, object: &Object<'_>) -> Result<(), &'static str> {
        let number = object.number("batch", u64::MAX).ok_or(NONE)?;
        let packets = packets_of(object).ok_or(NONE)?;
        if number != self.batch.number {
            return Err("an order of another batch");
        }
        if !self.batch.is_ordered() {
            self.batch.adds.sort_by_key(|it| it.add.packet);
        }
        self.batch.order(&packets).ok_or("an order that is not that of the adds before it")
    }

    fn take_total(&mut self, object: &Object<'_>, text: &mut Vec<u8>) -> Result<(), &'static str> {
        self.put_batch(text)?;
        let total = total_of(object).ok_or(NONE)?;
        if total.class != CLASSES[self.totals].0 {
            return Err(OUT_OF_TURN);
        }
        total.put(text);
        self.totals += 1;
        Ok(())
    }

    /// Puts the lines of the batch, and forgets it.
    fn put_batch(&mut self, text: &mut Vec<u8>) -> Result<(), &'static str> {
        if !self.batch.is_whole() {
            return Err("an add stands above that is not in the order before this object");
        }
        for placed in &self.batch.adds {
            placed.add.put(text);
        }
        put_orders(text, &self.batch.order);
        self.batch.empty();
        Ok(())
    }
}

fn add_of(object: &Object, seats: u64) -> Option<Add> {
    Some(Add {
        packet: object.number(FRAME, MOST)? as u32,
        seat: object.number("seat", seats - 1)?,
        class: object.one_of("class", &CLASSES)?,
        length: object.number("length", u64::MAX)?,
        count: object.number("count", u64::MAX)?,
        steps: object.number("steps", u64::MAX)?,
        seen: seen_of(object, seats)?,
    })
}

fn packets_of(object: &Object) -> Option<Vec<u32>> {
    let told = object.list("order").filter(|told| (1..=A_LINE).contains(&told.len()))?;
    told.iter().map(|packet| u32::try_from(*packet).ok()).collect()
}

fn total_of(object: &Object) -> Option<Total> {
    Some(Total {
        class: object.one_of("class", &CLASSES)?,
        count: object.number("count", u64::MAX)?,
        bytes: object.number("bytes", u64::MAX)?,
    })
}
