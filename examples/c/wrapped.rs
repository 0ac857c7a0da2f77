//! The table from Rust: four threads insert, one peeks, and what is left is what was inserted; with that the next one opens.

#[path = "../../include/flowdir.rs"]
#[allow(dead_code)]
mod flowdir;

use flowdir::{Key, LastingOptions, LastingTable, Options, Pair, Refused, Reply, Table};
use std::thread;

/// The same on a table that lasts, whose seats are taken again and again.
fn lasts() -> Result<(), Refused> {
    let options = LastingOptions { seats: 4, items: 16, depth: 4, seed: 7 };
    let first = Pair { key: Key([1, 2, 3, 4, 5]), value: 6, bytes: 0 };
    let table = LastingTable::open(&options, &[first])?;
    for _ in 0..3 {
        thread::scope(|scope| {
            for i in 0..4 {
                let mut seat = table.sit()?;
                scope.spawn(move || {
                    for n in 0..1000 {
                        assert!(seat.count(&Key([9, i, 0, 0, 0]), i, n).is_ok());
                    }
                    assert_eq!(seat.put(&first.key, 6), Ok(Reply::Old(6)));
                });
            }
            let mut reader = table.read()?;
            for _ in 0..1000 {
                assert!(matches!(reader.peek(&first.key, 4), Ok(Reply::Found(6)) | Err(Refused::Again)));
            }
            Ok::<(), Refused>(())
        })?;
    }
    let mut pairs = Vec::new();
    for bucket in 0..16 {
        pairs.extend(table.at_rest(bucket)?);
    }
    assert_eq!((pairs.len(), pairs.iter().map(|pair| pair.bytes).sum()), (5, 3 * 4 * 499_500));
    assert_eq!(table.sit()?.look_at(16), Err(Refused::Bad));
    assert_eq!(LastingOptions { depth: 13, ..options }.memory(), 0);
    Ok(())
}

fn main() -> Result<(), Refused> {
    lasts()?;
    let options = Options { seats: 4, items: 8, depth: 10, seed: 7, ..Options::default() };
    let options = options.with_rows_for(1000)?;
    let first = Pair { key: Key([1, 2, 3, 4, 5]), value: 6, bytes: 0 };
    let table = Table::open(&options, &[first])?;
    thread::scope(|scope| {
        for i in 0..4 {
            let mut seat = table.sit()?;
            scope.spawn(move || {
                for n in 0..100 {
                    assert_eq!(seat.insert(&Key([9, i, n, 0, 0]), n), Ok(Reply::New));
                }
                assert!(matches!(seat.tally(&first.key, 1500), Ok(Reply::Sum(_))));
                assert_eq!(seat.count(&Key([9, i, 100, 0, 0]), 7, 40), Ok(Reply::New));
                assert_eq!(seat.count(&Key([9, i, 100, 0, 0]), 8, 2), Ok(Reply::Sum(42)));
                assert_eq!(seat.put(&Key([9, i, 100, 0, 0]), i), Ok(Reply::Old(7)));
            });
        }
        let mut reader = table.read()?;
        for _ in 0..1000 {
            assert_eq!(reader.peek(&first.key), Some(6));
        }
        Ok::<(), Refused>(())
    })?;
    let (left, table) = table.reopen(&options).map_err(|(refused, _)| refused)?;
    assert_eq!((left.len(), left[0].bytes), (405, 6000));
    assert_eq!((left[404].key, left[404].value, left[404].bytes), (Key([9, 3, 100, 0, 0]), 3, 42));
    assert_eq!(table.read()?.peek(&Key([9, 3, 99, 0, 0])), Some(99));
    table.sit()?.lookup(&first.key)?;
    // three of its seats were never taken
    let (refused, table) = table.reopen(&Options { seats: 9, ..options }).err().expect("nine seats");
    assert_eq!(refused, Refused::Bad);
    assert_eq!(table.close().map_err(|(refused, _)| refused)?, left);
    assert_eq!(Options { seats: 9, ..options }.with_rows_for(1).err(), Some(Refused::Bad));
    Ok(())
}
