//! The table for Rust: a file that a program takes as a module, beside `libflowdir.a`. Its types meet what `flowdir.h`
//! asks of a caller, but for the allocator: a seat and a reader borrow their table, so that they end before it is closed,
//! and belong to it.

use std::marker::PhantomData;
use std::os::raw::c_void;
use std::sync::atomic::{AtomicBool, Ordering};
use std::sync::{Mutex, MutexGuard};

/// A key: five words, whatever they mean.
#[repr(C)]
#[derive(Clone, Copy, Debug, Default, PartialEq, Eq, PartialOrd, Ord, Hash)]
pub struct Key(pub [u64; 5]);

/// A key with its value and the bytes that were counted of it, both below 2^61.
#[repr(C)]
#[derive(Clone, Copy, Debug, Default, PartialEq, Eq)]
pub struct Pair {
    pub key: Key,
    pub value: u64,
    pub bytes: u64,
}

/// The rows of one seat.
#[repr(C)]
#[derive(Clone, Copy, Debug, Default)]
pub struct Rows {
    pub op_rows: u64,
    pub bucket_rows: u64,
    pub bucket_words: u64,
    pub directory_rows: u64,
}

/// What a table is opened with.
#[repr(C)]
#[derive(Clone, Copy, Debug, Default)]
pub struct Options {
    pub seats: u32,
    pub items: u32,
    pub depth: u32,
    pub start: u32,
    pub seed: u64,
    pub rows: Rows,
}

#[repr(C)]
struct Handle(*mut c_void);

#[repr(C)]
#[derive(Clone, Copy, Default)]
struct RawReply {
    kind: u64,
    value: u64,
    steps: u64,
}

#[link(name = "flowdir", kind = "static")]
extern "C" {
    fn flowdir_bound(options: *const Options) -> u64;
    fn flowdir_rows_for(options: *const Options, updates: u32, rows: *mut Rows) -> u32;
    fn flowdir_rows_by(options: *const Options, updates: u32, keys: u64, rows: *mut Rows) -> u32;
    fn flowdir_memory(options: *const Options) -> u64;
    fn flowdir_open(options: *const Options, first: *const Pair, count: usize, table: *mut Handle) -> u32;
    fn flowdir_sit(table: *mut Handle, seat: *mut Handle) -> u32;
    fn flowdir_insert(seat: *mut Handle, key: *const Key, value: u64, reply: *mut RawReply) -> u32;
    fn flowdir_remove(seat: *mut Handle, key: *const Key, reply: *mut RawReply) -> u32;
    fn flowdir_tally(seat: *mut Handle, key: *const Key, bytes: u64, reply: *mut RawReply) -> u32;
    fn flowdir_count(seat: *mut Handle, key: *const Key, value: u64, bytes: u64, reply: *mut RawReply) -> u32;
    fn flowdir_put(seat: *mut Handle, key: *const Key, value: u64, reply: *mut RawReply) -> u32;
    fn flowdir_lookup(seat: *mut Handle, key: *const Key, reply: *mut RawReply) -> u32;
    fn flowdir_rise(table: *mut Handle, seat: *mut Handle) -> u32;
    fn flowdir_read(table: *mut Handle, reader: *mut Handle) -> u32;
    fn flowdir_peek(reader: *mut Handle, key: *const Key, reply: *mut RawReply) -> u32;
    fn flowdir_leave(reader: *mut Handle);
    fn flowdir_close(table: *mut Handle) -> u32;
    fn flowdir_list(table: *mut Handle, count: *mut usize) -> u32;
    fn flowdir_pair_at(table: *mut Handle, at: usize, pair: *mut Pair) -> u32;
    fn flowdir_reopen(options: *const Options, closed: *mut Handle, table: *mut Handle) -> u32;
    fn flowdir_free(table: *mut Handle);
    fn flowdir_lasting_bound(options: *const LastingOptions) -> u64;
    fn flowdir_lasting_memory(options: *const LastingOptions) -> u64;
    fn flowdir_lasting_open(o: *const LastingOptions, first: *const Pair, count: usize, table: *mut Handle) -> u32;
    fn flowdir_lasting_sit(table: *mut Handle, seat: *mut Handle) -> u32;
    fn flowdir_lasting_rise(table: *mut Handle, seat: *mut Handle) -> u32;
    fn flowdir_lasting_insert(seat: *mut Handle, key: *const Key, value: u64, reply: *mut RawReply) -> u32;
    fn flowdir_lasting_remove(seat: *mut Handle, key: *const Key, reply: *mut RawReply) -> u32;
    fn flowdir_lasting_tally(seat: *mut Handle, key: *const Key, bytes: u64, reply: *mut RawReply) -> u32;
    fn flowdir_lasting_count(
        seat: *mut Handle,
        key: *const Key,
        value: u64,
        bytes: u64,
        reply: *mut RawReply,
    ) -> u32;
    fn flowdir_lasting_put(seat: *mut Handle, key: *const Key, value: u64, reply: *mut RawReply) -> u32;
    fn flowdir_lasting_lookup(seat: *mut Handle, key: *const Key, reply: *mut RawReply) -> u32;
    fn flowdir_lasting_look_at(seat: *mut Handle, bucket: u64, pairs: *mut Pair, room: usize, count: *mut usize) -> u32;
    fn flowdir_lasting_at_rest(table: *mut Handle, bucket: u64, pairs: *mut Pair, room: usize, count: *mut usize) -> u32;
    fn flowdir_lasting_read(table: *mut Handle, reader: *mut Handle) -> u32;
    fn flowdir_lasting_peek(reader: *mut Handle, key: *const Key, tries: u64, reply: *mut RawReply) -> u32;
    fn flowdir_lasting_leave(reader: *mut Handle);
    fn flowdir_lasting_free(table: *mut Handle);
}

/// Why a call was not made; then nothing happened.
#[derive(Clone, Copy, Debug, PartialEq, Eq)]
pub enum Refused {
    /// Memory is wanting.
    Memory,
    /// A number is out of its range, a key stands twice, or a seat has made as many calls as it can count.
    Bad,
    /// More first pairs of one class than it has room for.
    NoRoom,
    /// The rows of the seat are used up.
    Full,
    /// No seat is left.
    Busy,
    /// Each try of a peek was disturbed.
    Again,
}

/// What a call was told.
#[derive(Clone, Copy, Debug, PartialEq, Eq)]
pub enum Reply {
    New,
    Old(u64),
    NoRoom,
    Gone(u64),
    Found(u64),
    Absent,
    /// The bytes that the key has now.
    Sum(u64),
}

fn done(status: u32) -> Result<(), Refused> {
    match status {
        0 => Ok(()),
        1 => Err(Refused::Memory),
        3 => Err(Refused::NoRoom),
        4 => Err(Refused::Full),
        5 => Err(Refused::Busy),
        6 => Err(Refused::Again),
        _ => Err(Refused::Bad),
    }
}

fn told(status: u32, reply: RawReply) -> Result<Reply, Refused> {
    done(status)?;
    Ok(match reply.kind {
        0 => Reply::New,
        1 => Reply::Old(reply.value),
        2 => Reply::NoRoom,
        3 => Reply::Gone(reply.value),
        4 => Reply::Found(reply.value),
        6 => Reply::Sum(reply.value),
        _ => Reply::Absent,
    })
}

impl Options {
    /// The same, with the rows that suffice each seat for so many updates.
    pub fn with_rows_for(mut self, updates: u32) -> Result<Options, Refused> {
        let mut rows = Rows::default();
        done(unsafe { flowdir_rows_for(&self, updates, &mut rows) })?;
        self.rows = rows;
        Ok(self)
    }

    /// The same, where no more than so many keys come.
    pub fn with_rows_by(mut self, updates: u32, keys: u64) -> Result<Options, Refused> {
        let mut rows = Rows::default();
        done(unsafe { flowdir_rows_by(&self, updates, keys, &mut rows) })?;
        self.rows = rows;
        Ok(self)
    }

    /// The bytes of the words that an opening takes, or 0 where the options are out of their ranges.
    pub fn memory(&self) -> u64 {
        unsafe { flowdir_memory(self) }
    }

    /// The most atomic steps of an update, or 0 where the options are out of their ranges.
    pub fn bound(&self) -> u64 {
        unsafe { flowdir_bound(self) }
    }
}

/// A table, and where its seats and readers come from.
pub struct Table {
    // Seats and readers come and go one at a time.
    handle: Mutex<Handle>,
    // Written and read by who has the handle's turn alone.
    is_closed: AtomicBool,
}

unsafe impl Send for Handle {}

impl Table {
    /// Opens a table that holds these pairs.
    pub fn open(options: &Options, first: &[Pair]) -> Result<Table, Refused> {
        let mut handle = Handle(std::ptr::null_mut());
        done(unsafe { flowdir_open(options, first.as_ptr(), first.len(), &mut handle) })?;
        Ok(Table::of(handle))
    }

    fn turn(&self) -> MutexGuard<'_, Handle> {
        self.handle.lock().unwrap_or_else(|poisoned| poisoned.into_inner())
    }

    /// Takes a seat that nobody has had.
    pub fn sit(&self) -> Result<Seat<'_>, Refused> {
        let mut handle = Handle(std::ptr::null_mut());
        done(unsafe { flowdir_sit(&mut *self.turn(), &mut handle) })?;
        Ok(Seat { handle, table: self })
    }

    /// A new reader.
    pub fn read(&self) -> Result<Reader<'_>, Refused> {
        let mut handle = Handle(std::ptr::null_mut());
        done(unsafe { flowdir_read(&mut *self.turn(), &mut handle) })?;
        Ok(Reader { handle, table: PhantomData })
    }

    /// Ends the table, and gives its pairs in the order of their keys. If it is refused, the table comes back, and can be
    /// closed again.
    pub fn close(self) -> Result<Vec<Pair>, (Refused, Table)> {
        self.end().map_err(|refused| (refused, self))
    }

    /// The same, and opens the next table with these pairs, in the words that this one keeps. If no next one is opened,
    /// this one comes back, closed, and can be closed and reopened again.
    pub fn reopen(self, options: &Options) -> Result<(Vec<Pair>, Table), (Refused, Table)> {
        let pairs = match self.end() {
            Ok(pairs) => pairs,
            Err(refused) => return Err((refused, self)),
        };
        let mut handle = Handle(std::ptr::null_mut());
        let status = unsafe { flowdir_reopen(options, &mut *self.turn(), &mut handle) };
        match done(status) {
            Ok(()) => Ok((pairs, Table::of(handle))),
            Err(refused) => Err((refused, self)),
        }
    }

    fn of(handle: Handle) -> Table {
        Table { handle: Mutex::new(handle), is_closed: AtomicBool::new(false) }
    }

    fn end(&self) -> Result<Vec<Pair>, Refused> {
        let mut handle = self.turn();
        if !self.is_closed.load(Ordering::Relaxed) {
            done(unsafe { flowdir_close(&mut *handle) })?;
            self.is_closed.store(true, Ordering::Relaxed);
        }
        let mut count = 0;
        done(unsafe { flowdir_list(&mut *handle, &mut count) })?;
        let mut pairs = vec![Pair::default(); count];
        for (at, pair) in pairs.iter_mut().enumerate() {
            done(unsafe { flowdir_pair_at(&mut *handle, at, pair) })?;
        }
        Ok(pairs)
    }
}

impl Drop for Table {
    fn drop(&mut self) {
        unsafe { flowdir_free(&mut *self.turn()) }
    }
}

/// One thread's place at a table. It goes back to its table when it ends.
pub struct Seat<'t> {
    handle: Handle,
    table: &'t Table,
}

impl Seat<'_> {
    pub fn insert(&mut self, key: &Key, value: u64) -> Result<Reply, Refused> {
        let mut reply = RawReply::default();
        told(unsafe { flowdir_insert(&mut self.handle, key, value, &mut reply) }, reply)
    }

    pub fn remove(&mut self, key: &Key) -> Result<Reply, Refused> {
        let mut reply = RawReply::default();
        told(unsafe { flowdir_remove(&mut self.handle, key, &mut reply) }, reply)
    }

    /// Adds bytes to the key's, where it is there.
    pub fn tally(&mut self, key: &Key, bytes: u64) -> Result<Reply, Refused> {
        let mut reply = RawReply::default();
        told(unsafe { flowdir_tally(&mut self.handle, key, bytes, &mut reply) }, reply)
    }

    /// Adds bytes to the key's, or inserts the key with this value and these bytes.
    pub fn count(&mut self, key: &Key, value: u64, bytes: u64) -> Result<Reply, Refused> {
        let mut reply = RawReply::default();
        told(unsafe { flowdir_count(&mut self.handle, key, value, bytes, &mut reply) }, reply)
    }

    /// Gives the key this value, whether it is there or not.
    pub fn put(&mut self, key: &Key, value: u64) -> Result<Reply, Refused> {
        let mut reply = RawReply::default();
        told(unsafe { flowdir_put(&mut self.handle, key, value, &mut reply) }, reply)
    }

    pub fn lookup(&mut self, key: &Key) -> Result<Reply, Refused> {
        let mut reply = RawReply::default();
        told(unsafe { flowdir_lookup(&mut self.handle, key, &mut reply) }, reply)
    }
}

impl Drop for Seat<'_> {
    fn drop(&mut self) {
        // a seat's own table has a place for it
        let _ = unsafe { flowdir_rise(&mut *self.table.turn(), &mut self.handle) };
    }
}

/// One thread's view of a table, by loads alone.
pub struct Reader<'t> {
    handle: Handle,
    table: PhantomData<&'t Table>,
}

impl Reader<'_> {
    pub fn peek(&mut self, key: &Key) -> Option<u64> {
        let mut reply = RawReply::default();
        match told(unsafe { flowdir_peek(&mut self.handle, key, &mut reply) }, reply) {
            Ok(Reply::Found(value)) => Some(value),
            _ => None,
        }
    }
}

impl Drop for Reader<'_> {
    fn drop(&mut self) {
        unsafe { flowdir_leave(&mut self.handle) }
    }
}

/// What a table that lasts is opened with.
#[repr(C)]
#[derive(Clone, Copy, Debug, Default)]
pub struct LastingOptions {
    pub seats: u32,
    pub items: u32,
    pub depth: u32,
    pub seed: u64,
}

impl LastingOptions {
    /// The bytes of the words of such a table, or 0 where the options are out of their ranges.
    pub fn memory(&self) -> u64 {
        unsafe { flowdir_lasting_memory(self) }
    }

    /// The most atomic steps of an update, or 0 where the options are out of their ranges.
    pub fn bound(&self) -> u64 {
        unsafe { flowdir_lasting_bound(self) }
    }
}

/// A table that lasts, and where its seats and readers come from.
pub struct LastingTable {
    // Seats and readers come and go one at a time.
    handle: Mutex<Handle>,
}

impl LastingTable {
    /// Opens a table that holds these pairs.
    pub fn open(options: &LastingOptions, first: &[Pair]) -> Result<LastingTable, Refused> {
        let mut handle = Handle(std::ptr::null_mut());
        done(unsafe { flowdir_lasting_open(options, first.as_ptr(), first.len(), &mut handle) })?;
        Ok(LastingTable { handle: Mutex::new(handle) })
    }

    fn turn(&self) -> MutexGuard<'_, Handle> {
        self.handle.lock().unwrap_or_else(|poisoned| poisoned.into_inner())
    }

    /// Takes a seat that nobody has now.
    pub fn sit(&self) -> Result<LastingSeat<'_>, Refused> {
        let mut handle = Handle(std::ptr::null_mut());
        done(unsafe { flowdir_lasting_sit(&mut *self.turn(), &mut handle) })?;
        Ok(LastingSeat { handle, table: self })
    }

    /// A new reader.
    pub fn read(&self) -> Result<LastingReader<'_>, Refused> {
        let mut handle = Handle(std::ptr::null_mut());
        done(unsafe { flowdir_lasting_read(&mut *self.turn(), &mut handle) })?;
        Ok(LastingReader { handle, table: PhantomData })
    }

    /// The pairs of one bucket, while no seat is out. The vector takes memory.
    pub fn at_rest(&self, bucket: u64) -> Result<Vec<Pair>, Refused> {
        let (mut pairs, mut count) = (vec![Pair::default(); 16], 0);
        let handle = &mut *self.turn();
        done(unsafe { flowdir_lasting_at_rest(handle, bucket, pairs.as_mut_ptr(), pairs.len(), &mut count) })?;
        pairs.truncate(count);
        Ok(pairs)
    }
}

impl Drop for LastingTable {
    fn drop(&mut self) {
        unsafe { flowdir_lasting_free(&mut *self.turn()) }
    }
}

/// One thread's place at a lasting table. It goes back to its table when it ends, and can be taken again.
pub struct LastingSeat<'t> {
    handle: Handle,
    table: &'t LastingTable,
}

impl LastingSeat<'_> {
    pub fn insert(&mut self, key: &Key, value: u64) -> Result<Reply, Refused> {
        let mut reply = RawReply::default();
        told(unsafe { flowdir_lasting_insert(&mut self.handle, key, value, &mut reply) }, reply)
    }

    pub fn remove(&mut self, key: &Key) -> Result<Reply, Refused> {
        let mut reply = RawReply::default();
        told(unsafe { flowdir_lasting_remove(&mut self.handle, key, &mut reply) }, reply)
    }

    /// Adds bytes to the key's, where it is there.
    pub fn tally(&mut self, key: &Key, bytes: u64) -> Result<Reply, Refused> {
        let mut reply = RawReply::default();
        told(unsafe { flowdir_lasting_tally(&mut self.handle, key, bytes, &mut reply) }, reply)
    }

    /// Adds bytes to the key's, or inserts the key with this value and these bytes.
    pub fn count(&mut self, key: &Key, value: u64, bytes: u64) -> Result<Reply, Refused> {
        let mut reply = RawReply::default();
        told(unsafe { flowdir_lasting_count(&mut self.handle, key, value, bytes, &mut reply) }, reply)
    }

    /// Gives the key this value, whether it is there or not.
    pub fn put(&mut self, key: &Key, value: u64) -> Result<Reply, Refused> {
        let mut reply = RawReply::default();
        told(unsafe { flowdir_lasting_put(&mut self.handle, key, value, &mut reply) }, reply)
    }

    pub fn lookup(&mut self, key: &Key) -> Result<Reply, Refused> {
        let mut reply = RawReply::default();
        told(unsafe { flowdir_lasting_lookup(&mut self.handle, key, &mut reply) }, reply)
    }

    /// The pairs of one bucket, at one moment of the call, in no order. The vector takes memory.
    pub fn look_at(&mut self, bucket: u64) -> Result<Vec<Pair>, Refused> {
        let (mut pairs, mut count) = (vec![Pair::default(); 16], 0);
        let handle = &mut self.handle;
        done(unsafe { flowdir_lasting_look_at(handle, bucket, pairs.as_mut_ptr(), pairs.len(), &mut count) })?;
        pairs.truncate(count);
        Ok(pairs)
    }
}

impl Drop for LastingSeat<'_> {
    fn drop(&mut self) {
        // a seat's own table has a place for it
        let _ = unsafe { flowdir_lasting_rise(&mut *self.table.turn(), &mut self.handle) };
    }
}

/// One thread's view of a lasting table, by loads alone.
pub struct LastingReader<'t> {
    handle: Handle,
    table: PhantomData<&'t LastingTable>,
}

impl LastingReader<'_> {
    /// `Found` or `Absent`, or `Refused::Again` if each of so many tries was disturbed.
    pub fn peek(&mut self, key: &Key, tries: u64) -> Result<Reply, Refused> {
        let mut reply = RawReply::default();
        told(unsafe { flowdir_lasting_peek(&mut self.handle, key, tries, &mut reply) }, reply)
    }
}

impl Drop for LastingReader<'_> {
    fn drop(&mut self) {
        unsafe { flowdir_lasting_leave(&mut self.handle) }
    }
}
