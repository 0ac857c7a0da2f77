// The bare atomic steps of the calls of one seat on the made capture: a plain program works out beforehand where each
// step goes, and checks that each call has as many as the seat told; a plain loop then takes them.
use std::env::args;
use std::fs::read_to_string;
use std::sync::atomic::{AtomicU64, Ordering::SeqCst};
use std::time::Instant;

const ITEMS: usize = 8;
const DEPTH: u32 = 10;
const OP_WORDS: usize = 8;
const ITEM_WORDS: usize = 7;
const ROW: usize = 5 + ITEM_WORDS * ITEMS + 2;
// An update by one bucket try: its op row is stored and loaded, and the bucket's row is loaded and stored.
const TRY_STEPS: usize = 9 + 2 * OP_WORDS + 2 * ROW;

fn spread(mut z: u64) -> u64 {
    z = (z ^ (z >> 30)).wrapping_mul(0xbf58476d1ce4e5b9);
    z = (z ^ (z >> 27)).wrapping_mul(0x94d049bb133111eb);
    z ^ (z >> 31)
}

#[derive(Clone, Copy, PartialEq)]
enum Kind {
    Insert,
    Remove,
    Lookup,
}

// The call of this packet of the made capture of number 0, as its kind and the hash of its key.
fn call(packet: u64) -> (Kind, u64) {
    let r = spread(packet.wrapping_mul(0x9e3779b97f4a7c15));
    let flow = r % 256;
    let (port, protocol) = if flow < 64 { (53, 17) } else { (443, 6) };
    let kind = match (flow < 64, (r >> 16) % 8) {
        (true, _) | (_, 0 | 1) => Kind::Insert,
        (_, 2 | 3) => Kind::Remove,
        _ => Kind::Lookup,
    };
    let key = [0, 0x0a010000 + flow, 0, 0x0a020001, (40000 + flow) << 24 | port << 8 | protocol];
    (kind, key.iter().fold(0, |mixed, word| spread(mixed ^ word)))
}

// Runs of steps on words side by side, and what one bucket try and one lookup do.
enum Steps {
    Try { op: usize, depth: usize, place: usize, word: usize, old: usize, new: usize },
    Look { depth: usize, place: usize, word: usize, row: usize, count: usize },
    Loads(usize, usize),
    Stores(usize, usize),
    Exchange(usize, u64, u64),
}

struct Bucket {
    depth: u32,
    row: usize,
    items: Vec<u64>,
}

fn bits(hash: u64, depth: u32) -> usize {
    if depth == 0 { 0 } else { (hash >> (64 - depth)) as usize }
}

// The buckets that take a full one's place, in the order of their prefixes.
fn split(depth: u32, prefix: usize, items: Vec<u64>, out: &mut Vec<(u32, usize, Vec<u64>)>) {
    if items.len() <= ITEMS || depth == DEPTH {
        out.push((depth, prefix, items));
    } else {
        let (low, high) = items.into_iter().partition(|hash| bits(*hash, depth + 1) & 1 == 0);
        split(depth + 1, 2 * prefix, low, out);
        split(depth + 1, 2 * prefix + 1, high, out);
    }
}

struct Seat {
    bucket_words: usize,
    op_rows: usize,
    bucket_rows: usize,
    directory_rows: usize,
    entries: Vec<usize>,
    depth: u32,
    root: usize,
    buckets: Vec<Bucket>,
    numbers: Vec<usize>,
    next_op: usize,
    next_row: usize,
    next_bucket: usize,
    next_directory: usize,
}

impl Seat {
    fn bucket_row(&self, row: usize) -> usize {
        self.bucket_rows + row * ROW
    }

    fn directory_row(&self, row: usize) -> usize {
        self.directory_rows + row * (2 + (1 << DEPTH))
    }

    // The steps of a call, and how many they are.
    fn steps(&mut self, kind: Kind, hash: u64, out: &mut Vec<Steps>) -> usize {
        let depth = self.directory_row(self.root);
        let place = depth + 2 + bits(hash, self.depth);
        let at = self.entries[bits(hash, self.depth)];
        let word = self.bucket_words + self.numbers[at];
        let old = self.bucket_row(self.buckets[at].row);
        if kind == Kind::Lookup {
            let count = self.buckets[at].items.len();
            out.push(Steps::Look { depth, place, word, row: old, count });
            return 7 + ITEM_WORDS * count;
        }
        let (op, row) = (self.op_rows + OP_WORDS * self.next_op, self.next_row);
        let new = self.bucket_row(row);
        self.next_op += 1;
        self.next_row += 1;
        self.buckets[at].row = row;
        out.push(Steps::Try { op, depth, place, word, old, new });
        let bucket = &mut self.buckets[at];
        let held = bucket.items.iter().position(|other| *other == hash);
        match (kind, held) {
            (Kind::Insert, None) if bucket.items.len() == ITEMS && bucket.depth < DEPTH => {
                return TRY_STEPS + self.change(at, hash, op, out);
            }
            (Kind::Insert, None) if bucket.items.len() < ITEMS => bucket.items.push(hash),
            (Kind::Remove, Some(held)) => drop(bucket.items.remove(held)),
            _ => {}
        }
        TRY_STEPS
    }

    // A try at the directory, where the seat's op is the only one and its bucket is frozen.
    fn change(&mut self, at: usize, hash: u64, op: usize, out: &mut Vec<Steps>) -> usize {
        let start = self.directory_row(self.root);
        let places = 1 << self.depth;
        out.push(Steps::Loads(0, 1));
        out.push(Steps::Loads(start, 1));
        out.push(Steps::Loads(start + 2, places));
        out.push(Steps::Loads(1, 1));
        out.push(Steps::Loads(op, OP_WORDS));
        out.push(Steps::Loads(self.bucket_words + self.numbers[at], 1));
        out.push(Steps::Loads(self.bucket_row(self.buckets[at].row), ROW));
        let mut steps = 2 + places + 1 + OP_WORDS + 1 + ROW;
        let mut items = self.buckets[at].items.clone();
        items.push(hash);
        let mut leaves = Vec::new();
        let depth = self.buckets[at].depth;
        let prefix = bits(hash, depth);
        split(depth, prefix, items, &mut leaves);
        let deepest = leaves.iter().map(|leaf| leaf.0).max().unwrap().max(self.depth);
        let grown = deepest - self.depth;
        self.entries = (0..1usize << deepest).map(|i| self.entries[i >> grown]).collect();
        self.depth = deepest;
        for (depth, prefix, mut items) in leaves {
            items.truncate(ITEMS);
            let first = prefix << (deepest - depth);
            let next = self.buckets.len();
            self.entries[first..first + (1 << (deepest - depth))].fill(next);
            out.push(Steps::Stores(self.bucket_words + self.next_bucket, 1));
            out.push(Steps::Stores(self.bucket_row(self.next_row), ROW));
            self.buckets.push(Bucket { depth, row: self.next_row, items });
            self.numbers.push(self.next_bucket);
            self.next_bucket += 1;
            self.next_row += 1;
            steps += 1 + ROW;
        }
        let new = self.directory_row(self.next_directory);
        out.push(Steps::Stores(new, 2 + (1 << deepest)));
        out.push(Steps::Exchange(0, self.root as u64, self.next_directory as u64));
        self.root = self.next_directory;
        self.next_directory += 1;
        steps + 2 + (1 << deepest) + 1
    }
}

// Takes the steps, all of them on words of the table.
#[inline(never)]
fn take(words: &[AtomicU64], calls: &[Steps]) -> u64 {
    let mut sum = 0u64;
    let load = |at: usize| words[at].load(SeqCst);
    for (number, steps) in calls.iter().enumerate() {
        match *steps {
            Steps::Try { op, depth, place, word, old, new } => {
                sum ^= load(2);
                words[op..op + OP_WORDS].iter().for_each(|word| word.store(number as u64, SeqCst));
                words[1].store(number as u64, SeqCst);
                sum ^= load(0) ^ load(depth) ^ load(place);
                let row = load(word);
                words[old..old + ROW].iter().for_each(|word| sum ^= word.load(SeqCst));
                sum ^= load(1);
                words[op..op + OP_WORDS].iter().for_each(|word| sum ^= word.load(SeqCst));
                words[new..new + ROW].iter().for_each(|word| word.store(number as u64, SeqCst));
                sum ^= words[word].compare_exchange(row, number as u64, SeqCst, SeqCst).is_ok() as u64;
                words[2].store(number as u64, SeqCst);
            }
            Steps::Look { depth, place, word, row, count } => {
                sum ^= load(2) ^ load(0) ^ load(depth) ^ load(place) ^ load(word) ^ load(row + 4);
                words[row + 5..row + 5 + ITEM_WORDS * count].iter().for_each(|word| sum ^= word.load(SeqCst));
                words[2].store(number as u64, SeqCst);
            }
            Steps::Loads(at, count) => words[at..at + count].iter().for_each(|word| sum ^= word.load(SeqCst)),
            Steps::Stores(at, count) => words[at..at + count].iter().for_each(|word| word.store(number as u64, SeqCst)),
            Steps::Exchange(at, old, new) => sum ^= words[at].compare_exchange(old, new, SeqCst, SeqCst).is_ok() as u64,
        }
    }
    sum
}

fn main() {
    // The steps of each call, as the seat told them.
    let told = read_to_string(args().nth(1).unwrap()).unwrap();
    let told: Vec<usize> = told.split_whitespace().map(|word| word.parse().unwrap()).collect();
    let calls = told.len();
    // As `automatic_rows` makes them.
    let leaves = 1 + DEPTH as usize;
    let twice = 2usize << DEPTH;
    let (op_rows, bucket_rows, bucket_words) = (calls, 2 * calls + twice + leaves, twice + leaves);
    let directory_rows = calls.min((1 << DEPTH) + 1);
    let first = 1 << DEPTH;
    let ops = 3 + first + bucket_words;
    let rows = ops + OP_WORDS * op_rows;
    let directories = rows + ROW * (first + bucket_rows);
    let count = directories + (2 + first) * (1 + directory_rows);
    let mut seat = Seat {
        bucket_words: 3,
        op_rows: ops,
        bucket_rows: rows,
        directory_rows: directories,
        entries: vec![0],
        depth: 0,
        root: 0,
        buckets: vec![Bucket { depth: 0, row: 0, items: vec![] }],
        numbers: vec![0],
        next_op: 0,
        next_row: first,
        next_bucket: first,
        next_directory: 1,
    };
    let mut steps = Vec::new();
    for (packet, told) in told.iter().enumerate() {
        let (kind, hash) = call(packet as u64 + 1);
        let made = seat.steps(kind, hash, &mut steps);
        assert_eq!(made, *told, "the steps of call {}", packet + 1);
    }
    let total: usize = told.iter().sum();
    let mut sum = 0;
    for _ in 0..60 {
        let words: Vec<AtomicU64> = (0..count).map(|_| AtomicU64::new(0)).collect();
        let start = Instant::now();
        sum ^= take(&words, &steps);
        println!("bare 1 {calls} {} {total}", start.elapsed().as_nanos());
    }
    assert!(sum < u64::MAX);
}
