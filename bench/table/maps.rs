// Lookups of 256 flows by 1, 2 and 4 threads in a Rust map under a lock, and the longest call of 20,000 new keys.
use std::collections::HashMap;
use std::sync::atomic::{AtomicU64, Ordering::SeqCst};
use std::sync::{Mutex, RwLock};
use std::thread;
use std::time::Instant;

type Key = [u64; 5];

fn spread(mut z: u64) -> u64 {
    z = (z ^ (z >> 30)).wrapping_mul(0xbf58476d1ce4e5b9);
    z = (z ^ (z >> 27)).wrapping_mul(0x94d049bb133111eb);
    z ^ (z >> 31)
}

fn key(flow: u64) -> Key {
    let (port, protocol) = if flow < 64 { (53, 17) } else { (443, 6) };
    [0, 0x0a010000 + flow, 0, 0x0a020001, (40000 + flow) << 24 | port << 8 | protocol]
}

trait Map: Sync {
    fn insert(&self, key: Key, value: u64) -> Option<u64>;
    fn lookup(&self, key: &Key) -> Option<u64>;
}

impl Map for Mutex<HashMap<Key, u64>> {
    fn insert(&self, key: Key, value: u64) -> Option<u64> {
        self.lock().unwrap().insert(key, value)
    }
    fn lookup(&self, key: &Key) -> Option<u64> {
        self.lock().unwrap().get(key).copied()
    }
}

impl Map for RwLock<HashMap<Key, u64>> {
    fn insert(&self, key: Key, value: u64) -> Option<u64> {
        self.write().unwrap().insert(key, value)
    }
    fn lookup(&self, key: &Key) -> Option<u64> {
        self.read().unwrap().get(key).copied()
    }
}

fn see_all(arrivals: &AtomicU64, all: u64) {
    arrivals.fetch_add(1, SeqCst);
    while arrivals.load(SeqCst) < all {
        thread::yield_now();
    }
}

fn lookups<M: Map>(name: &str, map: &M, callers: u64, count: u64) {
    for flow in 0..256 {
        map.insert(key(flow), flow);
    }
    let arrivals = &AtomicU64::new(0);
    let origin = &Instant::now();
    let (from, to) = thread::scope(|scope| {
        let started: Vec<_> = (0..callers)
            .map(|caller| {
                let keys: Vec<Key> =
                    (0..2048).map(|i| key(spread(i + 2048 * caller) % 256)).collect();
                scope.spawn(move || {
                    let mut found = 0;
                    see_all(arrivals, callers);
                    let start = origin.elapsed().as_nanos();
                    for i in 0..count {
                        found += map.lookup(&keys[(i % 2048) as usize]).is_some() as u64;
                    }
                    assert_eq!(found, count);
                    (start, origin.elapsed().as_nanos())
                })
            })
            .collect();
        let spans: Vec<_> = started.into_iter().map(|thread| thread.join().unwrap()).collect();
        let from = spans.iter().map(|span| span.0).min().unwrap();
        (from, spans.iter().map(|span| span.1).max().unwrap())
    });
    println!("{name} {callers} {} {}", callers * count, to - from);
}

fn longest<M: Map>(name: &str, map: &M) {
    let mut most = 0;
    for i in 0..20_000 {
        let start = Instant::now();
        let held = map.insert([0, 0x0a010000 + i, 0, 0x0a020001, 0x9c400001bb06], i);
        most = most.max(start.elapsed().as_nanos());
        assert!(held.is_none());
    }
    println!("{name}-longest 1 1 {most}");
}

fn main() {
    for callers in [1, 2, 4] {
        lookups("mutex", &Mutex::new(HashMap::new()), callers, 100_000);
        lookups("rwlock", &RwLock::new(HashMap::new()), callers, 100_000);
    }
    longest("mutex", &Mutex::new(HashMap::new()));
}
