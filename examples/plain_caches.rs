//! What `hpcaches` is measured beside (docs/TESTED.md, "Costs"): the same job in plain Rust, with a `RwLock` around a table of caches.
//!
//! `rustc -O examples/plain_caches.rs` makes it; `plain_caches WORKERS ITEMS ROUNDS` writes the items, their sum, and the share of the puts
//! that were made while the client that administers was in.
use std::collections::LinkedList;
use std::env;
use std::process::exit;
use std::sync::atomic::{AtomicU32, Ordering};
use std::sync::{Barrier, Mutex, RwLock};
use std::thread;

const CPUS: usize = 4;
const PUTS: u32 = 4;

struct Cache {
    is_open: bool,
    items: LinkedList<u32>,
    taken: Vec<u32>,
}

/// Readers of the lock put items; who writes opens and closes caches.
struct Table {
    caches: Vec<Mutex<Cache>>,
    list: LinkedList<u32>,
}

impl Table {
    fn new() -> Table {
        let shut = || Mutex::new(Cache { is_open: false, items: LinkedList::new(), taken: Vec::new() });
        Table { caches: (0..CPUS).map(|_| shut()).collect(), list: LinkedList::new() }
    }

    fn open(&mut self, cpu: usize) {
        self.caches[cpu].get_mut().unwrap().is_open = true;
    }

    fn close(&mut self, cpu: usize) {
        let cache = self.caches[cpu].get_mut().unwrap();
        cache.is_open = false;
        self.list.append(&mut cache.items);
    }

    /// Puts an item into the first open cache from its own on, and takes one from there now and then.
    fn put(&self, item: u32) {
        for step in 0..CPUS {
            let mut cache = self.caches[(item as usize + step) % CPUS].lock().unwrap();
            if cache.is_open {
                cache.items.push_back(item);
                if item % PUTS == 0 {
                    let first = cache.items.pop_front();
                    cache.taken.extend(first);
                }
                return;
            }
        }
        unreachable!("some cache is open");
    }

    fn all(self) -> Vec<u32> {
        let mut items: Vec<u32> = self.list.into_iter().collect();
        for cache in self.caches {
            let Cache { items: mut own, taken, .. } = cache.into_inner().unwrap();
            items.extend(taken);
            items.extend(std::mem::take(&mut own));
        }
        items
    }
}

/// Each cache but the first closed and opened in each round, and then all of them at once.
fn administer(table: &RwLock<Table>, rounds: u32) {
    for _ in 0..rounds {
        (1..CPUS).for_each(|cpu| table.write().unwrap().close(cpu));
        (1..CPUS).for_each(|cpu| table.write().unwrap().open(cpu));
    }
    (1..CPUS).for_each(|cpu| table.write().unwrap().close(cpu));
    (1..CPUS).for_each(|cpu| table.write().unwrap().open(cpu));
}

fn main() {
    let words: Vec<u32> = env::args().skip(1).filter_map(|word| word.parse().ok()).collect();
    let [workers, items, rounds] = words[..] else {
        eprintln!("usage: plain_caches WORKERS ITEMS ROUNDS");
        exit(1);
    };
    let table = RwLock::new(Table::new());
    let (puts, while_in) = (AtomicU32::new(0), AtomicU32::new(0));
    let begin = Barrier::new(workers as usize + 1);
    thread::scope(|scope| {
        for worker in 0..workers {
            let (table, puts, begin) = (&table, &puts, &begin);
            scope.spawn(move || {
                begin.wait();
                for item in worker * items..(worker + 1) * items {
                    table.read().unwrap().put(item);
                    puts.fetch_add(1, Ordering::Relaxed);
                }
            });
        }
        (0..CPUS).for_each(|cpu| table.write().unwrap().open(cpu));
        begin.wait();
        administer(&table, rounds);
        while_in.store(puts.load(Ordering::Relaxed), Ordering::Relaxed);
    });
    let mut all = table.into_inner().unwrap().all();
    all.sort_unstable();
    assert!(all.iter().copied().eq(0..workers * items), "an item doesn't stand exactly once");
    let sum: u64 = all.iter().copied().map(u64::from).sum();
    println!("items {} sum {sum}, {} put while processors went down and up", all.len(), while_in.into_inner());
}
