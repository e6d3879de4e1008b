//! Eight threads count together under a lock of the table, which stands behind a mutex. It writes how far they counted.
//!
//!     rustc -O threads.rs $(pkg-config --libs-only-L hirvodas-locks) -l hirvodas-locks
mod hirvodas_locks;

use hirvodas_locks::{BLOCKING, OK, Table, WAITS, named};
use std::sync::atomic::{AtomicU64, Ordering::Relaxed};
use std::sync::{Condvar, Mutex};
use std::thread;

const THREADS: u8 = 8;
const TURNS: u64 = 2000;

/// The table, and the news that somebody was granted something.
struct Shared {
    table: Mutex<Table>,
    granted: Condvar,
}

impl Shared {
    /// Runs some work while the job has the lock.
    fn with_lock(&self, job: u8, name: &str, work: impl FnOnce()) {
        let mut table = self.table.lock().unwrap();
        let code = table.enqueue(job, BLOCKING, 1, &[named(name)]);
        assert!(code == OK || code == WAITS, "code {code}");
        while table.waits(job) {
            table = self.granted.wait(table).unwrap();
        }
        drop(table);
        work();
        let mut table = self.table.lock().unwrap();
        table.release(job);
        if !table.grants().is_empty() {
            self.granted.notify_all();
        }
    }
}

fn main() {
    let shared = Shared { table: Mutex::new(Table::new().expect("memory")), granted: Condvar::new() };
    let sum = AtomicU64::new(0);
    thread::scope(|scope| {
        for job in 1..=THREADS {
            let (shared, sum) = (&shared, &sum);
            scope.spawn(move || {
                for _ in 0..TURNS {
                    // (read and written apart: without the lock some turns would be lost)
                    shared.with_lock(job, "SUM", || sum.store(sum.load(Relaxed) + 1, Relaxed));
                }
            });
        }
    });
    let left = shared.table.lock().unwrap().requests();
    println!("{} of {}, {left} requests left", sum.load(Relaxed), TURNS * u64::from(THREADS));
}
