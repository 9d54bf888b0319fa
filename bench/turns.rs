//! Locks and unlocks of one `Mutex`, by one thread and by four, and how long they take.
use std::sync::Mutex;
use std::thread;
use std::time::Instant;

fn count_up(lock: &Mutex<u64>, times: u64) {
    for _ in 0..times {
        let mut value = lock.lock().unwrap();
        *value = value.wrapping_add(1);
    }
}

fn main() {
    for (threads, times) in [(1u64, 20_000_000u64), (4, 4_000_000)] {
        let lock = Mutex::new(0);
        let start = Instant::now();
        thread::scope(|scope| {
            for _ in 0..threads {
                scope.spawn(|| count_up(&lock, times / threads));
            }
        });
        let nanos = start.elapsed().as_nanos();
        println!("{threads} {} {nanos}", lock.into_inner().unwrap());
    }
}
