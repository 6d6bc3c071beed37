//! Threads that enter a lock of the standard library, to be compared with.
//!
//! THREADS ENTERS STEPS: each thread enters so often, with so many steps of its own between. It writes how many entries
//! there are then, and on standard error how many nanoseconds it took.
use std::sync::Mutex;
use std::thread;
use std::time::Instant;

// Both fields are written, and no more.
#[allow(dead_code)]
struct Entry {
    maker: u32,
    number: u32,
}

// Steps that can't be left out or taken together.
fn own_work(mut state: u64, steps: u32) -> u64 {
    for _ in 0..steps {
        state ^= state << 13;
        state ^= state >> 7;
        state ^= state << 17;
    }
    state
}

fn work(lock: &Mutex<Vec<Entry>>, enters: u32, steps: u32, maker: u32) {
    let mut state = 88_172_645_463_325_252u64;
    for _ in 0..enters {
        state = own_work(state, steps);
        lock.lock().unwrap().push(Entry {
            maker,
            number: (state & 0xffff_ffff) as u32,
        });
    }
}

fn main() {
    let words: Vec<u32> = std::env::args().skip(1).map(|word| word.parse().unwrap()).collect();
    let [threads, enters, steps] = words[..] else {
        panic!("THREADS ENTERS STEPS")
    };
    let lock = Mutex::new(Vec::with_capacity(threads as usize * enters as usize));
    let start = Instant::now();
    thread::scope(|scope| {
        for maker in 1..threads {
            let lock = &lock;
            scope.spawn(move || work(lock, enters, steps, maker));
        }
        work(&lock, enters, steps, 0);
    });
    let took = start.elapsed().as_nanos();
    let entries = lock.into_inner().unwrap();
    std::hint::black_box(&entries);
    eprintln!("{took}");
    println!("{} entries", entries.len());
}
