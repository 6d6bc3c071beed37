//! The reply cells of xa_cell by hand, with the same atomics: what bench/cell compares them with. It begins, fills, looks
//! at and takes from one cell as often as its word says, and writes the sum of the answers.
use std::cell::UnsafeCell;
use std::env;
use std::sync::atomic::{AtomicU64, Ordering::SeqCst};

const NUMBER: u64 = 4;
const FREE: u64 = 0;
const CANCELLED: u64 = 1;
const FILLED: u64 = 2;
const PENDING: u64 = 3;

struct Cells<A> {
    words: Vec<AtomicU64>,
    slots: Vec<UnsafeCell<Option<A>>>,
}

unsafe impl<A: Send> Sync for Cells<A> {}

struct Seat {
    first: usize,
    count: u32,
}

struct Place {
    cell: usize,
}

struct Ticket {
    cell: usize,
}

enum Filled<A> {
    Delivered,
    Dropped(A),
}

enum Cancelled<A> {
    Under,
    Came(A),
}

fn with_state(word: u64, state: u64) -> u64 {
    word - word % NUMBER + state
}

impl<A> Cells<A> {
    fn new(limits: &[u32]) -> (Cells<A>, Vec<Seat>) {
        let mut seats = Vec::with_capacity(limits.len());
        let mut first = 0;
        for &count in limits {
            seats.push(Seat { first, count });
            first += count as usize;
        }
        let words = (0..first).map(|_| AtomicU64::new(0)).collect();
        let slots = (0..first).map(|_| UnsafeCell::new(None)).collect();
        (Cells { words, slots }, seats)
    }

    fn exchange(&self, cell: usize, new: Option<A>) -> Option<A> {
        unsafe { self.slots[cell].get().replace(new) }
    }

    fn begin(&self, seat: &mut Seat) -> Option<(Place, Ticket)> {
        for cell in seat.first..seat.first + seat.count as usize {
            let word = self.words[cell].load(SeqCst);
            if word % NUMBER == FREE {
                let pending = word.wrapping_add(NUMBER + PENDING);
                let _ = self.words[cell].compare_exchange(word, pending, SeqCst, SeqCst);
                return Some((Place { cell }, Ticket { cell }));
            }
        }
        None
    }

    fn fill(&self, ticket: Ticket, answer: A) -> Filled<A> {
        let Ticket { cell } = ticket;
        let word = self.words[cell].load(SeqCst);
        self.exchange(cell, Some(answer));
        let (pending, filled) = (with_state(word, PENDING), with_state(word, FILLED));
        match self.words[cell].compare_exchange(pending, filled, SeqCst, SeqCst) {
            Ok(_) => Filled::Delivered,
            Err(_) => {
                let back = self.exchange(cell, None);
                self.words[cell].fetch_sub(CANCELLED, SeqCst);
                Filled::Dropped(back.unwrap())
            }
        }
    }

    fn has_come(&self, place: &Place) -> bool {
        self.words[place.cell].load(SeqCst) % NUMBER == FILLED
    }

    fn take(&self, place: Place) -> A {
        let Place { cell } = place;
        let answer = self.exchange(cell, None);
        self.words[cell].fetch_sub(FILLED, SeqCst);
        answer.unwrap()
    }

    fn cancel(&self, place: Place) -> Cancelled<A> {
        let word = self.words[place.cell].load(SeqCst);
        let (pending, cancelled) = (with_state(word, PENDING), with_state(word, CANCELLED));
        match self.words[place.cell].compare_exchange(pending, cancelled, SeqCst, SeqCst) {
            Ok(_) => Cancelled::Under,
            Err(_) => Cancelled::Came(self.take(place)),
        }
    }
}

fn round(cells: &Cells<u64>, seat: &mut Seat, number: u64) -> u64 {
    let Some((place, ticket)) = cells.begin(seat) else {
        return 0;
    };
    if let Filled::Dropped(answer) = cells.fill(ticket, number) {
        return answer;
    }
    if cells.has_come(&place) {
        return cells.take(place);
    }
    match cells.cancel(place) {
        Cancelled::Under => 0,
        Cancelled::Came(answer) => answer,
    }
}

fn main() {
    let rounds = env::args().nth(1).unwrap().parse().unwrap();
    let (cells, mut seats) = Cells::new(&[1]);
    let mut sum = 0u64;
    for number in 0..rounds {
        sum = sum.wrapping_add(round(&cells, &mut seats[0], number));
    }
    println!("{sum}");
}
