//! What the threads of domain.rs share: the queues, the cells for replies, and the rows.

use crate::codec::{Data, Name};
use crate::played::events::{Accepted, Answer, Event, Home, RequestId};
use std::collections::VecDeque;
use std::ffi::OsStr;
use std::sync::{Barrier, Condvar, Mutex, MutexGuard};
use std::thread;

/// What waits at a queue.
pub struct Entry {
    pub request: RequestId,
    pub service: Name,
    pub routine: Name,
    pub payload: Data,
}

#[derive(Default)]
struct Line {
    home: Home,
    waiting: VecDeque<Entry>,
    takes: u64,
    closed: bool,
}

// How often who waits looks before it sleeps, as in the measured program. Others run between two looks.
const LOOKS: usize = 100;

fn look_for(mut has_come: impl FnMut() -> bool) {
    for _ in 0..LOOKS {
        if has_come() {
            return;
        }
        thread::yield_now();
    }
}

#[derive(Default)]
pub struct Queue {
    line: Mutex<Line>,
    work: Condvar,
}

impl Queue {
    fn line(&self) -> MutexGuard<'_, Line> {
        self.line.lock().unwrap()
    }

    /// Accepts a request, and wakes a server.
    pub fn put(&self, seen: &mut u64, accepted: Accepted, entry: Entry) {
        let mut line = self.line();
        line.home.note(seen, Event::Accept(accepted));
        line.waiting.push_back(entry);
        drop(line);
        self.work.notify_one();
    }

    /// The next request, for which a server waits; none where the queue is closed and nothing waits there.
    pub fn take(&self, seen: &mut u64, server: u16) -> Option<Entry> {
        let is_idle = |line: &mut Line| line.waiting.is_empty() && !line.closed;
        look_for(|| !is_idle(&mut self.line()));
        let mut line = self.work.wait_while(self.line(), is_idle).unwrap();
        let entry = line.waiting.pop_front()?;
        line.takes += 1;
        let taken = Event::Take { request: entry.request, server, generation: 1, k: line.takes };
        line.home.note(seen, taken);
        Some(entry)
    }

    pub fn close(&self) {
        self.line().closed = true;
        self.work.notify_all();
    }

    pub fn into_home(self) -> Home {
        self.line.into_inner().unwrap().home
    }
}

/// An answer, with the stamp of the last event before it.
pub struct Filling {
    pub stamp: u64,
    pub answer: Answer,
}

/// Where a client is answered.
#[derive(Default)]
pub struct Cell {
    filling: Mutex<Option<Filling>>,
    filled: Condvar,
}

impl Cell {
    pub fn fill(&self, filling: Filling) {
        *self.filling.lock().unwrap() = Some(filling);
        self.filled.notify_one();
    }

    /// Waits for the answer.
    pub fn take(&self) -> Filling {
        look_for(|| self.filling.lock().unwrap().is_some());
        let filling = self.filling.lock().unwrap();
        self.filled.wait_while(filling, |filling| filling.is_none()).unwrap().take().unwrap()
    }
}

pub struct Row {
    pub service: Name,
    pub queue: u16,
    pub routine: Name,
}

pub fn named(text: &str) -> Name {
    Name::read(text.as_bytes()).unwrap()
}

// First the services that a queue has alone, and then those that all queues have.
fn rows_of(queues: u16, others: usize) -> Vec<Row> {
    let row = |service: &str, queue| Row { service: named(service), queue, routine: named("ECHO") };
    let mut rows: Vec<Row> = (1..=queues).map(|queue| row(&format!("EC{:02}", queue - 1), queue)).collect();
    for other in 0..others {
        rows.extend((1..=queues).map(|queue| row(&format!("OTHER{other}"), queue)));
    }
    rows
}

/// Queues, clients and servers are numbered from 1. Who works waits at first until each server is up.
pub struct Domain<'a> {
    pub program: &'a OsStr,
    pub rows: Vec<Row>,
    pub queues: Vec<Queue>,
    pub cells: Vec<Cell>,
    pub up: Barrier,
}

impl Domain<'_> {
    pub fn new(program: &OsStr, queues: u16, others: usize, clients: usize) -> Domain<'_> {
        Domain {
            program,
            rows: rows_of(queues, others),
            queues: (0..queues).map(|_| Queue::default()).collect(),
            cells: (0..clients).map(|_| Cell::default()).collect(),
            up: Barrier::new(clients + usize::from(queues)),
        }
    }

    pub fn look_up(&self, service: &[u8]) -> Option<&Row> {
        self.rows.iter().find(|row| row.service.octets() == service)
    }

    /// What stands on the board, of which no row changes.
    pub fn version(&self) -> u64 {
        self.rows.len() as u64
    }

    pub fn queue(&self, number: u16) -> &Queue {
        &self.queues[usize::from(number) - 1]
    }

    pub fn cell(&self, client: u16) -> &Cell {
        &self.cells[usize::from(client) - 1]
    }
}
