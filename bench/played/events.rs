//! Calls and events, in types of the same shape as the monitor's, and homes with their merge.

use crate::codec::{Data, Name, Octets};

pub enum Kind {
    Octet,
    Struct(Name),
}

pub struct Ask {
    pub service: Octets,
    pub payload: Data,
    pub flags: [bool; 5],
    pub expect: Option<Kind>,
    pub direction: u8,
}

pub enum Op {
    Call(Ask),
    Cancel(u64),
}

#[derive(Clone, Copy)]
pub struct RequestId {
    pub caller: u16,
    pub number: u64,
}

#[derive(Clone)]
pub enum Outcome {
    Returned(i32, Data),
    Failed(i32, Data),
    Died,
}

#[derive(Clone)]
pub enum Answer {
    Success(i32, Data),
    Failed(i32, Data),
    Error(u8),
}

#[derive(Clone)]
pub struct Accepted {
    pub by: u16,
    pub op: u32,
    pub request: RequestId,
    pub version: u64,
    pub service: Name,
    pub queue: u16,
    pub routine: Name,
    pub priority: u8,
    pub mode: u8,
    pub payload: Data,
}

#[derive(Clone)]
pub enum Event {
    Accept(Accepted),
    Take { request: RequestId, server: u16, generation: u64, k: u64 },
    End { request: RequestId, server: u16, generation: u64, outcome: Outcome },
    Answer { by: u16, op: u32, request: RequestId, answer: Answer },
    Refuse { by: u16, op: u32, fault: u8, version: u64 },
    Leave(u16),
}

/// What becomes of a request that its service returned so, and what its caller is told.
pub fn ended(value: u8, code: i32, payload: Data) -> (Outcome, Answer) {
    let copy = payload.clone();
    match value {
        0 => (Outcome::Returned(code, payload), Answer::Success(code, copy)),
        _ => (Outcome::Failed(code, payload), Answer::Failed(code, copy)),
    }
}

struct Stamped {
    stamp: u64,
    event: Event,
}

#[derive(Default)]
pub struct Home(Vec<Stamped>);

impl Home {
    fn last(&self) -> u64 {
        self.0.last().map_or(0, |noted| noted.stamp)
    }

    /// Notes an event with one more than the larger of `seen`, what its worker noted or saw last, and the home's last stamp.
    pub fn note(&mut self, seen: &mut u64, event: Event) {
        *seen = self.last().max(*seen) + 1;
        self.0.push(Stamped { stamp: *seen, event });
    }
}

/// All events of all homes, by stamp, then home, then place in the home.
pub fn merge(homes: &[&Home]) -> Vec<Event> {
    let mut places = Vec::new();
    for (number, home) in homes.iter().enumerate() {
        places.extend(home.0.iter().enumerate().map(|(index, noted)| (noted.stamp, number, index)));
    }
    places.sort_unstable();
    places.iter().map(|&(_, number, index)| homes[number].0[index].event.clone()).collect()
}
