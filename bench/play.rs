//! What `xatmi play` does for ECHO, written by hand on one thread: the same script, frames and transcript, and the same
//! events of each call that is answered, in types of the same shape, with their stamps, in the same homes and with the same
//! merge, and kept as long. It starts itself as its server. Nothing of it is proved, and a server that dies ends the run.
//! usage: play play SERVICE, and play server NAME
// The types of calls and events have all their fields, since their size is part of what is measured.
#![allow(dead_code)]

use std::ffi::OsStr;
use std::fs::File;
use std::io::{self, Write};
use std::mem::forget;

mod codec;
mod played;

use codec::{Body, Data, Frame, Name, Octets};
use played::Done;
use played::events::{Accepted, Ask, Event, Home, Op, RequestId, ended, merge};
use played::pipe::{Pipe, serve, streams};
use played::script::{Client, read_all, script_in};
use played::text::{ROOM, put_told};

// The homes, of which that of the board and of the clock stay empty.
#[derive(Default)]
struct Domain {
    latest: u64,
    board: Home,
    queue: Home,
    clock: Home,
    client: Home,
    server: Home,
}

impl Domain {
    fn call(&mut self, pipe: &mut Pipe, service: &Name, op: u32, ask: &Ask) -> Done<()> {
        if ask.service != service.octets() {
            self.client.note(&mut self.latest, Event::Refuse { by: 1, op, fault: 1, version: 1 });
            return Ok(());
        }
        let request = RequestId { caller: 1, number: u64::from(op) };
        let frame = Frame { tag: op, body: Body::Invoke(*service, *service, 0, ask.payload.clone()) };
        pipe.send(&frame)?;
        self.note_taken(service, request, op, frame);
        let back = pipe.read_return(op)?;
        self.note_ended(request, op, back);
        pipe.read_next()
    }

    fn note_taken(&mut self, service: &Name, request: RequestId, op: u32, frame: Frame) {
        let Body::Invoke(_, _, mode, payload) = frame.body else {
            unreachable!();
        };
        let accepted = Accepted {
            by: 1,
            op,
            request,
            version: 1,
            service: *service,
            queue: 1,
            routine: *service,
            priority: 50,
            mode,
            payload,
        };
        self.queue.note(&mut self.latest, Event::Accept(accepted));
        let taken = Event::Take { request, server: 1, generation: 1, k: request.number };
        self.queue.note(&mut self.latest, taken);
    }

    fn note_ended(&mut self, request: RequestId, op: u32, (value, code, payload): (u8, i32, Data)) {
        let (outcome, answer) = ended(value, code, payload);
        self.server.note(&mut self.latest, Event::End { request, server: 1, generation: 1, outcome });
        self.client.note(&mut self.latest, Event::Answer { by: 1, op, request, answer });
    }

    fn call_all(&mut self, pipe: &mut Pipe, service: &Name, client: &Client) -> Done<()> {
        for (op, number) in client.ops.iter().zip(1..) {
            match op {
                Op::Call(ask) => self.call(pipe, service, number, ask)?,
                Op::Cancel(_) => unreachable!(),
            }
        }
        self.client.note(&mut self.latest, Event::Leave(1));
        Ok(())
    }

    fn merge(&self) -> Vec<Event> {
        merge(&[&self.board, &self.queue, &self.clock, &self.client, &self.server])
    }
}

fn lines_of(client: &Name, history: &[Event]) -> io::Result<Octets> {
    let mut lines = Vec::with_capacity(ROOM * history.len());
    for event in history {
        put_told(&mut lines, client, event)?;
    }
    Ok(lines)
}

fn play(program: &OsStr, service: &Name, mut input: File, mut output: File) -> Done<()> {
    let script = script_in(&read_all(&mut input)?, 1).ok_or("the script is faulty")?;
    let mut domain = Domain::default();
    let mut pipe = Pipe::start(program, &Name::read(b"S").ok_or("no name")?)?;
    if let [client] = &script[..] {
        domain.call_all(&mut pipe, service, client)?;
    }
    pipe.send(&Frame { tag: 0, body: Body::Shutdown })?;
    let history = domain.merge();
    if let [client] = &script[..] {
        output.write_all(&lines_of(&client.name, &history)?)?;
    }
    pipe.end()?;
    forget((script, domain, history));
    Ok(())
}

fn main() -> Done<()> {
    let (input, output) = streams()?;
    let words: Vec<String> = std::env::args().collect();
    let [own, command, word] = &words[..] else {
        return Err("usage: play play SERVICE, play server NAME".into());
    };
    let name = Name::read(word.as_bytes()).ok_or("no name")?;
    match command.as_str() {
        "play" => play(OsStr::new(own), &name, input, output),
        "server" => serve(name, input, output),
        _ => Err("no command".into()),
    }
}
