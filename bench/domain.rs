//! What `xatmi run CONFIG` does for services of the routine ECHO, written by hand: a thread for each client and for each
//! server, a Mutex and a Condvar for each queue and for each client's reply, and as many looks before a thread sleeps; the
//! same script, frames and transcript, and the same events of each call that is answered, in types of the same shape, with
//! their stamps, in the same homes and with the same merge, and kept as long. Nothing of it is proved, and a server that
//! dies ends the run. So its rows never change, and a call looks at them without a lock. No queue can be full, since 64
//! clients have at most one call out each.
//!
//! There are QUEUES queues with a server each, a service ECnn on each of them alone, and OTHERS further services on all of
//! them. Each server is a process of PROGRAM, or of this program where none is given.
//! usage: domain run QUEUES OTHERS [PROGRAM], and domain server NAME
// The types of calls and events have all their fields, since their size is part of what is measured.
#![allow(dead_code)]

use std::ffi::OsStr;
use std::fs::File;
use std::io::{self, Write};
use std::mem::forget;
use std::process::exit;
use std::thread;

mod codec;
mod played;
mod shared;

use codec::{Body, Data, Frame, Name, Octets};
use played::Done;
use played::events::{Accepted, Ask, Event, Home, Op, RequestId, ended, merge};
use played::pipe::{Pipe, serve, streams};
use played::script::{Client, read_all, script_in};
use played::text::{ROOM, put_told};
use shared::{Domain, Entry, Filling, Queue, Row, named};

const CLIENTS: usize = 64;
const QUEUES: u16 = 64;

// What a client or a server has of its own: its number, the stamp that it noted or saw last, and its home.
struct Own {
    id: u16,
    seen: u64,
    home: Home,
}

impl Own {
    fn new(id: u16) -> Own {
        Own { id, seen: 0, home: Home::default() }
    }

    fn note(&mut self, event: Event) {
        self.home.note(&mut self.seen, event);
    }
}

struct Caller<'a> {
    domain: &'a Domain<'a>,
    own: Own,
    sent: u64,
}

impl Caller<'_> {
    // Puts the next request on the queue of that row.
    fn send(&mut self, op: u32, row: &Row, payload: &Data) -> RequestId {
        self.sent += 1;
        let request = RequestId { caller: self.own.id, number: self.sent };
        let &Row { service, queue, routine } = row;
        let accepted = Accepted {
            by: self.own.id,
            op,
            request,
            version: self.domain.version(),
            service,
            queue,
            routine,
            priority: 50,
            mode: 0,
            payload: payload.clone(),
        };
        let entry = Entry { request, service, routine, payload: payload.clone() };
        self.domain.queue(queue).put(&mut self.own.seen, accepted, entry);
        request
    }

    fn call(&mut self, op: u32, ask: &Ask) {
        let by = self.own.id;
        let Some(row) = self.domain.look_up(&ask.service) else {
            return self.own.note(Event::Refuse { by, op, fault: 1, version: self.domain.version() });
        };
        let request = self.send(op, row, &ask.payload);
        let Filling { stamp, answer } = self.domain.cell(by).take();
        self.own.seen = self.own.seen.max(stamp);
        self.own.note(Event::Answer { by, op, request, answer });
    }

    fn call_all(mut self, ops: &[Op]) -> Home {
        self.domain.up.wait();
        for (op, number) in ops.iter().zip(1..) {
            match op {
                Op::Call(ask) => self.call(number, ask),
                Op::Cancel(_) => unreachable!(),
            }
        }
        self.own.note(Event::Leave(self.own.id));
        self.own.home
    }
}

struct Server<'a> {
    domain: &'a Domain<'a>,
    own: Own,
    pipe: Pipe,
}

impl Server<'_> {
    fn start<'a>(domain: &'a Domain<'a>, id: u16) -> Done<Server<'a>> {
        let pipe = Pipe::start(domain.program, &named(&format!("SQ{}", id - 1)))?;
        Ok(Server { domain, own: Own::new(id), pipe })
    }

    // Hands a request to the program, and its caller what comes back.
    fn exchange(&mut self, tag: u32, entry: Entry) -> Done<()> {
        let Entry { request, service, routine, payload } = entry;
        self.pipe.send(&Frame { tag, body: Body::Invoke(service, routine, 0, payload) })?;
        let (value, code, payload) = self.pipe.read_return(tag)?;
        let (outcome, answer) = ended(value, code, payload);
        self.own.note(Event::End { request, server: self.own.id, generation: 1, outcome });
        self.domain.cell(request.caller).fill(Filling { stamp: self.own.seen, answer });
        self.pipe.read_next()
    }

    fn serve_all(mut self) -> Done<(Home, Pipe)> {
        self.domain.up.wait();
        let queue = self.domain.queue(self.own.id);
        let mut tag = 0;
        while let Some(entry) = queue.take(&mut self.own.seen, self.own.id) {
            tag += 1;
            self.exchange(tag, entry)?;
        }
        self.pipe.send(&Frame { tag: 0, body: Body::Shutdown })?;
        Ok((self.own.home, self.pipe))
    }
}

fn client_work(domain: &Domain, id: u16, client: &Client) -> Home {
    Caller { domain, own: Own::new(id), sent: 0 }.call_all(&client.ops)
}

fn server_work(domain: &Domain, id: u16) -> (Home, Pipe) {
    Server::start(domain, id).and_then(Server::serve_all).unwrap_or_else(|error| {
        eprintln!("domain: server {id}: {error}");
        exit(1)
    })
}

// All clients and all servers beside each other. What they leave are the homes of both, and the pipes.
fn work_all(domain: &Domain, script: &[Client]) -> (Vec<Home>, Vec<Pipe>) {
    thread::scope(|scope| {
        let servers: Vec<_> =
            (1..).take(domain.queues.len()).map(|id| scope.spawn(move || server_work(domain, id))).collect();
        let clients: Vec<_> =
            (1..).zip(script).map(|(id, client)| scope.spawn(move || client_work(domain, id, client))).collect();
        let mut homes: Vec<_> = clients.into_iter().map(|client| client.join().unwrap()).collect();
        domain.queues.iter().for_each(Queue::close);
        let (own, pipes): (Vec<_>, Vec<_>) = servers.into_iter().map(|server| server.join().unwrap()).unzip();
        homes.extend(own);
        (homes, pipes)
    })
}

// The homes in their order, of which that of the board and of the clock are empty.
fn homes_of(queues: Vec<Queue>, workers: Vec<Home>) -> Vec<Home> {
    let mut homes = vec![Home::default()];
    homes.extend(queues.into_iter().map(Queue::into_home));
    homes.push(Home::default());
    homes.extend(workers);
    homes
}

fn lines_of(script: &[Client], history: &[Event]) -> io::Result<Octets> {
    let mut own: Vec<Vec<&Event>> = script.iter().map(|_| Vec::new()).collect();
    for event in history {
        if let Event::Answer { by, .. } | Event::Refuse { by, .. } = event {
            own[usize::from(*by) - 1].push(event);
        }
    }
    let mut lines = Vec::with_capacity(ROOM * history.len());
    for (client, events) in script.iter().zip(own) {
        for event in events {
            put_told(&mut lines, &client.name, event)?;
        }
    }
    Ok(lines)
}

fn run(program: &str, queues: &str, others: &str, mut input: File, mut output: File) -> Done<()> {
    let (queues, others) = (queues.parse()?, others.parse()?);
    if !(1..=QUEUES).contains(&queues) {
        return Err("1 to 64 queues".into());
    }
    let script = script_in(&read_all(&mut input)?, CLIENTS).ok_or("the script is faulty")?;
    let domain = Domain::new(OsStr::new(program), queues, others, script.len());
    let (workers, pipes) = work_all(&domain, &script);
    let homes = homes_of(domain.queues, workers);
    let history = merge(&homes.iter().collect::<Vec<_>>());
    output.write_all(&lines_of(&script, &history)?)?;
    for pipe in pipes {
        pipe.end()?;
    }
    forget((script, homes, history));
    Ok(())
}

fn main() -> Done<()> {
    let (input, output) = streams()?;
    let words: Vec<String> = std::env::args().collect();
    match &words.iter().map(String::as_str).collect::<Vec<_>>()[..] {
        [_, "server", name] => serve(Name::read(name.as_bytes()).ok_or("no name")?, input, output),
        [own, "run", queues, others] => run(own, queues, others, input, output),
        [_, "run", queues, others, program] => run(program, queues, others, input, output),
        _ => Err("usage: domain run QUEUES OTHERS [PROGRAM], domain server NAME".into()),
    }
}
