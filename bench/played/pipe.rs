//! The process of a server: the pipes to it, and what it does.

use super::Done;
use crate::codec::{Body, Data, Frame, Name, Octets, Reader, append};
use std::ffi::OsStr;
use std::fs::File;
use std::io::{self, Read, Write};
use std::os::fd::AsFd;
use std::os::unix::ffi::OsStrExt;
use std::process::{Child, ChildStdin, ChildStdout, Command, Stdio};

const PIECE: usize = 8192;

pub struct Pipe {
    server: Child,
    from: ChildStdout,
    to: ChildStdin,
    reader: Reader,
    piece: [u8; PIECE],
    due: Octets,
}

impl Pipe {
    /// Starts a program as the server of that name, and hears its greeting.
    pub fn start(program: &OsStr, name: &Name) -> Done<Pipe> {
        let mut server = Command::new(program);
        let words = [OsStr::new("server"), OsStr::from_bytes(name.octets())];
        let mut server = server.args(words).stdin(Stdio::piped()).stdout(Stdio::piped()).spawn()?;
        let (Some(from), Some(to)) = (server.stdout.take(), server.stdin.take()) else {
            unreachable!();
        };
        let mut pipe = Pipe { server, from, to, reader: Reader::default(), piece: [0; PIECE], due: Vec::new() };
        match pipe.read()? {
            Frame { tag: 0, body: Body::Ready(own) } if own.octets() == name.octets() => pipe.read_next()?,
            _ => return Err("READY was to come".into()),
        }
        Ok(pipe)
    }

    pub fn send(&mut self, frame: &Frame) -> io::Result<()> {
        self.due.clear();
        append(&mut self.due, frame);
        self.to.write_all(&self.due)
    }

    fn read(&mut self) -> Done<Frame> {
        loop {
            if let Some(frame) = self.reader.next().map_err(|()| "no frame")? {
                return Ok(frame);
            }
            match self.from.read(&mut self.piece)? {
                0 => return Err("the server's output ended".into()),
                count => self.reader.feed(&self.piece[..count]),
            }
        }
    }

    /// What the service returns to the INVOKE with that tag.
    pub fn read_return(&mut self, invoke: u32) -> Done<(u8, i32, Data)> {
        match self.read()? {
            Frame { tag, body: Body::Return(value, code, payload) } if tag == invoke => Ok((value, code, payload)),
            _ => Err("the RETURN to this INVOKE was to come".into()),
        }
    }

    pub fn read_next(&mut self) -> Done<()> {
        match self.read()? {
            Frame { tag: 0, body: Body::Next } => Ok(()),
            _ => Err("NEXT was to come".into()),
        }
    }

    /// Closes both pipes, and waits for the server.
    pub fn end(self) -> io::Result<()> {
        let Pipe { mut server, from, to, .. } = self;
        drop((from, to));
        server.wait()?;
        Ok(())
    }
}

/// Standard input and output, neither of them buffered.
pub fn streams() -> io::Result<(File, File)> {
    let stream = |fd: io::Result<_>| fd.map(File::from);
    Ok((stream(io::stdin().as_fd().try_clone_to_owned())?, stream(io::stdout().as_fd().try_clone_to_owned())?))
}

/// Serves as the server of that name.
pub fn serve(name: Name, mut input: File, mut output: File) -> Done<()> {
    let (mut reader, mut due, mut piece) = (Reader::default(), Vec::new(), [0; PIECE]);
    append(&mut due, &Frame { tag: 0, body: Body::Ready(name) });
    append(&mut due, &Frame { tag: 0, body: Body::Next });
    output.write_all(&due)?;
    loop {
        match input.read(&mut piece)? {
            0 => return Ok(()),
            count => reader.feed(&piece[..count]),
        }
        due.clear();
        while let Some(Frame { tag, body }) = reader.next().map_err(|()| "no frame")? {
            match body {
                Body::Invoke(_, routine, _, payload) if routine.octets() == b"ECHO" => {
                    append(&mut due, &Frame { tag, body: Body::Return(0, 0, payload) });
                    append(&mut due, &Frame { tag: 0, body: Body::Next });
                }
                Body::Shutdown => return Ok(()),
                _ => return Err("ECHO alone is served".into()),
            }
        }
        output.write_all(&due)?;
    }
}
