//! A codec of frames written by hand, to measure the proved one by.

const HEADER: usize = 12;

pub type Octets = Vec<u8>;

#[derive(Clone, Copy)]
pub struct Name {
    octets: [u8; 31],
    len: u8,
}

impl Name {
    pub fn read(octets: &[u8]) -> Option<Name> {
        let graphic = octets.iter().all(|octet| (0x21..=0x7e).contains(octet));
        if octets.is_empty() || octets.len() > 31 || octets[0] == b'.' || !graphic {
            return None;
        }
        let mut name = Name { octets: [0; 31], len: octets.len() as u8 };
        name.octets[..octets.len()].copy_from_slice(octets);
        Some(name)
    }

    pub fn octets(&self) -> &[u8] {
        &self.octets[..usize::from(self.len)]
    }
}

#[derive(Clone)]
pub enum Data {
    Absent,
    Octet(Octets),
    Struct(Name, Octets),
}

/// A tpcall: its flags as an octet, the service, the kind of its TPNOCHANGE buffer, and data.
pub struct Call {
    pub flags: u8,
    pub service: Octets,
    pub expect: Option<Kind>,
    pub payload: Data,
}

#[derive(Clone, Copy)]
pub enum Kind {
    Octet,
    Struct(Name),
}

pub enum Answer {
    Success(i32, Data),
    Failed(i32, Data),
    Error(u8),
}

/// Of the operations it has the tpcall, and of the replies the answer.
pub enum Body {
    Ready(Name),
    Next,
    Op(Call),
    Return(u8, i32, Data),
    Invoke(Name, Name, u8, Data),
    Reply(u64, Answer),
    Shutdown,
}

pub struct Frame {
    pub tag: u32,
    pub body: Body,
}

fn number_at(octets: &[u8], at: usize) -> Option<u32> {
    Some(u32::from_be_bytes(octets.get(at..at + 4)?.try_into().ok()?))
}

fn name_at(octets: &[u8]) -> Option<(Name, &[u8])> {
    let (len, rest) = octets.split_first()?;
    let (name, rest) = rest.split_at_checked(usize::from(*len))?;
    Some((Name::read(name)?, rest))
}

fn sized(octets: &[u8]) -> Option<Octets> {
    let len = number_at(octets, 0)? as usize;
    if len > 65_536 || octets.len() != 4 + len {
        return None;
    }
    Some(octets[4..].to_vec())
}

fn data(octets: &[u8]) -> Option<Data> {
    match octets {
        [0] => Some(Data::Absent),
        [1, rest @ ..] => Some(Data::Octet(sized(rest)?)),
        [2, rest @ ..] => {
            let (subtype, rest) = name_at(rest)?;
            Some(Data::Struct(subtype, sized(rest)?))
        }
        _ => None,
    }
}

fn kind_at(octets: &[u8]) -> Option<(Option<Kind>, &[u8])> {
    match octets {
        [0, rest @ ..] => Some((None, rest)),
        [1, rest @ ..] => Some((Some(Kind::Octet), rest)),
        [2, rest @ ..] => {
            let (subtype, rest) = name_at(rest)?;
            Some((Some(Kind::Struct(subtype)), rest))
        }
        _ => None,
    }
}

fn op(octets: &[u8]) -> Option<Body> {
    let [1, flags @ 0..32, len, rest @ ..] = octets else {
        return None;
    };
    let (service, rest) = rest.split_at_checked(usize::from(*len))?;
    let (expect, rest) = kind_at(rest)?;
    let payload = data(rest)?;
    Some(Body::Op(Call { flags: *flags, service: service.to_vec(), expect, payload }))
}

fn reply(octets: &[u8]) -> Option<Body> {
    let (front, rest) = octets.split_at_checked(10)?;
    let descriptor = u64::from_be_bytes(front[1..9].try_into().ok()?);
    let answer = match (front[0], front[9]) {
        (3, 0) => Answer::Success(number_at(rest, 0)? as i32, data(&rest[4..])?),
        (3, 1) => Answer::Failed(number_at(rest, 0)? as i32, data(&rest[4..])?),
        (3, 2) => match rest {
            [fault @ 1..=15] => Answer::Error(*fault),
            _ => return None,
        },
        _ => return None,
    };
    Some(Body::Reply(descriptor, answer))
}

fn body(kind: u8, octets: &[u8]) -> Option<Body> {
    match kind {
        0x01 => match name_at(octets)? {
            (name, []) => Some(Body::Ready(name)),
            _ => None,
        },
        0x02 => Some(Body::Next),
        0x03 => op(octets),
        0x04 => {
            let value = *octets.first().filter(|value| **value <= 2)?;
            let code = number_at(octets, 1)? as i32;
            Some(Body::Return(value, code, data(&octets[5..])?))
        }
        0x11 => {
            let (service, rest) = name_at(octets)?;
            let (routine, rest) = name_at(rest)?;
            let (mode, rest) = rest.split_first()?;
            if *mode > 3 {
                return None;
            }
            Some(Body::Invoke(service, routine, *mode, data(rest)?))
        }
        0x12 => reply(octets),
        _ => Some(Body::Shutdown),
    }
}

/// The frame that stands first and how many octets it has.
fn front(octets: &[u8]) -> Result<Option<(Frame, usize)>, ()> {
    let Some((header, rest)) = octets.split_at_checked(HEADER) else {
        return Ok(None);
    };
    let most = match header[3] {
        0x01 | 0x03 | 0x04 | 0x11 | 0x12 => 66_000,
        0x02 | 0x13 => 0,
        _ => return Err(()),
    };
    let size = number_at(header, 4).ok_or(())?;
    let tag = number_at(header, 8).ok_or(())?;
    if header[..3] != [0x58, 0x41, 1] || size > most {
        return Err(());
    }
    let size = size as usize;
    let Some(octets) = rest.get(..size) else {
        return Ok(None);
    };
    let body = body(header[3], octets).ok_or(())?;
    Ok(Some((Frame { tag, body }, HEADER + size)))
}

#[derive(Default)]
pub struct Reader {
    octets: Octets,
    taken: usize,
}

impl Reader {
    pub fn feed(&mut self, octets: &[u8]) {
        if self.taken >= self.octets.len() - self.taken {
            self.octets.drain(..self.taken);
            self.taken = 0;
        }
        self.octets.extend_from_slice(octets);
    }

    pub fn is_empty(&self) -> bool {
        self.taken == self.octets.len()
    }

    pub fn next(&mut self) -> Result<Option<Frame>, ()> {
        let Some((frame, size)) = front(&self.octets[self.taken..])? else {
            return Ok(None);
        };
        self.taken += size;
        Ok(Some(frame))
    }
}

fn put_name(out: &mut Octets, name: &Name) {
    out.push(name.len);
    out.extend_from_slice(name.octets());
}

fn put_sized(out: &mut Octets, octets: &[u8]) {
    out.extend_from_slice(&(octets.len() as u32).to_be_bytes());
    out.extend_from_slice(octets);
}

fn put_data(out: &mut Octets, payload: &Data) {
    match payload {
        Data::Absent => out.push(0),
        Data::Octet(octets) => {
            out.push(1);
            put_sized(out, octets);
        }
        Data::Struct(subtype, octets) => {
            out.push(2);
            put_name(out, subtype);
            put_sized(out, octets);
        }
    }
}

fn put_kind(out: &mut Octets, kind: &Option<Kind>) {
    match kind {
        None => out.push(0),
        Some(Kind::Octet) => out.push(1),
        Some(Kind::Struct(subtype)) => {
            out.push(2);
            put_name(out, subtype);
        }
    }
}

fn put_answer(out: &mut Octets, answer: &Answer) {
    let (which, code, payload) = match answer {
        Answer::Success(code, payload) => (0, code, payload),
        Answer::Failed(code, payload) => (1, code, payload),
        Answer::Error(fault) => return out.extend_from_slice(&[2, *fault]),
    };
    out.push(which);
    out.extend_from_slice(&code.to_be_bytes());
    put_data(out, payload);
}

fn put_body(out: &mut Octets, body: &Body) {
    match body {
        Body::Ready(name) => put_name(out, name),
        Body::Next | Body::Shutdown => {}
        Body::Op(call) => {
            out.extend_from_slice(&[1, call.flags, call.service.len() as u8]);
            out.extend_from_slice(&call.service);
            put_kind(out, &call.expect);
            put_data(out, &call.payload);
        }
        Body::Reply(descriptor, answer) => {
            out.push(3);
            out.extend_from_slice(&descriptor.to_be_bytes());
            put_answer(out, answer);
        }
        Body::Return(value, code, payload) => {
            out.push(*value);
            out.extend_from_slice(&code.to_be_bytes());
            put_data(out, payload);
        }
        Body::Invoke(service, routine, mode, payload) => {
            put_name(out, service);
            put_name(out, routine);
            out.push(*mode);
            put_data(out, payload);
        }
    }
}

fn data_len(payload: &Data) -> usize {
    match payload {
        Data::Absent => 1,
        Data::Octet(octets) => 5 + octets.len(),
        Data::Struct(subtype, octets) => 6 + subtype.octets().len() + octets.len(),
    }
}

fn kind_len(kind: &Option<Kind>) -> usize {
    match kind {
        Some(Kind::Struct(subtype)) => 2 + subtype.octets().len(),
        None | Some(Kind::Octet) => 1,
    }
}

fn answer_len(answer: &Answer) -> usize {
    match answer {
        Answer::Success(_, payload) | Answer::Failed(_, payload) => 5 + data_len(payload),
        Answer::Error(_) => 2,
    }
}

fn kind_and_size(body: &Body) -> (u8, usize) {
    match body {
        Body::Ready(name) => (0x01, 1 + name.octets().len()),
        Body::Next => (0x02, 0),
        Body::Op(call) => {
            (0x03, 3 + call.service.len() + kind_len(&call.expect) + data_len(&call.payload))
        }
        Body::Return(_, _, payload) => (0x04, 5 + data_len(payload)),
        Body::Invoke(service, routine, _, payload) => {
            (0x11, 3 + service.octets().len() + routine.octets().len() + data_len(payload))
        }
        Body::Reply(_, answer) => (0x12, 9 + answer_len(answer)),
        Body::Shutdown => (0x13, 0),
    }
}

fn put_frame(out: &mut Octets, frame: &Frame, kind: u8, size: usize) {
    out.extend_from_slice(&[0x58, 0x41, 1, kind]);
    out.extend_from_slice(&(size as u32).to_be_bytes());
    out.extend_from_slice(&frame.tag.to_be_bytes());
    put_body(out, &frame.body);
}

pub fn append(out: &mut Octets, frame: &Frame) {
    let (kind, size) = kind_and_size(&frame.body);
    out.reserve(HEADER + size);
    put_frame(out, frame, kind, size);
}

pub fn encode(frame: &Frame) -> Octets {
    let (kind, size) = kind_and_size(&frame.body);
    let mut out = Vec::with_capacity(HEADER + size);
    put_frame(&mut out, frame, kind, size);
    out
}
