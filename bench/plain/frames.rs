//! The work of `jn_frames_bench` in plain Rust, beside which `bench/frames` counts: takes the frames of standard input apart and writes each again.
//! The word is how many bytes of the stream are read at a time; with 0 the input is read and nothing else is done.

use std::io::{Read, Write};

const SHORT: u8 = 2;
const PARTY: u8 = 3;
const KIND: u8 = 4;
const RANGE: u8 = 5;
const BLOCKS: u16 = 2520;

type Found<T> = Result<T, u8>;

#[derive(Clone, Copy)]
struct Name {
    server: u8,
    epoch: u32,
    ticket: u32,
}

#[derive(Clone, Copy)]
enum Unit {
    File(u32),
    Block(u32, u16),
}

#[derive(Clone, Copy)]
enum Party {
    Client(u8),
    Server(u8),
}

enum Op {
    Create(u32),
    Remove(u32),
    Cut(u32, u16),
    Read(u32, u16),
    Write(u32, u16, Box<[u8; 448]>),
}

enum Vote {
    Ready,
    Waiting(Unit, Name),
    Broken(Unit, Name),
    Lost(u32, u32),
    Full(u8, u32, u32),
}

enum Body {
    Begin(u8, u32),
    Open(u8, u32, Name),
    Op(u8, u32, Name, u32, Op),
    End(u8, u32, Name, Vec<Name>),
    Abort(u8, u32, Name, Vec<Name>),
    Thanks(u8, Name),
    Prepare(Name, u8, Name),
    Commit(Name, Name),
    Drop(Name, Name),
    Vote(Name, Name, Vote),
    Done(Name, Name),
    Inquire(Name, Name),
    Nudge,
    Timeout(Name),
}

struct Framed {
    from: Party,
    to: Party,
    body: Body,
}

struct Fields<'a> {
    bytes: &'a [u8],
}

impl<'a> Fields<'a> {
    fn take(&mut self, size: usize) -> Found<&'a [u8]> {
        if self.bytes.len() < size {
            return Err(SHORT);
        }
        let (field, rest) = self.bytes.split_at(size);
        self.bytes = rest;
        Ok(field)
    }

    fn u8(&mut self) -> Found<u8> {
        Ok(self.take(1)?[0])
    }

    fn u16(&mut self) -> Found<u16> {
        Ok(u16::from_be_bytes(self.take(2)?.try_into().unwrap()))
    }

    fn u32(&mut self) -> Found<u32> {
        Ok(u32::from_be_bytes(self.take(4)?.try_into().unwrap()))
    }

    fn client(&mut self) -> Found<u8> {
        let client = self.u8()?;
        if (1..=8).contains(&client) { Ok(client) } else { Err(RANGE) }
    }

    fn sender(&mut self, sender: u8) -> Found<u8> {
        let client = self.client()?;
        if client == sender { Ok(client) } else { Err(RANGE) }
    }

    fn name(&mut self) -> Found<Name> {
        let field = self.take(9)?;
        if field[0] > 7 {
            return Err(RANGE);
        }
        Ok(Name {
            server: field[0],
            epoch: u32::from_be_bytes(field[1..5].try_into().unwrap()),
            ticket: u32::from_be_bytes(field[5..9].try_into().unwrap()),
        })
    }

    fn block(&mut self) -> Found<u16> {
        let block = self.u16()?;
        if block < BLOCKS { Ok(block) } else { Err(RANGE) }
    }

    fn unit(&mut self) -> Found<Unit> {
        let file = self.u32()?;
        match self.u16()? {
            0xFFFF => Ok(Unit::File(file)),
            block if block < BLOCKS => Ok(Unit::Block(file, block)),
            _ => Err(RANGE),
        }
    }

    fn works(&mut self) -> Found<Vec<Name>> {
        let count = self.u8()?;
        if count > 8 {
            return Err(RANGE);
        }
        (0..count).map(|_| self.name()).collect()
    }

    fn op(&mut self) -> Found<Op> {
        Ok(match self.u8()? {
            1 => Op::Create(self.u32()?),
            2 => Op::Remove(self.u32()?),
            3 => Op::Cut(self.u32()?, self.block()?),
            4 => Op::Read(self.u32()?, self.block()?),
            5 => Op::Write(self.u32()?, self.block()?, Box::new(self.take(448)?.try_into().unwrap())),
            _ => return Err(RANGE),
        })
    }

    fn vote(&mut self) -> Found<Vote> {
        Ok(match self.u8()? {
            0 => Vote::Ready,
            1 => Vote::Waiting(self.unit()?, self.name()?),
            2 => Vote::Broken(self.unit()?, self.name()?),
            3 => Vote::Lost(self.u32()?, self.u32()?),
            4 => {
                let resource = self.u8()?;
                if !(31..=33).contains(&resource) {
                    return Err(RANGE);
                }
                Vote::Full(resource, self.u32()?, self.u32()?)
            }
            _ => return Err(RANGE),
        })
    }
}

fn party(kind: u8, number: u8) -> Option<Party> {
    match kind {
        1 if (1..=8).contains(&number) => Some(Party::Client(number)),
        2 if number <= 7 => Some(Party::Server(number)),
        _ => None,
    }
}

fn decode(server: u8, bytes: &[u8]) -> Found<Framed> {
    if bytes.len() < 5 {
        return Err(SHORT);
    }
    let kind = bytes[4];
    if !((1..=6).contains(&kind) || (11..=18).contains(&kind)) {
        return Err(KIND);
    }
    let (Some(from), Some(to)) = (party(bytes[0], bytes[1]), party(bytes[2], bytes[3])) else {
        return Err(PARTY);
    };
    if !matches!(to, Party::Server(it) if it == server) {
        return Err(PARTY);
    }
    let sender = match from {
        Party::Client(_) if (11..=16).contains(&kind) => return Err(PARTY),
        Party::Client(client) => client,
        Party::Server(_) if kind <= 6 => return Err(PARTY),
        Party::Server(_) => 0,
    };
    let mut fields = Fields { bytes: &bytes[5..] };
    let body = match kind {
        1 => Body::Begin(fields.sender(sender)?, fields.u32()?),
        2 => Body::Open(fields.sender(sender)?, fields.u32()?, fields.name()?),
        3 => Body::Op(fields.sender(sender)?, fields.u32()?, fields.name()?, fields.u32()?, fields.op()?),
        4 => Body::End(fields.sender(sender)?, fields.u32()?, fields.name()?, fields.works()?),
        5 => Body::Abort(fields.sender(sender)?, fields.u32()?, fields.name()?, fields.works()?),
        6 => Body::Thanks(fields.sender(sender)?, fields.name()?),
        11 => Body::Prepare(fields.name()?, fields.client()?, fields.name()?),
        12 => Body::Commit(fields.name()?, fields.name()?),
        13 => Body::Drop(fields.name()?, fields.name()?),
        14 => Body::Vote(fields.name()?, fields.name()?, fields.vote()?),
        15 => Body::Done(fields.name()?, fields.name()?),
        16 => Body::Inquire(fields.name()?, fields.name()?),
        17 => Body::Nudge,
        _ => Body::Timeout(fields.name()?),
    };
    if fields.bytes.is_empty() { Ok(Framed { from, to, body }) } else { Err(SHORT) }
}

fn put_u32(out: &mut Vec<u8>, number: u32) {
    out.extend(number.to_be_bytes());
}

fn put_name(out: &mut Vec<u8>, name: &Name) {
    out.push(name.server);
    put_u32(out, name.epoch);
    put_u32(out, name.ticket);
}

fn put_block(out: &mut Vec<u8>, file: u32, block: u16) {
    put_u32(out, file);
    out.extend(block.to_be_bytes());
}

fn put_unit(out: &mut Vec<u8>, unit: &Unit) {
    match unit {
        Unit::File(file) => put_block(out, *file, 0xFFFF),
        Unit::Block(file, block) => put_block(out, *file, *block),
    }
}

fn put_request(out: &mut Vec<u8>, kind: u8, client: u8, request: u32) {
    out.extend([kind, client]);
    put_u32(out, request);
}

fn put_two(out: &mut Vec<u8>, kind: u8, tid: &Name, work: &Name) {
    out.push(kind);
    put_name(out, tid);
    put_name(out, work);
}

fn put_op(out: &mut Vec<u8>, op: &Op) {
    match op {
        Op::Create(file) => {
            out.push(1);
            put_u32(out, *file);
        }
        Op::Remove(file) => {
            out.push(2);
            put_u32(out, *file);
        }
        Op::Cut(file, block) => {
            out.push(3);
            put_block(out, *file, *block);
        }
        Op::Read(file, block) => {
            out.push(4);
            put_block(out, *file, *block);
        }
        Op::Write(file, block, content) => {
            out.push(5);
            put_block(out, *file, *block);
            out.extend_from_slice(&content[..]);
        }
    }
}

fn put_held(out: &mut Vec<u8>, code: u8, unit: &Unit, by: &Name) {
    out.push(code);
    put_unit(out, unit);
    put_name(out, by);
}

fn put_vote(out: &mut Vec<u8>, vote: &Vote) {
    match vote {
        Vote::Ready => out.push(0),
        Vote::Waiting(unit, by) => put_held(out, 1, unit, by),
        Vote::Broken(unit, by) => put_held(out, 2, unit, by),
        Vote::Lost(then, now) => {
            out.push(3);
            put_u32(out, *then);
            put_u32(out, *now);
        }
        Vote::Full(resource, free, need) => {
            out.extend([4, *resource]);
            put_u32(out, *free);
            put_u32(out, *need);
        }
    }
}

fn put_end(out: &mut Vec<u8>, kind: u8, client: u8, request: u32, tid: &Name, works: &[Name]) {
    put_request(out, kind, client, request);
    put_name(out, tid);
    out.push(works.len() as u8);
    for work in works {
        put_name(out, work);
    }
}

fn encode(framed: &Framed, out: &mut Vec<u8>) {
    let at = out.len();
    out.extend([0, 0]);
    for it in [&framed.from, &framed.to] {
        match it {
            Party::Client(client) => out.extend([1, *client]),
            Party::Server(server) => out.extend([2, *server]),
        }
    }
    match &framed.body {
        Body::Begin(client, request) => put_request(out, 1, *client, *request),
        Body::Open(client, request, tid) => {
            put_request(out, 2, *client, *request);
            put_name(out, tid);
        }
        Body::Op(client, request, work, number, op) => {
            put_request(out, 3, *client, *request);
            put_name(out, work);
            put_u32(out, *number);
            put_op(out, op);
        }
        Body::End(client, request, tid, works) => put_end(out, 4, *client, *request, tid, works),
        Body::Abort(client, request, tid, works) => put_end(out, 5, *client, *request, tid, works),
        Body::Thanks(client, tid) => {
            out.extend([6, *client]);
            put_name(out, tid);
        }
        Body::Prepare(tid, client, work) => {
            out.push(11);
            put_name(out, tid);
            out.push(*client);
            put_name(out, work);
        }
        Body::Commit(tid, work) => put_two(out, 12, tid, work),
        Body::Drop(tid, work) => put_two(out, 13, tid, work),
        Body::Vote(tid, work, vote) => {
            put_two(out, 14, tid, work);
            put_vote(out, vote);
        }
        Body::Done(tid, work) => put_two(out, 15, tid, work),
        Body::Inquire(tid, work) => put_two(out, 16, tid, work),
        Body::Nudge => out.push(17),
        Body::Timeout(tid) => {
            out.push(18);
            put_name(out, tid);
        }
    }
    let size = (out.len() - at - 2) as u16;
    out[at..at + 2].copy_from_slice(&size.to_be_bytes());
}

struct Unframer {
    server: u8,
    held: Vec<u8>,
    at: u64,
}

impl Unframer {
    fn give(&mut self, frame: &[u8], out: &mut Vec<Framed>) -> Result<(), (u64, u8)> {
        out.push(decode(self.server, &frame[2..]).map_err(|number| (self.at, number))?);
        self.at += frame.len() as u64;
        Ok(())
    }

    fn feed(&mut self, mut piece: &[u8], out: &mut Vec<Framed>) -> Result<(), (u64, u8)> {
        loop {
            if self.held.is_empty() {
                if piece.len() < 2 {
                    break;
                }
                let size = 2 + u16::from_be_bytes([piece[0], piece[1]]) as usize;
                if piece.len() < size {
                    break;
                }
                self.give(&piece[..size], out)?;
                piece = &piece[size..];
            } else {
                while self.held.len() < 2 {
                    if piece.is_empty() {
                        return Ok(());
                    }
                    self.held.push(piece[0]);
                    piece = &piece[1..];
                }
                let size = 2 + u16::from_be_bytes([self.held[0], self.held[1]]) as usize;
                let more = (size - self.held.len()).min(piece.len());
                self.held.extend_from_slice(&piece[..more]);
                piece = &piece[more..];
                if self.held.len() < size {
                    return Ok(());
                }
                let frame = std::mem::take(&mut self.held);
                self.give(&frame, out)?;
                self.held = frame;
                self.held.clear();
            }
        }
        self.held.extend_from_slice(piece);
        Ok(())
    }
}

fn main() {
    let size: usize = std::env::args().nth(1).map_or(1448, |it| it.parse().unwrap());
    let mut data = vec![];
    std::io::stdin().lock().read_to_end(&mut data).unwrap();
    if size == 0 {
        return;
    }
    let mut unframer = Unframer { server: 0, held: vec![], at: 0 };
    let (mut frames, mut written) = (vec![], vec![]);
    let (mut count, mut bytes) = (0, 0);
    for piece in data.chunks(size) {
        frames.clear();
        unframer.feed(piece, &mut frames).unwrap();
        count += frames.len();
        for it in &frames {
            written.clear();
            encode(it, &mut written);
            bytes += written.len();
        }
    }
    assert!(unframer.held.is_empty());
    writeln!(std::io::stdout(), "{count} frames, {bytes} bytes").unwrap();
}
