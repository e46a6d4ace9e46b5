//! The line protocol: one request to a line, one reply to a line, in the order asked. oracle/README.md has the grammar.

use std::fmt::{self, Display, Formatter};

#[derive(Clone, Debug, PartialEq)]
pub enum Request {
    /// A packet: decode it, show it in words, its size and its encoding into every room.
    Packet(Vec<u8>),
    /// A typed 08 or 10 with a UUID of any form: its size and its encoding into every room.
    Typed { op: u8, start: u16, end: u16, uuid: Vec<u8> },
    /// A walk of a reading cursor over these bytes.
    Read(Vec<u8>, Vec<ReadOp>),
    /// A walk of a writing cursor over a buffer with this content.
    Write(Vec<u8>, Vec<WriteOp>),
    /// A UUID from bytes, and what its functions say.
    Uuid(Vec<u8>),
    /// Whether two UUIDs are equal.
    Same(Vec<u8>, Vec<u8>),
    /// The text of an error code.
    Text(u8),
    /// An integer of 1, 2 or 4 bytes from the start of these bytes.
    Decode(usize, Vec<u8>),
    /// An integer of 1, 2 or 4 bytes put into a buffer with this content.
    Encode(usize, u32, Vec<u8>),
}

#[derive(Clone, Copy, Debug, PartialEq)]
pub enum ReadOp {
    /// An integer of 1, 2 or 4 bytes.
    Int(usize),
    Slice(u64),
    Consume(u64),
    Remaining,
    Reset,
    /// Where the position is within the bytes or at their end, move it on by this many, past the end too.
    Jump(u64),
}

#[derive(Clone, Debug, PartialEq)]
pub enum WriteOp {
    Int(usize, u32),
    Append(Vec<u8>),
    /// `write_buf`, and these bytes put at the start of what it lends, as many as fit.
    Fill(Vec<u8>),
    Commit(u64),
    Split(u64),
    Truncate(u64),
    Finish,
    Reset,
    Jump(u64),
}

pub fn hex(bytes: &[u8]) -> String {
    if bytes.is_empty() {
        return "-".into();
    }
    let mut s = String::with_capacity(2 * bytes.len());
    for b in bytes {
        s.push(char::from_digit((b >> 4) as u32, 16).unwrap().to_ascii_uppercase());
        s.push(char::from_digit((b & 15) as u32, 16).unwrap().to_ascii_uppercase());
    }
    s
}

fn letter(width: usize) -> char {
    match width {
        1 => 'b',
        2 => 'w',
        _ => 'd',
    }
}

impl Display for ReadOp {
    fn fmt(&self, f: &mut Formatter<'_>) -> fmt::Result {
        match self {
            ReadOp::Int(w) => write!(f, "{}", letter(*w)),
            ReadOp::Slice(n) => write!(f, "s{n}"),
            ReadOp::Consume(n) => write!(f, "c{n}"),
            ReadOp::Remaining => write!(f, "m"),
            ReadOp::Reset => write!(f, "z"),
            ReadOp::Jump(n) => write!(f, "j{n}"),
        }
    }
}

impl Display for WriteOp {
    fn fmt(&self, f: &mut Formatter<'_>) -> fmt::Result {
        match self {
            WriteOp::Int(w, v) => write!(f, "{}{:0n$X}", letter(*w), v, n = 2 * w),
            WriteOp::Append(b) => write!(f, "p{}", hex(b)),
            WriteOp::Fill(b) => write!(f, "u{}", hex(b)),
            WriteOp::Commit(n) => write!(f, "c{n}"),
            WriteOp::Split(n) => write!(f, "s{n}"),
            WriteOp::Truncate(n) => write!(f, "t{n}"),
            WriteOp::Finish => write!(f, "f"),
            WriteOp::Reset => write!(f, "z"),
            WriteOp::Jump(n) => write!(f, "j{n}"),
        }
    }
}

impl Display for Request {
    fn fmt(&self, f: &mut Formatter<'_>) -> fmt::Result {
        match self {
            Request::Packet(b) => write!(f, "P {}", hex(b)),
            Request::Typed { op, start, end, uuid } => write!(f, "Y {op:02X} {start:04X} {end:04X} {}", hex(uuid)),
            Request::Read(b, ops) => {
                write!(f, "R {}", hex(b))?;
                ops.iter().try_for_each(|op| write!(f, " {op}"))
            }
            Request::Write(b, ops) => {
                write!(f, "W {}", hex(b))?;
                ops.iter().try_for_each(|op| write!(f, " {op}"))
            }
            Request::Uuid(b) => write!(f, "U {}", hex(b)),
            Request::Same(a, b) => write!(f, "V {} {}", hex(a), hex(b)),
            Request::Text(c) => write!(f, "T {c:02X}"),
            Request::Decode(w, b) => write!(f, "D {} {}", letter(*w), hex(b)),
            Request::Encode(w, v, b) => write!(f, "E {}{v:0n$X} {}", letter(*w), hex(b), n = 2 * w),
        }
    }
}

/// What is said of one packet, by the Rust or by document 01; the rooms and the strict test are rules of document 01 alone.
#[derive(Clone, Debug, PartialEq)]
pub struct View {
    /// The packet in words, as `explain` has it: SIDE KIND NAME FIELDS.
    pub words: String,
    /// ` at=START+LENGTH` for a data field, and for the value of each item of 09 and 11.
    pub places: String,
    /// What encoding writes, in HEX.
    pub encoding: String,
    pub size: String,
}

impl Display for View {
    fn fmt(&self, f: &mut Formatter<'_>) -> fmt::Result {
        write!(f, "{} size={} encodes={}{}", self.words, self.size, self.encoding, self.places)
    }
}
