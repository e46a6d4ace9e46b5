//! What the crate answers. Everything here calls the five files; nothing here knows what document 01 asks.

use std::cell::Cell;
use std::fmt::Write as _;
use std::panic::{catch_unwind, AssertUnwindSafe};

use crate::att::*;
use crate::codec::{self, Decode, Encode, Type};
use crate::cursor::{ReadCursor, WriteCursor};
use crate::request::{hex, ReadOp, View, WriteOp};
use crate::types::uuid::Uuid;

/// A panic of the crate is an answer and makes no noise; one of the harness itself does.
pub fn hush() {
    let loud = std::panic::take_hook();
    std::panic::set_hook(Box::new(move |what| {
        if !CALLING.get() {
            loud(what);
        }
    }));
}

/// Runs it and says `None` where it panics.
pub fn caught<T>(f: impl FnOnce() -> T) -> Option<T> {
    CALLING.set(true);
    let said = catch_unwind(AssertUnwindSafe(f)).ok();
    CALLING.set(false);
    said
}

fn number(e: codec::Error) -> u8 {
    match e {
        codec::Error::InsufficientSpace => 1,
        codec::Error::InvalidValue => 2,
    }
}

// ---------------------------------------------------------------------------------------------- packets

pub enum Packet {
    Decoded(View, Rooms),
    Refused(u8),
    Panic,
}

/// What encoding does in the rooms 0, 1, .. up to three bytes more than is needed, as counts of rooms that follow one
/// another in this order.
#[derive(Clone, Copy, Debug, Default, PartialEq)]
pub struct Rooms {
    /// InsufficientSpace, nothing written.
    pub untouched: usize,
    /// InsufficientSpace, and a part of the encoding written from its start.
    pub partly: usize,
    /// Encoded, and the bytes behind left as they were.
    pub encoded: usize,
    /// Panics with nothing written (in any of the rooms).
    pub panics: usize,
    /// Anything else.
    pub odd: usize,
}

pub struct Encoded {
    /// `Some(0)` Ok, `Some(n)` refused, `None` panic.
    pub outcome: Option<u8>,
    pub bytes: Vec<u8>,
    /// How many bytes from the start were written, or `None` where others were.
    pub written: Option<usize>,
}

/// Encodes over two fills: a byte that is the same afterwards was written.
pub fn encode_into(room: usize, encode: impl Fn(&mut [u8]) -> Result<(), codec::Error>) -> Encoded {
    let (mut a, mut b) = (vec![0xAA; room], vec![0x55; room]);
    let mut once = |out: &mut [u8]| caught(|| encode(out)).map(|r| r.map_or_else(number, |()| 0));
    let (first, second) = (once(&mut a), once(&mut b));
    assert!(first == second, "an encoding that depends on what the room held");
    let written = a.iter().zip(&b).take_while(|(x, y)| x == y).count();
    let rest_stays = a[written..].iter().all(|x| *x == 0xAA) && b[written..].iter().all(|x| *x == 0x55);
    Encoded { outcome: first, bytes: a, written: rest_stays.then_some(written) }
}

pub fn rooms(full: &[u8], encode: impl Fn(&mut [u8]) -> Result<(), codec::Error>) -> Rooms {
    let mut r = Rooms::default();
    for room in 0..full.len() + 4 {
        let e = encode_into(room, &encode);
        let prefix = e.written.filter(|w| *w <= full.len() && e.bytes[..*w] == full[..*w]);
        match (e.outcome, prefix) {
            (Some(1), Some(0)) if r.partly + r.encoded == 0 => r.untouched += 1,
            (Some(1), Some(w)) if w > 0 && r.encoded == 0 => r.partly += 1,
            (Some(0), Some(w)) if w == full.len() => r.encoded += 1,
            (None, Some(0)) => r.panics += 1,
            _ => r.odd += 1,
        }
    }
    r
}

/// Where a part stands in the packet: the crate lends it, so its address says.
fn place(packet: &[u8], part: &[u8]) -> String {
    let at = (part.as_ptr() as usize).wrapping_sub(packet.as_ptr() as usize);
    if at > packet.len() || packet.len() - at < part.len() {
        return " at=outside".into();
    }
    format!(" at={at}+{}", part.len())
}

/// What is said of the items of a list, one behind the other.
fn listed<T>(mut next: impl FnMut() -> Option<Result<T, crate::Error>>, mut show: impl FnMut(T) -> String) -> String {
    let mut items = String::new();
    while let Some(item) = next() {
        match item {
            Ok(item) => items += &show(item),
            Err(e) => {
                items += &format!(" {e:?}");
                break;
            }
        }
    }
    items
}

/// The second byte of the encoding: the format and the item length are private to the iterators.
fn second(att: &Att) -> u8 {
    encode_into(2, |out| att.encode(out)).bytes[1]
}

/// TYPE, from the bytes of a UUID's own form.
fn kind(uuid: &Uuid) -> String {
    let mut big = uuid.as_raw().to_vec();
    big.reverse();
    if big.len() < 16 {
        return hex(&big);
    }
    [0..4, 4..6, 6..8, 8..10, 10..16].map(|part| hex(&big[part])).join("-")
}

/// The text of a code, where it has an end.
fn meaning(code: AttErrorCode) -> String {
    match text_into(code.to_u8(), 1000) {
        (true, text) => text,
        (false, _) => ENDLESS.into(),
    }
}

/// What stands for a text that never ends.
pub const ENDLESS: &str = "never ends";

/// The packet in words, and the places of its parts. Items of length 0 and 1 are not walked: see claims.rs.
fn fields(packet: &[u8], att: &Att) -> (String, String) {
    let part = |p: &[u8]| place(packet, p);
    let none = String::new();
    let by_type = |name: &str, it: &ReadByTypeIter| {
        let n = second(att);
        let (mut it, mut places) = (it.clone(), String::new());
        let items = match n {
            0 | 1 => String::new(),
            _ => listed(|| it.next(), |(h, d)| {
                places += &place(packet, d);
                format!(" item={h:04X}:{}", hex(d))
            }),
        };
        (format!("{name} item_len={n}{items}"), places)
    };
    let (kind_of, (words, places)) = match att {
        Att::Client(AttClient::Request(r)) => ("client request", request(r, part)),
        Att::Client(AttClient::Command(AttCmd::Write { handle, data })) => {
            ("client command", (format!("Write handle={handle:04X} data={}", hex(data)), part(data)))
        }
        Att::Client(AttClient::Confirmation(AttCfm::ConfirmIndication)) => {
            ("client confirmation", ("ConfirmIndication".into(), none))
        }
        Att::Server(AttServer::Response(r)) => ("server response", match r {
            AttRsp::ExchangeMtu { mtu } => (format!("ExchangeMtu mtu={mtu:04X}"), none),
            AttRsp::FindByTypeValue { it } => {
                let mut it = it.clone();
                (format!("FindByTypeValue{}", listed(|| it.next(), |(h, e)| format!(" item={h:04X}:{e:04X}"))), none)
            }
            AttRsp::FindInformation { it } => {
                let mut it = it.clone();
                let items = listed(|| it.next(), |(h, u)| format!(" item={h:04X}:{}", kind(&u)));
                (format!("FindInformation format={:02X}{items}", second(att)), none)
            }
            AttRsp::Error { request, handle, code } => {
                let (code, text) = (code.to_u8(), meaning(*code));
                (format!("Error request={request:02X} handle={handle:04X} code={code:02X} ({text})"), none)
            }
            AttRsp::ReadByType { it } => by_type("ReadByType", it),
            AttRsp::ReadByGroupType { it } => by_type("ReadByGroupType", it),
            AttRsp::Read { data } => (format!("Read data={}", hex(data)), part(data)),
            AttRsp::ReadBlob { data } => (format!("ReadBlob data={}", hex(data)), part(data)),
            AttRsp::Write => ("Write".into(), none),
        }),
        Att::Server(AttServer::Unsolicited(u)) => ("server unsolicited", match u {
            AttUns::Notify { handle, data } => (format!("Notify handle={handle:04X} data={}", hex(data)), part(data)),
            AttUns::Indicate { handle, data } => (format!("Indicate handle={handle:04X} data={}", hex(data)), part(data)),
        }),
    };
    (format!("{kind_of} {words}"), places)
}

fn request(r: &AttReq, part: impl Fn(&[u8]) -> String) -> (String, String) {
    let none = String::new();
    match r {
        AttReq::ReadByGroupType { start, end, group_type } => {
            (format!("ReadByGroupType start={start:04X} end={end:04X} group_type={}", kind(group_type)), none)
        }
        AttReq::ReadByType { start, end, attribute_type } => {
            (format!("ReadByType start={start:04X} end={end:04X} attribute_type={}", kind(attribute_type)), none)
        }
        AttReq::Read { handle } => (format!("Read handle={handle:04X}"), none),
        AttReq::Write { handle, data } => (format!("Write handle={handle:04X} data={}", hex(data)), part(data)),
        AttReq::ExchangeMtu { mtu } => (format!("ExchangeMtu mtu={mtu:04X}"), none),
        AttReq::FindByTypeValue { start_handle: s, end_handle: e, att_type, att_value } => {
            let value = hex(att_value);
            (format!("FindByTypeValue start_handle={s:04X} end_handle={e:04X} att_type={att_type:04X} att_value={value}"), part(att_value))
        }
        AttReq::FindInformation { start_handle, end_handle } => {
            (format!("FindInformation start_handle={start_handle:04X} end_handle={end_handle:04X}"), none)
        }
        AttReq::PrepareWrite { handle, offset, value } => {
            (format!("PrepareWrite handle={handle:04X} offset={offset:04X} value={}", hex(value)), part(value))
        }
        AttReq::ExecuteWrite { flags } => (format!("ExecuteWrite flags={flags:02X}"), none),
        AttReq::ReadMultiple { handles } => (format!("ReadMultiple handles={}", hex(handles)), part(handles)),
        AttReq::ReadBlob { handle, offset } => (format!("ReadBlob handle={handle:04X} offset={offset:04X}"), none),
    }
}

pub fn packet(bytes: &[u8]) -> Packet {
    let att = match caught(|| Att::decode(bytes)) {
        None => return Packet::Panic,
        Some(Err(e)) => return Packet::Refused(number(e)),
        Some(Ok(att)) => att,
    };
    let (words, places) = fields(bytes, &att);
    let encode = |out: &mut [u8]| att.encode(out);
    let full = encode_into(bytes.len() + 8, encode);
    let n = full.written.unwrap_or(0);
    let encoding = match full.outcome {
        Some(0) => hex(&full.bytes[..n]),
        Some(e) => format!("refused{e}"),
        None => "X".into(),
    };
    let size = caught(|| att.size()).map_or("X".into(), |n| n.to_string());
    // A packet that cannot be encoded panics in every room: all of a short one's are tried, a few of a long one's.
    let rooms = match full.outcome {
        Some(_) => rooms(&full.bytes[..n], encode),
        None => rooms(&bytes[..bytes.len().min(24)], encode),
    };
    Packet::Decoded(View { words, places, encoding, size }, rooms)
}

/// A typed 08 or 10: its encoding, what size says, and the rooms.
pub fn typed(op: u8, start: u16, end: u16, uuid: &[u8]) -> (Vec<u8>, usize, Rooms) {
    let uuid = Uuid::try_from(uuid).expect("a UUID");
    let att = Att::Client(AttClient::Request(match op {
        0x08 => AttReq::ReadByType { start, end, attribute_type: uuid },
        _ => AttReq::ReadByGroupType { start, end, group_type: uuid },
    }));
    let encode = |out: &mut [u8]| att.encode(out);
    let full = encode_into(64, encode);
    assert!(full.outcome == Some(0), "a typed request that is not encoded");
    let bytes = full.bytes[..full.written.expect("bytes from the start")].to_vec();
    let rooms = rooms(&bytes, encode);
    (bytes, att.size(), rooms)
}

// ---------------------------------------------------------------------------------------------- integers

pub fn decode_int(width: usize, bytes: &[u8]) -> Result<u32, u8> {
    match width {
        1 => u8::decode(bytes).map(u32::from),
        2 => u16::decode(bytes).map(u32::from),
        _ => u32::decode(bytes),
    }
    .map_err(number)
}

/// `None` where it panics.
pub fn encode_int(width: usize, value: u32, dest: &mut [u8]) -> Option<Result<(), u8>> {
    caught(|| match width {
        1 => (value as u8).encode(dest),
        2 => (value as u16).encode(dest),
        _ => value.encode(dest),
    })
    .map(|r| r.map_err(number))
}

// ---------------------------------------------------------------------------------------------- cursors

/// One step of a walk: what it said, where the cursor stands after it and what is available there; and whether the
/// cursor stood past the end before it.
#[derive(Clone, Debug, PartialEq)]
pub struct Step {
    pub answer: String,
    pub pos: u64,
    pub available: Option<u64>,
    pub past: bool,
}

thread_local! {
    static CALLING: Cell<bool> = const { Cell::new(false) };
    static STRIDE: Cell<usize> = const { Cell::new(0) };
    static ASKED: Cell<usize> = const { Cell::new(0) };
}

/// A type of our own whose size is what we like: the one way to put a cursor anywhere, since its fields are private.
struct Jump;

impl Type for Jump {
    /// Nothing while `write` looks for room (it asks twice), the stride when the position moves.
    fn size(&self) -> usize {
        let asked = ASKED.get();
        ASKED.set(asked + 1);
        if asked < 2 { 0 } else { STRIDE.get() }
    }
}

impl Decode<'_> for Jump {
    fn decode(_: &[u8]) -> Result<Self, codec::Error> {
        Ok(Jump)
    }
}

impl Encode for Jump {
    fn encode(&self, _: &mut [u8]) -> Result<(), codec::Error> {
        Ok(())
    }
}

fn said(r: Option<Result<String, codec::Error>>) -> String {
    match r {
        None => "X".into(),
        Some(Ok(s)) => s,
        Some(Err(e)) => format!("!{}", number(e)),
    }
}

pub fn jump_read(r: &mut ReadCursor, n: u64) {
    STRIDE.set(n as usize);
    ASKED.set(2);
    let _ = r.read::<Jump>();
}

pub fn walk_read(bytes: &[u8], ops: &[ReadOp]) -> Vec<Step> {
    let mut r = ReadCursor::new(bytes);
    let mut steps = Vec::new();
    for op in ops {
        let past = r.len() > bytes.len();
        let answer = match *op {
            ReadOp::Int(1) => said(caught(|| r.read::<u8>().map(|v| format!("{v:02X}")))),
            ReadOp::Int(2) => said(caught(|| r.read::<u16>().map(|v| format!("{v:04X}")))),
            ReadOp::Int(_) => said(caught(|| r.read::<u32>().map(|v| format!("{v:08X}")))),
            ReadOp::Slice(n) => said(caught(|| r.slice(n as usize).map(hex))),
            ReadOp::Consume(n) => said(caught(|| r.clone().consume(n as usize).map(hex))),
            ReadOp::Remaining => said(caught(|| Ok(hex(r.clone().remaining())))),
            ReadOp::Reset => {
                r.reset();
                "ok".into()
            }
            ReadOp::Jump(n) => {
                if !past {
                    jump_read(&mut r, n);
                }
                "ok".into()
            }
        };
        let available = caught(|| r.available()).map(|n| n as u64);
        steps.push(Step { answer, pos: r.len() as u64, available, past });
    }
    steps
}

/// The steps, and the buffer afterwards.
pub fn walk_write(content: &[u8], ops: &[WriteOp]) -> (Vec<Step>, Vec<u8>) {
    let mut buffer = content.to_vec();
    let mut pos = 0;
    let steps = ops.iter().map(|op| write_step(&mut buffer, &mut pos, op)).collect();
    (steps, buffer)
}

fn jump_write(w: &mut WriteCursor, n: usize) {
    STRIDE.set(n);
    ASKED.set(0);
    let _ = w.write(Jump);
}

/// `finish` uses the cursor up, so each step has a new one, put where the last one stood.
fn write_step(buffer: &mut [u8], pos: &mut usize, op: &WriteOp) -> Step {
    let length = buffer.len();
    let past = *pos > length;
    let mut w = WriteCursor::new(buffer);
    jump_write(&mut w, *pos);
    let ok = |r: Result<(), codec::Error>| r.map(|()| "ok".to_string());
    let answer = match op {
        WriteOp::Int(1, v) => said(caught(|| ok(w.write(*v as u8)))),
        WriteOp::Int(2, v) => said(caught(|| ok(w.write_ref(&(*v as u16))))),
        WriteOp::Int(_, v) => said(caught(|| ok(w.write(*v)))),
        WriteOp::Append(b) => said(caught(|| ok(w.append(b)))),
        WriteOp::Fill(b) => said(caught(|| {
            let part = w.write_buf();
            let n = b.len().min(part.len());
            part[..n].copy_from_slice(&b[..n]);
            Ok(part.len().to_string())
        })),
        WriteOp::Commit(n) => said(caught(|| ok(w.commit(*n as usize)))),
        WriteOp::Split(n) => said(caught(|| {
            w.split(*n as usize).map(|(mut a, mut b)| {
                assert!(a.len() == 0 && b.len() == 0, "parts that do not begin at 0");
                format!("{},{}", hex(a.write_buf()), hex(b.write_buf()))
            })
        })),
        WriteOp::Truncate(n) => {
            w.truncate(*n as usize);
            "ok".into()
        }
        WriteOp::Reset => {
            w.reset();
            "ok".into()
        }
        WriteOp::Jump(n) => {
            if !past {
                jump_write(&mut w, *n as usize);
            }
            "ok".into()
        }
        WriteOp::Finish => {
            let available = caught(|| w.available()).map(|n| n as u64);
            let answer = said(caught(|| Ok(hex(w.finish()))));
            return Step { answer, pos: *pos as u64, available, past };
        }
    };
    *pos = w.len();
    let available = caught(|| w.available()).map(|n| n as u64);
    Step { answer, pos: *pos as u64, available, past }
}

// ---------------------------------------------------------------------------------------------- UUIDs

pub fn uuid(bytes: &[u8]) -> Result<String, crate::Error> {
    let u = Uuid::try_from(bytes)?;
    let form = match u {
        Uuid::Uuid16(_) => 16,
        Uuid::Uuid32(_) => 32,
        Uuid::Uuid128(_) => 128,
    };
    let (att, used) = u.att_bytes();
    // `as_raw` lends its bytes; document 01 has them by value in sixteen, 00 behind.
    let mut raw = [0; 16];
    raw[..u.as_raw().len()].copy_from_slice(u.as_raw());
    let short = caught(|| u.as_short()).map_or("X".into(), |v| format!("{v:04X}"));
    Ok(format!("{form} {} {}/{used} {}/{} {short}", u.get_att_type(), hex(&att), hex(&raw), u.as_raw().len()))
}

pub fn same(a: &[u8], b: &[u8]) -> bool {
    Uuid::try_from(a).expect("a UUID") == Uuid::try_from(b).expect("a UUID")
}

// ---------------------------------------------------------------------------------------------- texts

/// Writes the text of a code and ends. It is run as a child process, since without a text of its own it never returns.
pub fn print_text(code: &str) -> i32 {
    let code = u8::from_str_radix(code, 16).expect("a code of two hexadecimal digits");
    print!("{}", AttErrorCode::new(code));
    0
}

/// The text, or `None` where the process is ended by a signal (the recursion has used up its stack).
pub fn text(code: u8) -> Option<String> {
    use std::os::unix::process::ExitStatusExt;
    let program = std::env::current_exe().expect("a path of our own");
    let out = std::process::Command::new(program).args(["text", &format!("{code:02X}")]).output().expect("a child");
    if out.status.success() {
        return Some(String::from_utf8(out.stdout).expect("a text"));
    }
    assert!(out.status.signal().is_some(), "the child was not ended by a signal");
    None
}

/// What arrives in a writer of this room that fails when it is full.
pub fn text_into(code: u8, room: usize) -> (bool, String) {
    struct Full {
        left: usize,
        text: String,
    }
    impl std::fmt::Write for Full {
        fn write_str(&mut self, s: &str) -> std::fmt::Result {
            for c in s.chars() {
                if self.left == 0 {
                    return Err(std::fmt::Error);
                }
                self.left -= 1;
                self.text.push(c);
            }
            Ok(())
        }
    }
    let mut w = Full { left: room, text: String::new() };
    let ok = write!(w, "{}", AttErrorCode::new(code)).is_ok();
    (ok, w.text)
}
