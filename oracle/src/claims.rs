//! What docs/DIFFERENCES.md says of the crate where there is nothing of ours to hold against it: each sentence is run.

use crate::att::*;
use crate::checked;
use crate::codec::{self, Decode, Encode, Type};
use crate::crate_side::{caught, encode_into, text_into, Step};
use crate::cursor::{ReadCursor, WriteCursor};
use crate::entries::Tally;
use crate::request::{hex, ReadOp, WriteOp};
use crate::types::uuid::Uuid;

type Next<'a> = Box<dyn FnMut() -> Option<Result<(), crate::Error>> + 'a>;

/// The next item of a decoded 05, 07, 09 or 11, the iterator moved on in the packet itself.
fn next_of(att: &mut Att) -> Option<Option<Result<(), crate::Error>>> {
    let Att::Server(AttServer::Response(r)) = att else { return None };
    caught(|| match r {
        AttRsp::FindInformation { it } => it.next().map(|r| r.map(|_| ())),
        AttRsp::FindByTypeValue { it } => it.next().map(|r| r.map(|_| ())),
        AttRsp::ReadByType { it } | AttRsp::ReadByGroupType { it } => it.next().map(|r| r.map(|_| ())),
        _ => None,
    })
}

fn encoding(att: &Att) -> (Option<u8>, Vec<u8>) {
    let e = encode_into(600, |out| att.encode(out));
    (e.outcome, e.bytes[..e.written.expect("bytes from the start")].to_vec())
}

/// D-13 and D-14: 09 or 11 with item length 0 or 1.
pub fn short_items(b: &[u8], t: &mut Tally) {
    let (item, rest) = (b[1], b.len() - 2);
    let shown = hex(b);
    let mut att = Att::decode(b).expect("it decodes");
    t.claim("D-13", att.size() == 3, &shown);

    let space = Some(Some(Err(crate::Error::Codec(codec::Error::InsufficientSpace))));
    let value = Some(Some(Err(crate::Error::Codec(codec::Error::InvalidValue))));
    let each: Vec<_> = (0..rest / 2 + 4).map(|_| next_of(&mut att)).collect();
    let holds = match rest {
        _ if rest >= 2 && checked() => each[0].is_none(),
        _ => {
            let end = if item == 1 && rest % 2 == 0 { Some(None) } else { value };
            each[..rest / 2].iter().all(|r| *r == space) && each[rest / 2..].iter().all(|r| *r == end)
        }
    };
    t.claim("D-13", holds, &shown);

    let (outcome, bytes) = encoding(&Att::decode(b).expect("it decodes"));
    let panics = rest >= 2 && checked();
    t.claim("D-14", outcome == if panics { None } else { Some(0) } && bytes == b[..2], &shown);
}

/// D-15, D-17 and D-19: a decoded packet whose iterator was moved on, and packets read from or written to a cursor.
pub fn packet_and_cursor(b: &[u8], t: &mut Tally) {
    let (head, each) = match b[0] {
        0x05 => (2, if b[1] == 1 { 4 } else { 18 }),
        0x07 => (1, 4),
        0x09 | 0x11 => (2, b[1] as usize),
        0x16 | 0x18 | 0x20 => return t.claim("D-17", unread(b) && unwritten(b), &hex(b)),
        _ => return,
    };
    let items = (b.len() - head) / each;
    advanced(b, head, each, items, t);
    from_cursor(b, head, t);
    into_cursor(b, head, items, t);
}

fn unread(b: &[u8]) -> bool {
    let mut r = ReadCursor::new(b);
    caught(|| r.read::<Att>().map(|_| ())).is_none() && r.len() == 0
}

fn unwritten(b: &[u8]) -> bool {
    let mut room = [0xAA; 600];
    let mut w = WriteCursor::new(&mut room);
    let att = Att::decode(b).expect("it decodes");
    let panics = caught(|| w.write(att)).is_none() && w.len() == 0;
    panics && room == [0xAA; 600]
}

/// Encoding writes only the items left, and the size goes up with each item taken.
fn advanced(b: &[u8], head: usize, each: usize, items: usize, t: &mut Tally) {
    let mut att = Att::decode(b).expect("it decodes");
    let fresh = att.size();
    for taken in 1..=items.min(3) {
        let ok = next_of(&mut att) == Some(Some(Ok(())));
        let left = [&b[..head], &b[head + taken * each..head + items * each]].concat();
        let holds = ok && att.size() == fresh + taken * each && encoding(&att) == (Some(0), left);
        t.claim("D-15", holds, &hex(b));
    }
}

/// The position after reading a packet is the size that the crate gives it: 4, 2, 3, 3, past the end of a short one.
fn from_cursor(b: &[u8], head: usize, t: &mut Tally) {
    let mut r = ReadCursor::new(b);
    let read = r.read::<Att>().is_ok();
    let wrong = if b[0] == 0x05 { 4 } else { head + 1 };
    t.claim("D-17", read && r.len() == wrong, &hex(b));
}

/// With items: InsufficientSpace though there is room, and a part written. Without: the position is moved too far.
fn into_cursor(b: &[u8], head: usize, items: usize, t: &mut Tally) {
    let (mut a, mut z) = (vec![0xAA; b.len() + 20], vec![0x55; b.len() + 20]);
    let write = |room: &mut [u8]| {
        let mut w = WriteCursor::new(room);
        let said = w.write_ref(&Att::decode(b).expect("it decodes"));
        (said, w.len())
    };
    let said = write(&mut a);
    let again = write(&mut z);
    let written = a.iter().zip(&z).take_while(|(x, y)| x == y).count();
    let (wrong, partly) = if b[0] == 0x05 { (4, 4) } else { (head + 1, head) };
    let holds = if items > 0 {
        said == (Err(codec::Error::InsufficientSpace), 0) && written == partly
    } else {
        said == (Ok(()), wrong) && written == head
    };
    t.claim("D-19", holds && said == again && a[..written] == b[..written], &hex(b));
}

/// D-16: a step of the reading cursor from past the end, at position `was` of `length`.
pub fn read_past(op: &ReadOp, s: &Step, was: u64, length: usize) -> bool {
    let wrapped = (length as u64).wrapping_sub(s.pos);
    let room = (length as u64).wrapping_sub(was);
    let available = s.pos <= length as u64 || s.available == if checked() { None } else { Some(wrapped) };
    let answer = match op {
        _ if !s.past => true,
        ReadOp::Slice(n) | ReadOp::Consume(n) if !checked() && *n > room => s.answer == "!1",
        ReadOp::Int(_) | ReadOp::Slice(_) | ReadOp::Consume(_) | ReadOp::Remaining => s.answer == "X",
        ReadOp::Reset | ReadOp::Jump(_) => s.answer == "ok",
    };
    let kept = !s.past || s.pos == was || *op == ReadOp::Reset;
    available && answer && kept
}

/// D-18: a step of the writing cursor from past the end, at position `was` of `length`.
pub fn write_past(op: &WriteOp, s: &Step, was: u64, length: usize) -> bool {
    let wrapped = (length as u64).wrapping_sub(s.pos);
    let room = (length as u64).wrapping_sub(was);
    let available = s.pos <= length as u64 || s.available == if checked() { None } else { Some(wrapped) };
    let answer = match op {
        _ if !s.past => true,
        WriteOp::Truncate(_) | WriteOp::Reset | WriteOp::Jump(_) => s.answer == "ok",
        WriteOp::Commit(n) | WriteOp::Split(n) if !checked() && *n > room => s.answer == "!1",
        WriteOp::Commit(_) if !checked() => s.answer == "ok",
        WriteOp::Split(n) if !checked() && *n <= length as u64 => s.answer.contains(','),
        _ => s.answer == "X",
    };
    available && answer
}

/// D-20: an error code has no length test of its own.
pub fn code_from(b: &[u8], t: &mut Tally) {
    let said = caught(|| AttErrorCode::decode(b).map(|c| c.to_u8()));
    if b.is_empty() {
        let cursor = caught(|| ReadCursor::new(b).read::<AttErrorCode>().map(|c| c.to_u8()));
        t.claim("D-20", said.is_none() && cursor.is_none(), "AttErrorCode::decode of nothing");
    } else if said != Some(Ok(b[0])) {
        t.unlisted_as(format!("AttErrorCode::decode of {}", hex(b)));
    }
}

pub fn code_into(b: &[u8], t: &mut Tally) {
    let mut out = b.to_vec();
    let said = caught(|| AttErrorCode::new(0x5A).encode(&mut out));
    if b.is_empty() {
        t.claim("D-20", said.is_none(), "AttErrorCode::encode into nothing");
    } else if said != Some(Ok(())) || out[0] != 0x5A || out[1..] != b[1..] {
        t.unlisted_as(format!("AttErrorCode::encode into {}", hex(b)));
    }
}

/// D-21: into a slice that is not as long as the form.
pub fn uuid_into(b: &[u8], t: &mut Tally) {
    let u = Uuid::try_from(b).expect("a UUID");
    for room in [0, b.len() - 1, b.len(), b.len() + 1] {
        let (mut one, mut two) = (vec![0xAA; room], vec![0xAA; room]);
        let bytes = caught(|| u.bytes(&mut one));
        let encode = caught(|| u.encode(&mut two));
        if room == b.len() {
            if one != b || two != b || Type::size(&u) != room {
                t.unlisted_as(format!("Uuid::bytes of {}", hex(b)));
            }
        } else {
            t.claim("D-21", bytes.is_none() && encode.is_none(), &hex(b));
        }
    }
}

/// D-25: 00 00 first means 128-bit, anything else 16-bit.
pub fn uuid_decode(b: &[u8], t: &mut Tally) {
    let said = Uuid::decode(b);
    let holds = match b {
        [] | [_] => said == Err(codec::Error::InvalidValue),
        [0, 0, ..] if b.len() < 16 => said == Err(codec::Error::InvalidValue),
        [0, 0, ..] => said == Ok(Uuid::try_from(&b[..16]).unwrap()),
        _ => said == Ok(Uuid::try_from(&b[..2]).unwrap()),
    };
    t.claim("D-25", holds, &hex(b));
}

/// D-23: an unknown code into a writer that fails when full fills it with the beginning, over and over.
pub fn text_full(code: u8, unknown: bool, t: &mut Tally) {
    if unknown {
        let (ok, text) = text_into(code, 40);
        t.claim("D-23", !ok && text == "unknown error code unknown error code un", &format!("{code:02X}"));
    }
}

/// D-24: what the crate encodes for a typed 08 or 10 decodes again, save 10 with a 128-bit UUID.
pub fn decodes_its_own(op: u8, bytes: &[u8], t: &mut Tally) {
    let decoded = caught(|| Att::decode(bytes).is_ok());
    if op == 0x10 && bytes.len() == 21 {
        t.claim("D-24", decoded.is_none(), &hex(bytes));
    } else if decoded != Some(true) {
        t.unlisted_as(format!("{} does not decode", hex(bytes)));
    }
}
