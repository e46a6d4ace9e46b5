//! The fixed list: requests with the answers that the program must give, to be replayed with no Rust at hand.
//! A line is `TAG REQUEST = REPLY`, and where the tag is not `=`, ` | ` and what the crate says or does.

use crate::crate_side;
use crate::entries::{self, judge, Tally};
use crate::inputs::{filled, read_walk, write_walk, Dice};
use crate::paper::{Paper, ROWS};
use crate::request::{hex, ReadOp, Request, WriteOp};

pub fn requests() -> Vec<Request> {
    let mut out = Vec::new();
    let mut packet = |parts: &[&[u8]]| out.push(Request::Packet(parts.concat()));
    cases_of_document_01(&mut packet);
    every_opcode(&mut packet);
    item_boundaries(&mut packet);
    large(&mut packet);
    out.extend((0..=255).map(Request::Text));
    out.extend(uuids());
    out.extend(integers());
    out.extend(walks());
    let mut once = Vec::new();
    for r in out {
        if !once.contains(&r) {
            once.push(r);
        }
    }
    once
}

fn cases_of_document_01(packet: &mut dyn FnMut(&[&[u8]])) {
    let cases: [&[u8]; 10] = [
        &[],
        &[0x0A, 0x34, 0x12],
        &[0x0A],
        &[0x0A, 0x34, 0x12, 0x99],
        &[0x01, 0x0A, 0x01, 0x00],
        &[0x01, 0x0A, 0x01, 0x00, 0x0A],
        &[0x09, 0x03, 0x05, 0x00, 0xAA, 0x06, 0x00],
        &[0x09, 0x01],
        &[0x05, 0x01],
        &[0x05, 0x03],
    ];
    cases.iter().for_each(|c| packet(&[c]));
}

/// Opcodes without a row once each; those with one, and 17, 19 and 21, at payload lengths 0 to 24.
fn every_opcode(packet: &mut dyn FnMut(&[&[u8]])) {
    for op in 0..=255u8 {
        let row = ROWS.iter().any(|r| r.0 == op) || [0x17, 0x19, 0x21].contains(&op);
        if !row {
            packet(&[&[op], &filled(6, op)]);
            continue;
        }
        for n in 0..=24 {
            // The first byte is 05's format and 09's and 11's item length, so it has to be small for these.
            let first = match op {
                0x05 => 1 + (n % 2) as u8,
                0x09 | 0x11 => 2 + (n % 5) as u8,
                _ => 0x1B + n as u8,
            };
            packet(&[&[op], &filled(n, first)]);
        }
    }
}

fn item_boundaries(packet: &mut dyn FnMut(&[&[u8]])) {
    for op in [0x09, 0x11] {
        for item in [0u8, 1, 2, 3, 4, 5, 6, 7, 19, 20, 21, 22, 127, 128, 254, 255] {
            let n = item as usize;
            for rest in [0, 1, 2, n.saturating_sub(1), n, n + 1, (2 * n).saturating_sub(1), 2 * n, 2 * n + 1, 3 * n] {
                if rest <= 300 {
                    packet(&[&[op, item], &filled(rest, 0x40)]);
                }
            }
        }
    }
    for rest in [0, 1, 3, 4, 5, 7, 8, 9, 12, 17, 18, 19, 20, 35, 36, 37, 40] {
        packet(&[&[0x05, 1], &filled(rest, 0x50)]);
        packet(&[&[0x05, 2], &filled(rest, 0x60)]);
        packet(&[&[0x07], &filled(rest, 0x70)]);
    }
    for format in [0u8, 3, 4, 0x7F, 0x80, 0xFF] {
        packet(&[&[0x05, format], &filled(4, 1)]);
    }
}

fn large(packet: &mut dyn FnMut(&[&[u8]])) {
    for row in &ROWS {
        for n in [63, 255] {
            let first = if row.0 == 0x05 { 1 } else { 9 };
            packet(&[&[row.0], &filled(n, first)]);
        }
    }
    for op in [0x06, 0x0B, 0x12, 0x16, 0x1B, 0x52] {
        packet(&[&[op], &filled(516, 2)]);
    }
}

fn uuids() -> Vec<Request> {
    let mut out: Vec<Request> = (0..=18).map(|n| Request::Uuid(filled(n, 0x0F))).collect();
    let short = vec![0x00, 0x28];
    let four = vec![0x00, 0x28, 0, 0];
    let long = vec![0xFB, 0x34, 0x9B, 0x5F, 0x80, 0, 0, 0x80, 0, 0x10, 0, 0, 0x00, 0x28, 0, 0];
    let forms = [short, four, long];
    out.extend(forms.iter().map(|u| Request::Uuid(u.clone())));
    for a in &forms {
        out.extend(forms.iter().map(|b| Request::Same(a.clone(), b.clone())));
        let mut last = a.clone();
        *last.last_mut().unwrap() ^= 0x80;
        out.push(Request::Same(a.clone(), last));
    }
    for op in [0x08, 0x10] {
        out.extend(forms.iter().map(|u| Request::Typed { op, start: 0x0102, end: 0xFF03, uuid: u.clone() }));
    }
    out
}

fn integers() -> Vec<Request> {
    let mut out = Vec::new();
    for (width, value) in [(1, 0x12), (2, 0x1234), (4, 0x1234_5678)] {
        for room in 0..=5 {
            out.push(Request::Decode(width, filled(room, 0x81)));
            out.push(Request::Encode(width, value, vec![0xAA; room]));
        }
    }
    out
}

/// Walks on both sides of the end: document 01's and some at random.
fn walks() -> Vec<Request> {
    let ten = filled(10, 0);
    let at_4 = |then: &[WriteOp]| Request::Write(ten.clone(), [&[WriteOp::Commit(4)], then].concat());
    let past = [ReadOp::Jump(4)];
    let every = [ReadOp::Int(1), ReadOp::Int(2), ReadOp::Int(4), ReadOp::Slice(0), ReadOp::Consume(0), ReadOp::Remaining];
    let mut out = vec![
        at_4(&[WriteOp::Split(6), WriteOp::Split(7), WriteOp::Split(0), WriteOp::Finish]),
        at_4(&[WriteOp::Commit(6), WriteOp::Split(0), WriteOp::Commit(1), WriteOp::Int(1, 1), WriteOp::Append(vec![])]),
        at_4(&[WriteOp::Truncate(9), WriteOp::Truncate(2), WriteOp::Fill(vec![1, 2, 3]), WriteOp::Finish]),
        at_4(&[WriteOp::Append(vec![7; 7]), WriteOp::Int(4, 0x1234_5678), WriteOp::Int(4, 0x9ABC_DEF0), WriteOp::Int(2, 0x55AA)]),
        at_4(&[WriteOp::Jump(7), WriteOp::Append(vec![]), WriteOp::Commit(0), WriteOp::Fill(vec![9]), WriteOp::Split(0)]),
        at_4(&[WriteOp::Jump(7), WriteOp::Finish, WriteOp::Int(1, 9), WriteOp::Truncate(10), WriteOp::Finish]),
        Request::Read(vec![1], [&[ReadOp::Int(2), ReadOp::Slice(2), ReadOp::Slice(1)], &every[..]].concat()),
        Request::Read(vec![1, 2, 3], [&past[..], &every[..], &[ReadOp::Reset, ReadOp::Int(2)]].concat()),
        Request::Read(vec![1, 2, 3], vec![ReadOp::Consume(2), ReadOp::Slice(u64::MAX), ReadOp::Int(2), ReadOp::Int(2)]),
    ];
    let mut dice = Dice::new(7);
    for _ in 0..15 {
        out.push(read_walk(&mut dice));
        out.push(write_walk(&mut dice));
    }
    out
}

/// What the crate says or does, for a line whose tag is an entry.
fn crate_says(r: &Request) -> String {
    match r {
        Request::Packet(b) => entries::shown(&crate_side::packet(b)),
        Request::Uuid(b) => crate_side::uuid(b).unwrap_or_else(|e| format!("{e:?}")),
        Request::Typed { op, start, end, uuid } => {
            let (bytes, size, _) = crate_side::typed(*op, *start, *end, uuid);
            format!("{} {size}", hex(&bytes))
        }
        Request::Text(_) => "never ends".into(),
        Request::Encode(..) => "X".into(),
        _ => "X past the end".into(),
    }
}

pub fn line(r: &Request) -> String {
    let reply = Paper::default().reply(r);
    let mut t = Tally::default();
    judge(r, &reply, &mut t);
    assert!(t.unlisted() == 0, "{r}: {:?}", t.shown);
    // Rooms are a rule and say nothing of the answer (D-07, D-22); what is said of the crate alone has no line.
    let of_answers = ["D-01", "D-02", "D-03", "D-04", "D-05", "D-06", "D-08", "D-09", "D-10", "D-11", "D-12", "D-16", "D-18"];
    let tags: Vec<&str> = t.met.keys().copied().filter(|e| of_answers.contains(e)).collect();
    if tags.is_empty() {
        return format!("= {r} = {reply}");
    }
    format!("{} {r} = {reply} | {}", tags.join(","), crate_says(r))
}

pub fn print() -> i32 {
    println!("# What the program must answer. Made by the oracle's harness from the Rust and document 01: oracle/README.md.");
    for r in requests() {
        println!("{}", line(&r));
    }
    0
}
