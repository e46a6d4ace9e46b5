//! Document 01 as read for the comparison: what has to be answered where the Rust has no usable answer. It stands in for
//! the program too, with single faults put into it (faults.rs), to see that each would be found.

use crate::faults::{Fault, Knob, Slip};
use crate::request::{hex, ReadOp, Request, View, WriteOp};

/// What follows the fixed fields of a packet.
#[derive(Clone, Copy, PartialEq)]
pub enum Rest {
    Nothing,
    Data,
    Uuid,
    /// 05: pairs of a handle and a UUID, whose length the format says.
    Infos,
    /// 07: pairs of handles.
    Pairs,
    /// 09, 11: items of the length that the item length says.
    Items,
}

/// A row of the table "Packets": opcode, the packet's name in words, names and widths of the fixed fields, what follows
/// them, and its name.
pub struct Row(pub u8, pub &'static str, pub &'static [(&'static str, usize)], pub Rest, pub &'static str);

pub const ROWS: [Row; 24] = [
    Row(0x01, "server response Error", &[("request", 1), ("handle", 2), ("code", 1)], Rest::Nothing, ""),
    Row(0x02, "client request ExchangeMtu", &[("mtu", 2)], Rest::Nothing, ""),
    Row(0x03, "server response ExchangeMtu", &[("mtu", 2)], Rest::Nothing, ""),
    Row(0x04, "client request FindInformation", &[("start_handle", 2), ("end_handle", 2)], Rest::Nothing, ""),
    Row(0x05, "server response FindInformation", &[("format", 1)], Rest::Infos, ""),
    Row(0x06, "client request FindByTypeValue", &[("start_handle", 2), ("end_handle", 2), ("att_type", 2)], Rest::Data, "att_value"),
    Row(0x07, "server response FindByTypeValue", &[], Rest::Pairs, ""),
    Row(0x08, "client request ReadByType", &[("start", 2), ("end", 2)], Rest::Uuid, "attribute_type"),
    Row(0x09, "server response ReadByType", &[("item_len", 1)], Rest::Items, ""),
    Row(0x0A, "client request Read", &[("handle", 2)], Rest::Nothing, ""),
    Row(0x0B, "server response Read", &[], Rest::Data, "data"),
    Row(0x0C, "client request ReadBlob", &[("handle", 2), ("offset", 2)], Rest::Nothing, ""),
    Row(0x0D, "server response ReadBlob", &[], Rest::Data, "data"),
    Row(0x10, "client request ReadByGroupType", &[("start", 2), ("end", 2)], Rest::Uuid, "group_type"),
    Row(0x11, "server response ReadByGroupType", &[("item_len", 1)], Rest::Items, ""),
    Row(0x12, "client request Write", &[("handle", 2)], Rest::Data, "data"),
    Row(0x13, "server response Write", &[], Rest::Nothing, ""),
    Row(0x16, "client request PrepareWrite", &[("handle", 2), ("offset", 2)], Rest::Data, "value"),
    Row(0x18, "client request ExecuteWrite", &[("flags", 1)], Rest::Nothing, ""),
    Row(0x1B, "server unsolicited Notify", &[("handle", 2)], Rest::Data, "data"),
    Row(0x1D, "server unsolicited Indicate", &[("handle", 2)], Rest::Data, "data"),
    Row(0x1E, "client confirmation ConfirmIndication", &[], Rest::Nothing, ""),
    Row(0x20, "client request ReadMultiple", &[], Rest::Data, "handles"),
    Row(0x52, "client command Write", &[("handle", 2)], Rest::Data, "data"),
];

pub struct Wanted {
    pub view: View,
    /// Rooms refused with 1 and nothing written, then rooms encoded with the bytes behind left as they were.
    pub rooms: String,
    pub strict: bool,
}

impl Wanted {
    /// The line of `explain`, and behind it the rooms and the places.
    fn line(&self) -> String {
        let View { words, places, encoding, size } = &self.view;
        let form = if self.strict { "strict".into() } else { format!("tolerant encodes={encoding}") };
        format!("{words} size={size} {form} rooms={}{places}", self.rooms)
    }
}

#[derive(Default)]
pub struct Paper {
    pub fault: Option<Fault>,
}

fn little(bytes: &[u8]) -> u32 {
    bytes.iter().rev().fold(0, |n, b| n * 256 + *b as u32)
}

/// TYPE: the number as it is read, or the usual form of a 128-bit UUID.
fn kind_of(own: &[u8]) -> String {
    let big: Vec<u8> = own.iter().rev().copied().collect();
    match big.len() {
        16 => [0..4, 4..6, 6..8, 8..10, 10..16].map(|part| hex(&big[part])).join("-"),
        _ => hex(&big),
    }
}

fn whole_items(rest: usize, each: usize) -> usize {
    rest - rest % each
}

impl Paper {
    fn knob(&self, op: u8, knob: Knob) -> bool {
        self.fault == Some(Fault::Row(op, knob))
    }

    fn slip(&self, slip: Slip) -> bool {
        self.fault == Some(Fault::Slip(slip))
    }

    pub fn reply(&self, request: &Request) -> String {
        match request {
            Request::Packet(b) => self.packet(b).map_or("refused 2 InvalidValue".into(), |w| w.line()),
            Request::Typed { op, start, end, uuid } => self.typed(*op, *start, *end, uuid),
            Request::Read(b, ops) => self.walk_read(b, ops),
            Request::Write(b, ops) => self.walk_write(b, ops),
            Request::Uuid(b) => self.uuid(b),
            Request::Same(a, b) => {
                let widened = self.slip(Slip::EqualWhenWidened) && self.att_bytes(a).0 == self.att_bytes(b).0;
                String::from(if a == b || widened { "equal" } else { "different" })
            }
            Request::Text(c) => self.text(*c),
            Request::Decode(w, b) => match self.int(*w, b, 0) {
                Some(v) => format!("{v:0n$X}", n = 2 * w),
                None => "!2".into(),
            },
            Request::Encode(w, v, b) => {
                let mut out = b.clone();
                let n = if self.slip(Slip::IntNeedsExactRoom) { b.len() } else { *w };
                if out.len() < *w || n != *w {
                    return format!("!1 {}", hex(&out));
                }
                out[..*w].copy_from_slice(&v.to_le_bytes()[..*w]);
                format!("ok {}", hex(&out))
            }
        }
    }

    /// `None` is InvalidValue.
    pub fn packet(&self, packet: &[u8]) -> Option<Wanted> {
        let (&first, payload) = packet.split_first()?;
        let op = match self.fault {
            Some(Fault::Slip(Slip::TakesReply(as_op, reply))) if first == reply => as_op,
            _ => first,
        };
        let Row(_, name, fields, kind, part) = ROWS.iter().find(|r| r.0 == op && !self.knob(op, Knob::Dropped))?;
        let fixed: usize = fields.iter().map(|f| f.1).sum();
        let least = fixed + self.knob(op, Knob::OneMoreToDecode) as usize;
        if payload.len() < least && !(self.knob(op, Knob::OneLessToDecode) && payload.len() + 1 == fixed) {
            return None;
        }
        let mut padded = packet.to_vec();
        padded.resize(packet.len().max(1 + fixed), 0);
        let rest = payload.len().saturating_sub(fixed);
        let head = padded[1..1 + fixed].first().copied().unwrap_or(0) as usize;
        let each = match kind {
            Rest::Uuid if rest == 16 && self.knob(op, Knob::LongRefused) => return None,
            Rest::Uuid if rest != 2 && rest != 16 && !(rest == 4 && self.knob(op, Knob::TakesFourBytes)) => return None,
            Rest::Infos if head != 1 && head != 2 => return None,
            Rest::Items if head < 2 => return None,
            Rest::Infos => [4, 18][head - 1],
            Rest::Pairs => 4,
            Rest::Items => head,
            _ => 1,
        } + self.knob(op, Knob::ItemOneLonger) as usize;
        let listed = matches!(kind, Rest::Infos | Rest::Pairs | Rest::Items);
        let kept = match kind {
            Rest::Nothing => 0,
            _ if self.knob(op, Knob::TailKept) => rest,
            _ => whole_items(rest, each),
        };
        let at = 1 + fixed + self.knob(op, Knob::PartOneOn) as usize;
        let n = 1 + fixed + kept;
        let size = n + self.knob(op, Knob::SizeOneMore) as usize;
        let strict = match kind {
            Rest::Nothing => rest == 0,
            Rest::Data => op != 0x20 || (rest >= 4 && rest % 2 == 0),
            Rest::Uuid => true,
            _ => rest >= each && rest % each == 0 && (op != 0x11 || each >= 4),
        } != self.knob(op, Knob::StrictTurned);
        let (follows, places) = match kind {
            Rest::Nothing => self.meaning(op, &padded),
            Rest::Data => (format!(" {part}={}", hex(packet.get(at..).unwrap_or(&[]))), format!(" at={at}+{}", packet.len().saturating_sub(at))),
            Rest::Uuid => (format!(" {part}={}", kind_of(&payload[fixed..])), String::new()),
            _ => self.items(packet, *kind, at, 1 + fixed + whole_items(rest, each), each),
        };
        let words = format!("{}{}{follows}", self.name(op, name), self.numbers(op, &padded[1..], fields));
        debug_assert!(listed || each == 1 || self.fault.is_some());
        let view = View { words, places, encoding: hex(&padded[..n]), size: size.to_string() };
        Some(Wanted { view, rooms: self.rooms(op, n), strict })
    }

    fn name(&self, op: u8, name: &str) -> String {
        if !self.knob(op, Knob::OtherCase) {
            return name.into();
        }
        ROWS.iter().find(|r| r.0 != op && r.1.starts_with(&name[..6])).unwrap().1.into()
    }

    /// Behind an error's code, its text in parentheses; nothing in another packet that ends with its fields.
    fn meaning(&self, op: u8, packet: &[u8]) -> (String, String) {
        let text = if op == 0x01 { format!(" ({})", self.text_of(packet[4])) } else { String::new() };
        (text, String::new())
    }

    fn rooms(&self, op: u8, n: usize) -> String {
        if self.knob(op, Knob::WritesOnRefusal) {
            return "1/0".into();
        }
        if self.knob(op, Knob::WritesBehind) {
            return format!("{n}/1");
        }
        let more = self.knob(op, Knob::NeedsOneMoreRoom) as usize;
        format!("{}/{}", n + more, 4 - more)
    }

    fn numbers(&self, op: u8, payload: &[u8], fields: &[(&str, usize)]) -> String {
        let (mut at, mut out) = (0, Vec::new());
        for (name, w) in fields {
            let mut bytes = payload[at..at + w].to_vec();
            if self.knob(op, Knob::BigEndian) {
                bytes.reverse();
            }
            let v = little(&bytes);
            out.push(if *name == "item_len" { v.to_string() } else { format!("{v:0n$X}", n = 2 * w) });
            at += w;
        }
        if self.knob(op, Knob::FieldsSwapped) && out.len() > 1 {
            let last = out.len() - 1;
            out.swap(0, last);
        }
        let end = if self.knob(op, Knob::FieldMisnamed) { "s" } else { "" };
        fields.iter().zip(out).map(|((name, _), v)| format!(" {name}{end}={v}")).collect()
    }

    /// The items in words, and the places of the values of 09's and 11's.
    fn items(&self, packet: &[u8], kind: Rest, at: usize, end: usize, each: usize) -> (String, String) {
        let mut out = Vec::new();
        let mut i = at;
        while i + each <= end.min(packet.len()) {
            let item = &packet[i..i + each];
            let handle = little(&item[..2]);
            out.push(match kind {
                Rest::Pairs => (format!(" item={handle:04X}:{:04X}", little(&item[2..4])), String::new()),
                Rest::Infos => (format!(" item={handle:04X}:{}", kind_of(&item[2..])), String::new()),
                _ => (format!(" item={handle:04X}:{}", hex(&item[2..])), format!(" at={}+{}", i + 2, each - 2)),
            });
            i += each;
        }
        if self.knob(packet[0], Knob::LastItemLost) {
            out.pop();
        }
        out.into_iter().unzip()
    }

    fn typed(&self, op: u8, start: u16, end: u16, uuid: &[u8]) -> String {
        if uuid.len() == 4 && !self.slip(Slip::LongAsFour) {
            // Encoding refused with 2, size refused with 2, and so in each of the rooms 0 to 24, nothing written.
            return String::from("!2 !2 25");
        }
        let mut bytes = vec![op];
        bytes.extend(start.to_le_bytes());
        bytes.extend(end.to_le_bytes());
        bytes.extend(uuid);
        format!("{} {} {}/4", hex(&bytes), bytes.len(), bytes.len())
    }

    fn int(&self, width: usize, bytes: &[u8], at: u64) -> Option<u32> {
        let from = bytes.get(at as usize..)?;
        if self.slip(Slip::IntBigEndian) {
            return from.get(..width).map(|b| b.iter().fold(0, |n, b| n * 256 + *b as u32));
        }
        from.get(..width).map(little)
    }

    // ------------------------------------------------------------------------------------------ cursors

    /// What is available; nothing where the position is past the end. Whether n bytes are to be had there.
    fn has(&self, length: usize, pos: u64, n: u64) -> bool {
        let short_of_nothing = self.slip(Slip::NothingIsThereAfterTheEnd) && n == 0;
        short_of_nothing || (pos <= length as u64 && n <= length as u64 - pos)
    }

    fn token(&self, answer: &str, length: usize, pos: u64) -> String {
        format!("{answer}@{pos}/{}", (length as u64).saturating_sub(pos))
    }

    pub fn walk_read(&self, bytes: &[u8], ops: &[ReadOp]) -> String {
        let mut pos = 0u64;
        let mut out = Vec::new();
        for op in ops {
            let before = pos;
            let part = |n: u64| hex(bytes.get(before as usize..(before + n) as usize).unwrap_or(&[]));
            let answer = match *op {
                ReadOp::Int(w) => match self.int(w, bytes, pos) {
                    Some(v) => {
                        pos += w as u64;
                        format!("{v:0n$X}", n = 2 * w)
                    }
                    None => {
                        pos += self.slip(Slip::ReadMovesOnRefusal) as u64;
                        String::from(if self.slip(Slip::ReadShortIsSpace) { "!1" } else { "!2" })
                    }
                },
                ReadOp::Slice(n) | ReadOp::Consume(n) => {
                    if self.has(bytes.len(), pos, n) {
                        if matches!(op, ReadOp::Slice(_)) || self.slip(Slip::ConsumeMoves) {
                            pos += n;
                        }
                        part(n)
                    } else {
                        "!1".into()
                    }
                }
                ReadOp::Remaining => part((bytes.len() as u64).saturating_sub(pos)),
                ReadOp::Reset => {
                    pos = 0;
                    "ok".into()
                }
                ReadOp::Jump(n) => {
                    if pos <= bytes.len() as u64 {
                        pos += n;
                    }
                    "ok".into()
                }
            };
            out.push(self.token(&answer, bytes.len(), pos));
        }
        out.join(" ")
    }

    pub fn walk_write(&self, content: &[u8], ops: &[WriteOp]) -> String {
        let mut b = content.to_vec();
        let mut pos = 0u64;
        let mut out = Vec::new();
        for op in ops {
            let answer = self.write_step(&mut b, &mut pos, op);
            out.push(self.token(&answer, b.len(), pos));
        }
        out.push(hex(&b));
        out.join(" ")
    }

    fn write_step(&self, b: &mut [u8], pos: &mut u64, op: &WriteOp) -> String {
        let length = b.len() as u64;
        let at = (*pos).min(length) as usize;
        let mut put = |bytes: &[u8], pos: &mut u64| {
            if !self.has(b.len(), *pos, bytes.len() as u64) {
                if self.slip(Slip::AppendWritesOnRefusal) && at < b.len() {
                    b[at] = bytes[0];
                }
                return String::from("!1");
            }
            b[at..at + bytes.len()].copy_from_slice(bytes);
            *pos += bytes.len() as u64;
            "ok".into()
        };
        match op {
            WriteOp::Int(w, v) => put(&v.to_le_bytes()[..*w], pos),
            WriteOp::Append(bytes) => put(bytes, pos),
            WriteOp::Fill(bytes) => {
                let n = bytes.len().min(b.len() - at);
                b[at..at + n].copy_from_slice(&bytes[..n]);
                (b.len() - at).to_string()
            }
            WriteOp::Commit(n) if self.has(b.len(), *pos, *n) => {
                *pos += n;
                "ok".into()
            }
            WriteOp::Split(n) if self.has(b.len(), *pos, *n) => {
                let cut = if self.slip(Slip::SplitAtPosition) { at + *n as usize } else { *n as usize };
                format!("{},{}", hex(&b[..cut]), hex(&b[cut..]))
            }
            WriteOp::Commit(_) | WriteOp::Split(_) => "!1".into(),
            WriteOp::Truncate(n) => {
                *pos = if self.slip(Slip::TruncateMovesOn) { *n } else { (*pos).min(*n) };
                "ok".into()
            }
            WriteOp::Reset => {
                *pos = 0;
                "ok".into()
            }
            WriteOp::Jump(n) => {
                if *pos <= length {
                    *pos += n;
                }
                "ok".into()
            }
            WriteOp::Finish if *pos > length => "-".into(),
            WriteOp::Finish => hex(&b[..at]),
        }
    }

    // ------------------------------------------------------------------------------------------ UUIDs and texts

    fn att_bytes(&self, own: &[u8]) -> ([u8; 16], usize) {
        let mut out = [0; 16];
        if own.len() != 4 {
            out[..own.len()].copy_from_slice(own);
            return (out, own.len());
        }
        out[..12].copy_from_slice(&[0xFB, 0x34, 0x9B, 0x5F, 0x80, 0, 0, 0x80, 0, 0x10, 0, 0]);
        out[12..].copy_from_slice(own);
        if self.slip(Slip::BaseReversed) {
            out.reverse();
        }
        (out, 16)
    }

    fn uuid(&self, own: &[u8]) -> String {
        if ![2, 4, 16].contains(&own.len()) {
            return String::from(if self.slip(Slip::UuidLengthIsSpace) { "!1" } else { "!2" });
        }
        let (att, used) = self.att_bytes(own);
        let mut raw = [0; 16];
        raw[..own.len()].copy_from_slice(own);
        let kind = if own.len() == 2 || self.slip(Slip::FormatOfFourIsOne) && own.len() == 4 { 1 } else { 2 };
        let raw_used = if self.slip(Slip::RawLengthIsSize) { own.len() + 4 } else { own.len() };
        let short = if own.len() == 2 { format!("{:04X}", little(own)) } else { "!2".into() };
        format!("{} {kind} {}/{used} {}/{raw_used} {short}", own.len() * 8, hex(&att), hex(&raw))
    }

    fn text(&self, code: u8) -> String {
        let text = self.text_of(code);
        format!("{} {}/4 {text}", text.len(), text.len())
    }

    fn text_of(&self, code: u8) -> String {
        let own = matches!(code, 0x01..=0x13 | 0x80..=0x9F | 0xFC..=0xFF);
        let mut text = match own {
            true => crate::crate_side::text_into(code, 1000).1,
            false if self.slip(Slip::UnknownInHex) => format!("unknown error code {code:X}: check the most recent bluetooth spec"),
            false => unknown_text(code),
        };
        if self.slip(Slip::TextMended) {
            text = text.replace("previousl ", "previously ");
        }
        text
    }
}

/// Document 01: "All codes without a text of their own get the unknown text; print it in decimal."
pub fn unknown_text(code: u8) -> String {
    format!("unknown error code {code}: check the most recent bluetooth spec")
}
