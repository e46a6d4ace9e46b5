//! Holds a reply of the program against what the crate answers. A difference is either one of the entries of
//! docs/DIFFERENCES.md, with the crate doing what the entry says and the program what document 01 says, or unlisted.

use std::collections::BTreeMap;

use crate::claims;
use crate::crate_side::{self, Packet, Rooms, Step};
use crate::paper::{unknown_text, Paper};
use crate::request::{hex, ReadOp, Request, View, WriteOp};

/// The entries of docs/DIFFERENCES.md that a run can meet.
pub const ENTRIES: [(&str, &str); 25] = [
    ("D-01", "short payloads that panic"),
    ("D-02", "10 with 20 bytes panics"),
    ("D-03", "item lengths 0 and 1 decode"),
    ("D-04", "size of 05, 07, 09, 11"),
    ("D-05", "encoding of 16, 18, 20 panics"),
    ("D-06", "32-bit UUID in 08, 10: four bytes, size 9"),
    ("D-07", "room too short: partly written"),
    ("D-08", "as_short of another form panics"),
    ("D-09", "unknown text never ends"),
    ("D-10", "size of 16, 18, 20 panics"),
    ("D-11", "UUID of another length: another error"),
    ("D-12", "integer into a slice not of its length panics"),
    ("D-13", "iterating over item lengths 0 and 1"),
    ("D-14", "encoding item lengths 0 and 1"),
    ("D-15", "advanced iterator encoded"),
    ("D-16", "reading cursor past its end"),
    ("D-17", "reading a packet from a cursor"),
    ("D-18", "writing cursor past its end"),
    ("D-19", "writing a packet to a cursor"),
    ("D-20", "error code from or into nothing panics"),
    ("D-21", "Uuid::bytes, Encode into another length panic"),
    ("D-22", "32-bit UUID and too little room"),
    ("D-23", "unknown text into a writer that fails"),
    ("D-24", "decoding its own 10 with a 128-bit UUID panics"),
    ("D-25", "Uuid::decode"),
];

#[derive(Default, Clone)]
pub struct Kind {
    pub inputs: u64,
    pub answers: u64,
    pub equal: u64,
    pub listed: u64,
    pub unlisted: u64,
}

#[derive(Default)]
pub struct Tally {
    pub kinds: BTreeMap<&'static str, Kind>,
    pub met: BTreeMap<&'static str, u64>,
    /// Strict tests: the crate has none, so they are held to document 01's column.
    pub strict: u64,
    /// The first few differences that no entry lists.
    pub shown: Vec<String>,
    kind: &'static str,
}

impl Tally {
    pub fn unlisted(&self) -> u64 {
        self.kinds.values().map(|k| k.unlisted).sum()
    }

    fn open(&mut self, kind: &'static str) {
        self.kind = kind;
        self.now().inputs += 1;
    }

    fn now(&mut self) -> &mut Kind {
        self.kinds.entry(self.kind).or_default()
    }

    fn equal(&mut self, answers: u64) {
        self.now().answers += answers;
        self.now().equal += answers;
    }

    pub fn listed(&mut self, entry: &'static str, answers: u64) {
        assert!(ENTRIES.iter().any(|(e, _)| *e == entry));
        self.now().answers += answers;
        self.now().listed += answers;
        *self.met.entry(entry).or_default() += answers;
    }

    /// The crate does, or does not, what the text of an entry says of it.
    pub fn claim(&mut self, entry: &'static str, holds: bool, input: &str) {
        if holds {
            *self.met.entry(entry).or_default() += 1;
        } else {
            self.unlisted_as(format!("{input}: the Rust does not do what {entry} says"));
        }
    }

    pub fn unlisted_as(&mut self, what: String) {
        self.now().answers += 1;
        self.now().unlisted += 1;
        if self.shown.len() < 20 {
            self.shown.push(what);
        }
    }

    /// Equal, or the entry where that holds, or unlisted.
    fn settle(&mut self, equal: bool, entry: Option<&'static str>, what: impl FnOnce() -> String) {
        match entry {
            _ if equal => self.equal(1),
            Some(entry) => self.listed(entry, 1),
            None => self.unlisted_as(what()),
        }
    }
}

pub fn judge(request: &Request, reply: &str, t: &mut Tally) {
    let differs = |rust: &str| format!("{request}\n    Rust     {rust}\n    program  {reply}");
    match request {
        Request::Packet(b) => packet(b, reply, t, &differs),
        Request::Typed { op, start, end, uuid } => {
            t.open("typed packets");
            typed(*op, *start, *end, uuid, reply == Paper::default().reply(request), reply, t, &differs);
        }
        Request::Read(b, ops) => {
            t.open("reading walks");
            let steps = crate_side::walk_read(b, ops);
            walk(b.len(), &steps, reply, &Paper::default().walk_read(b, ops), t, &differs, |i, was| {
                claims::read_past(&ops[i], &steps[i], was, b.len()).then_some("D-16")
            });
        }
        Request::Write(b, ops) => {
            t.open("writing walks");
            let (steps, left) = crate_side::walk_write(b, ops);
            let Some((tokens, content)) = reply.rsplit_once(' ') else {
                return t.unlisted_as(differs(""));
            };
            let wanted = Paper::default().walk_write(b, ops);
            let (wanted, wanted_content) = wanted.rsplit_once(' ').unwrap();
            let strayed = walk(b.len(), &steps, tokens, wanted, t, &differs, |i, was| {
                claims::write_past(&ops[i], &steps[i], was, b.len()).then_some("D-18")
            });
            // A stride near 2^64, accepted past the end, brings the crate's cursor back among the bytes, where it writes.
            let entry = (strayed && content == wanted_content).then_some("D-18");
            t.settle(content == hex(&left), entry, || differs(&hex(&left)));
        }
        Request::Uuid(b) => {
            t.open("UUIDs");
            uuid(b, reply, t, &differs);
        }
        Request::Same(a, b) => {
            t.open("UUID equality");
            let rust = if crate_side::same(a, b) { "equal" } else { "different" };
            t.settle(reply == rust, None, || differs(rust));
        }
        Request::Text(c) => {
            t.open("error texts");
            let text = crate_side::text(*c);
            let shown = text.clone().unwrap_or(unknown_text(*c));
            let equal = reply == format!("{} {}/4 {shown}", shown.len(), shown.len());
            let endless = (text.is_none() && equal).then_some("D-09");
            t.settle(equal && text.is_some(), endless, || differs(text.as_deref().unwrap_or("never ends")));
            claims::text_full(*c, text.is_none(), t);
        }
        Request::Decode(w, b) => {
            t.open("integers");
            let rust = crate_side::decode_int(*w, b).map_or_else(|e| format!("!{e}"), |v| format!("{v:0n$X}", n = 2 * w));
            t.settle(reply == rust, None, || differs(&rust));
            claims::code_from(b, t);
        }
        Request::Encode(w, v, b) => {
            t.open("integers");
            let mut out = b.clone();
            let rust = match crate_side::encode_int(*w, *v, &mut out) {
                None => "X".into(),
                Some(Ok(())) => format!("ok {}", hex(&out)),
                Some(Err(e)) => format!("!{e} {}", hex(&out)),
            };
            let other = if *w == 1 { b.is_empty() } else { b.len() != *w };
            let right = reply == Paper::default().reply(request);
            t.settle(reply == rust, (rust == "X" && other && right).then_some("D-12"), || differs(&rust));
            claims::code_into(b, t);
        }
    }
}

/// Opcodes and payload lengths at which the crate's decoder indexes past the payload.
fn panics_short(op: u8, payload: usize) -> bool {
    match op {
        0x01 => payload == 3,
        0x02 | 0x0A | 0x12 | 0x52 => payload < 2,
        0x04 | 0x08 | 0x0C | 0x10 | 0x16 => payload < 4,
        0x06 => payload < 6,
        0x18 => payload < 1,
        _ => false,
    }
}

fn unimplemented(op: u8) -> bool {
    matches!(op, 0x16 | 0x18 | 0x20)
}

/// What the crate's size says of a packet fresh from decoding, whatever it holds.
fn fresh_size(op: u8) -> Option<&'static str> {
    match op {
        0x05 => Some("4"),
        0x07 => Some("2"),
        0x09 | 0x11 => Some("3"),
        _ => None,
    }
}

/// The crate's reply as the fixed list shows it. What items of length 0 and 1 are walked and encoded to is in claims.rs.
pub fn shown(p: &Packet) -> String {
    match p {
        Packet::Decoded(v, _) if [" item_len=0", " item_len=1"].iter().any(|end| v.words.ends_with(end)) => v.words.clone(),
        Packet::Decoded(v, _) => v.to_string(),
        Packet::Refused(n) => refusal(*n),
        Packet::Panic => "X".into(),
    }
}

fn refusal(n: u8) -> String {
    format!("refused {n} {}", ["InsufficientSpace", "InvalidValue"][n as usize - 1])
}

/// A reply on a packet that decodes, taken apart.
struct Said<'a> {
    words: &'a str,
    size: &'a str,
    /// What it says that encoding writes: `None` for the packet itself, which it calls strict.
    encodes: Option<&'a str>,
    rooms: &'a str,
    places: String,
}

fn said(reply: &str) -> Option<Said<'_>> {
    // No word behind the size holds one: an error's text, which may hold anything, stands before it.
    let (words, behind) = reply.rsplit_once(" size=")?;
    let mut behind = behind.split(' ');
    let size = behind.next()?;
    let encodes = match behind.next()? {
        "strict" => None,
        "tolerant" => Some(behind.next()?.strip_prefix("encodes=")?),
        _ => return None,
    };
    let rooms = behind.next()?.strip_prefix("rooms=")?;
    Some(Said { words, size, encodes, rooms, places: behind.map(|w| format!(" {w}")).collect() })
}

fn packet(b: &[u8], reply: &str, t: &mut Tally, differs: &dyn Fn(&str) -> String) {
    t.open("packets");
    let (op, payload) = (b.first().copied().unwrap_or(0), b.len().saturating_sub(1));
    let rust = crate_side::packet(b);
    let right = || reply == Paper::default().reply(&Request::Packet(b.to_vec()));
    let refused = reply == refusal(2);
    match &rust {
        Packet::Refused(n) => t.settle(reply == refusal(*n), None, || differs(&refusal(*n))),
        Packet::Panic => {
            let entry = match (op, payload) {
                _ if refused && panics_short(op, payload) => Some("D-01"),
                (0x10, 20) if right() => Some("D-02"),
                _ => None,
            };
            t.settle(false, entry, || differs("X"));
        }
        Packet::Decoded(..) if refused => {
            let empty = matches!(op, 0x09 | 0x11) && b[1] < 2;
            t.settle(false, empty.then_some("D-03"), || differs(&shown(&rust)));
            if empty {
                claims::short_items(b, t);
            }
        }
        Packet::Decoded(view, rooms) => {
            let Some(said) = said(reply) else {
                return t.unlisted_as(differs(&shown(&rust)));
            };
            decoded(op, b, view, rooms, &said, right(), t, &|| differs(&format!("{view} {rooms:?}")));
            claims::packet_and_cursor(b, t);
        }
    }
}

fn decoded(op: u8, b: &[u8], view: &View, rooms: &Rooms, said: &Said, right: bool, t: &mut Tally, differs: &dyn Fn() -> String) {
    let endless = op == 0x01 && view.words.ends_with(&format!(" ({})", crate_side::ENDLESS)) && right;
    t.settle(said.words == view.words && said.places == view.places, endless.then_some("D-09"), differs);

    let itself = hex(b);
    let encodes = said.encodes.unwrap_or(&itself);
    let bare = view.encoding == "X" && unimplemented(op) && right;
    t.settle(encodes == view.encoding, bare.then_some("D-05"), differs);

    let size = match fresh_size(op) {
        _ if view.size == "X" && unimplemented(op) && right => Some("D-10"),
        Some(fresh) if view.size == fresh && said.size == (encodes.len() / 2).to_string() => Some("D-04"),
        _ => None,
    };
    t.settle(said.size == view.size, size, differs);

    let refused = rooms.untouched + rooms.partly;
    if bare {
        let every = rooms.panics > 0 && refused + rooms.encoded + rooms.odd == 0;
        t.settle(false, every.then_some("D-05"), differs);
    } else if rooms.odd + rooms.panics == 0 && said.rooms == format!("{refused}/{}", rooms.encoded) {
        t.equal((rooms.untouched + rooms.encoded) as u64);
        if rooms.partly > 0 {
            t.listed("D-07", rooms.partly as u64);
        }
    } else {
        t.unlisted_as(differs());
    }

    let strict = Paper::default().packet(b).is_some_and(|w| w.strict);
    t.strict += 1;
    if said.encodes.is_none() != strict {
        t.unlisted_as(differs());
    }
}

fn typed(op: u8, start: u16, end: u16, uuid: &[u8], right: bool, reply: &str, t: &mut Tally, differs: &dyn Fn(&str) -> String) {
    let (bytes, size, rooms) = crate_side::typed(op, start, end, uuid);
    let refused = rooms.untouched + rooms.partly;
    let rust = format!("{} {size} {refused}/{}", hex(&bytes), rooms.encoded);
    let words: Vec<&str> = reply.split(' ').collect();
    if uuid.len() == 4 {
        // Encoding and size, and the rooms in which the crate answers InsufficientSpace.
        let four = bytes.len() == 9 && size == 9 && right;
        t.settle(false, four.then_some("D-06"), || differs(&rust));
        t.settle(false, four.then_some("D-06"), || differs(&rust));
        if right && rooms.odd + rooms.panics == 0 {
            t.listed("D-22", refused as u64);
        } else {
            t.unlisted_as(differs(&rust));
        }
        return;
    }
    if reply != rust || rooms.odd + rooms.panics > 0 || words.len() != 3 {
        return t.unlisted_as(differs(&rust));
    }
    t.equal(2 + (rooms.untouched + rooms.encoded) as u64);
    t.listed("D-07", rooms.partly as u64);
    claims::decodes_its_own(op, &bytes, t);
}

fn uuid(b: &[u8], reply: &str, t: &mut Tally, differs: &dyn Fn(&str) -> String) {
    claims::uuid_decode(b, t);
    let rust = match crate_side::uuid(b) {
        Ok(rust) => rust,
        Err(e) => {
            let named = e == crate::Error::InvalidUuidLength(b.len()) && reply == "!2";
            return t.settle(false, named.then_some("D-11"), || differs(&format!("{e:?}")));
        }
    };
    claims::uuid_into(b, t);
    let (all, short) = rust.rsplit_once(' ').unwrap();
    let Some((ours, our_short)) = reply.rsplit_once(' ') else {
        return t.unlisted_as(differs(&rust));
    };
    t.settle(all == ours, None, || differs(&rust));
    let panics = short == "X" && our_short == "!2" && b.len() != 2;
    t.settle(short == our_short, panics.then_some("D-08"), || differs(&rust));
}

fn token(s: &Step) -> String {
    let available = s.available.map_or("X".into(), |n| n.to_string());
    format!("{}@{}/{available}", s.answer, s.pos)
}

/// Step by step. A step from past the end is the entry's where the crate does what the entry says and the program what
/// document 01 says. Past the end the crate's position may leave ours; until both agree again no step is comparable.
/// Says whether that happened.
fn walk(
    length: usize,
    steps: &[Step],
    reply: &str,
    wanted: &str,
    t: &mut Tally,
    differs: &dyn Fn(&str) -> String,
    past: impl Fn(usize, u64) -> Option<&'static str>,
) -> bool {
    let all = || differs(&steps.iter().map(token).collect::<Vec<_>>().join(" "));
    let ours: Vec<&str> = reply.split(' ').collect();
    let wanted: Vec<&str> = wanted.split(' ').collect();
    if ours.len() != steps.len() {
        t.unlisted_as(all());
        return false;
    }
    let mut was = 0;
    let mut apart = None;
    let mut strayed = false;
    for (i, s) in steps.iter().enumerate() {
        let right = ours[i] == wanted[i];
        let entry = match apart {
            _ if !right => None,
            Some(entry) => Some(entry),
            None if s.past || s.pos > length as u64 => past(i, was),
            None => None,
        };
        t.settle(ours[i] == token(s), entry, all);
        let at = wanted[i].rsplit_once('@').unwrap().1.split_once('/').unwrap().0;
        apart = if at == s.pos.to_string() { None } else { entry };
        strayed |= apart.is_some();
        was = s.pos;
    }
    strayed
}
