//! The inputs, the same for both sides and for every run: no clock and no seed from outside.

use crate::paper::ROWS;
use crate::request::{ReadOp, Request, WriteOp};

/// A small generator of numbers (xorshift), so that no other crate is needed.
pub struct Dice(u64);

impl Dice {
    pub fn new(seed: u64) -> Self {
        Dice(seed.wrapping_mul(0x9E37_79B9_7F4A_7C15) | 1)
    }

    pub fn roll(&mut self) -> u64 {
        self.0 ^= self.0 << 13;
        self.0 ^= self.0 >> 7;
        self.0 ^= self.0 << 17;
        self.0.wrapping_mul(0x2545_F491_4F6C_DD1D) >> 11
    }

    pub fn below(&mut self, n: u64) -> u64 {
        self.roll() % n
    }

    pub fn bytes(&mut self, n: usize) -> Vec<u8> {
        (0..n).map(|_| self.roll() as u8).collect()
    }

    fn pick<T: Copy>(&mut self, from: &[T]) -> T {
        from[self.below(from.len() as u64) as usize]
    }
}

type Sink<'a> = &'a mut dyn FnMut(Request) -> bool;

/// Gives each input to `f` until that says it wants no more.
pub fn each(all_of_length_3: bool, f: Sink) {
    let parts: [fn(bool, Sink) -> bool; 6] = [texts_uuids_integers, short_packets, opcodes, items, random_packets, cursors];
    for part in parts {
        if !part(all_of_length_3, f) {
            return;
        }
    }
}

pub fn count(all_of_length_3: bool) -> u64 {
    let mut n = 0;
    each(all_of_length_3, &mut |_| {
        n += 1;
        true
    });
    n
}

fn texts_uuids_integers(_: bool, f: Sink) -> bool {
    let mut dice = Dice::new(1);
    let mut go = (0..=255).all(|c| f(Request::Text(c)));
    for length in 0..=40 {
        go = go && (0..20).all(|_| f(Request::Uuid(dice.bytes(length))));
    }
    go = go && (0..=0xFFFFu16).all(|v| f(Request::Uuid(v.to_le_bytes().to_vec())));
    for width in [4, 16] {
        go = go && (0..10_000).all(|_| f(Request::Uuid(dice.bytes(width))));
    }
    // The same value in the three forms, and one byte apart.
    for _ in 0..2_000 {
        let short = dice.bytes(2);
        let four = [&short[..], &[0, 0]].concat();
        let long = [&[0xFB, 0x34, 0x9B, 0x5F, 0x80, 0, 0, 0x80, 0, 0x10, 0, 0][..], &four].concat();
        for a in [&short, &four, &long] {
            for b in [&short, &four, &long] {
                go = go && f(Request::Same(a.clone(), b.clone()));
            }
            let mut other = a.clone();
            let at = dice.below(a.len() as u64) as usize;
            other[at] ^= 1 << dice.below(8);
            go = go && f(Request::Same(a.clone(), other));
        }
    }
    for width in [1, 2, 4] {
        for room in 0..10 {
            for _ in 0..50 {
                go = go && f(Request::Decode(width, dice.bytes(room)));
                let value = (dice.roll() as u32) >> (32 - 8 * width);
                go = go && f(Request::Encode(width, value, dice.bytes(room)));
            }
        }
    }
    for op in [0x08, 0x10] {
        for width in [2, 4, 16] {
            for _ in 0..300 {
                let (start, end) = (dice.roll() as u16, dice.roll() as u16);
                go = go && f(Request::Typed { op, start, end, uuid: dice.bytes(width) });
            }
        }
    }
    go
}

const EDGES: [u8; 16] = [0x00, 0x01, 0x02, 0x03, 0x04, 0x05, 0x12, 0x13, 0x28, 0x7F, 0x80, 0x9F, 0xA0, 0xFB, 0xFC, 0xFF];

fn short_packets(all: bool, f: Sink) -> bool {
    let mut go = f(Request::Packet(vec![]));
    for a in 0..=255 {
        go = go && f(Request::Packet(vec![a]));
        for b in 0..=255 {
            go = go && f(Request::Packet(vec![a, b]));
            for c in 0..=255 {
                if all || (EDGES.contains(&b) && EDGES.contains(&c)) {
                    go = go && f(Request::Packet(vec![a, b, c]));
                }
            }
        }
    }
    let mut dice = Dice::new(2);
    go && (all || (0..60_000).all(|_| f(Request::Packet(dice.bytes(3)))))
}

/// A payload whose bytes are told apart by their places.
pub fn filled(n: usize, first: u8) -> Vec<u8> {
    (0..n).map(|i| first.wrapping_add((i * 37) as u8)).collect()
}

fn opcodes(_: bool, f: Sink) -> bool {
    let mut dice = Dice::new(3);
    let named = |op: u8| ROWS.iter().any(|r| r.0 == op) || [0x17, 0x19, 0x21].contains(&op);
    let lengths = (0..=44).chain([62, 63, 64, 65, 254, 255, 256, 257, 515, 516, 517]);
    for n in lengths {
        for op in 0..=255u8 {
            let mut fills = vec![vec![0; n], vec![0xFF; n], filled(n, 1), dice.bytes(n)];
            if named(op) {
                fills.extend([filled(n, 2), filled(n, 3), filled(n, 0x1B), dice.bytes(n), dice.bytes(n)]);
            }
            if n > 44 && !named(op) {
                fills.truncate(1);
            }
            for fill in fills {
                if !f(Request::Packet([&[op][..], &fill].concat())) {
                    return false;
                }
            }
        }
    }
    true
}

/// Item lengths, formats and rests, each side of every boundary.
fn items(_: bool, f: Sink) -> bool {
    let mut dice = Dice::new(4);
    let mut send = |op: u8, head: &[u8], rest: usize| f(Request::Packet([&[op], head, &dice.bytes(rest)].concat()));
    let mut go = true;
    for item in 0..=255u8 {
        let n = item as usize;
        let around = [n, 2 * n, 3 * n].into_iter().flat_map(|m| [m.saturating_sub(1), m, m + 1]);
        let rests: Vec<usize> = if n < 12 { (0..70).collect() } else { (0..6).chain(around).collect() };
        for rest in rests {
            go = go && send(0x09, &[item], rest) && send(0x11, &[item], rest);
        }
        for rest in 0..6 {
            go = go && send(0x05, &[item], rest);
        }
    }
    for rest in 0..100 {
        for _ in 0..3 {
            go = go && send(0x05, &[1], rest) && send(0x05, &[2], rest) && send(0x07, &[], rest);
        }
    }
    go
}

/// Random packets of known opcodes, and packets in the strict form that were damaged: cut, lengthened, bytes changed.
fn random_packets(_: bool, f: Sink) -> bool {
    let mut dice = Dice::new(5);
    for _ in 0..60_000 {
        let op = ROWS[dice.below(24) as usize].0;
        let n = dice.below(60) as usize;
        if !f(Request::Packet([&[op][..], &dice.bytes(n)].concat())) {
            return false;
        }
    }
    for _ in 0..60_000 {
        let mut b = strict(&mut dice);
        for _ in 0..=dice.below(2) {
            match dice.below(4) {
                0 => b.truncate(dice.below(b.len() as u64 + 1) as usize),
                1 => b.extend(dice.bytes(1 + (dice.0 % 3) as usize)),
                2 if !b.is_empty() => {
                    let at = dice.below(b.len() as u64) as usize;
                    b[at] ^= 1 << dice.below(8);
                }
                _ => {}
            }
        }
        if !f(Request::Packet(b)) {
            return false;
        }
    }
    true
}

/// A packet in the form that Core F has it.
pub fn strict(dice: &mut Dice) -> Vec<u8> {
    let op = ROWS[dice.below(24) as usize].0;
    let n = dice.below(30) as usize;
    let items = 1 + dice.below(5) as usize;
    let payload = match op {
        0x01 | 0x04 | 0x0C => dice.bytes(4),
        0x02 | 0x03 | 0x0A => dice.bytes(2),
        0x05 if dice.below(2) == 0 => [&[1][..], &dice.bytes(4 * items)].concat(),
        0x05 => [&[2][..], &dice.bytes(18 * items)].concat(),
        0x06 => dice.bytes(6 + n),
        0x07 => dice.bytes(4 * items),
        0x08 | 0x10 => {
            let width = dice.pick(&[6, 20]);
            dice.bytes(width)
        }
        0x09 | 0x11 => {
            let each = 4 + dice.below(12) as usize;
            [&[each as u8][..], &dice.bytes(each * items)].concat()
        }
        0x13 | 0x1E => vec![],
        0x16 => dice.bytes(4 + n),
        0x18 => dice.bytes(1),
        0x20 => dice.bytes(2 + 2 * items),
        0x0B | 0x0D => dice.bytes(n),
        _ => dice.bytes(2 + n),
    };
    [&[op][..], &payload].concat()
}

fn cursors(_: bool, f: Sink) -> bool {
    let mut dice = Dice::new(6);
    (0..20_000).all(|_| f(read_walk(&mut dice)) && f(write_walk(&mut dice)))
}

/// Mostly small, at times at the top of the range.
fn stride(dice: &mut Dice) -> u64 {
    match dice.below(40) {
        0 => u64::MAX,
        1 => u64::MAX - dice.below(12),
        2 => 1 << 63,
        _ => dice.below(9),
    }
}

pub fn read_walk(dice: &mut Dice) -> Request {
    let n = dice.below(15) as usize;
    let bytes = dice.bytes(n);
    let ops = (0..3 + dice.below(9)).map(|_| match dice.below(16) {
        0..=2 => ReadOp::Int(1),
        3..=4 => ReadOp::Int(2),
        5..=6 => ReadOp::Int(4),
        7..=9 => ReadOp::Slice(stride(dice)),
        10..=11 => ReadOp::Consume(stride(dice)),
        12..=13 => ReadOp::Remaining,
        14 => ReadOp::Jump(dice.below(9)),
        _ => ReadOp::Reset,
    });
    let ops = ops.collect();
    Request::Read(bytes, ops)
}

pub fn write_walk(dice: &mut Dice) -> Request {
    let n = dice.below(15) as usize;
    let content = dice.bytes(n);
    let ops = (0..3 + dice.below(9)).map(|_| match dice.below(20) {
        0..=1 => WriteOp::Int(1, dice.roll() as u8 as u32),
        2..=3 => WriteOp::Int(2, dice.roll() as u16 as u32),
        4..=5 => WriteOp::Int(4, dice.roll() as u32),
        6..=8 => {
            let n = dice.below(6) as usize;
            WriteOp::Append(dice.bytes(n))
        }
        9..=10 => {
            let n = dice.below(6) as usize;
            WriteOp::Fill(dice.bytes(n))
        }
        11..=12 => WriteOp::Commit(stride(dice)),
        13..=14 => WriteOp::Split(stride(dice)),
        15..=16 => WriteOp::Truncate(stride(dice)),
        17 => WriteOp::Finish,
        18 => WriteOp::Jump(dice.below(9)),
        _ => WriteOp::Reset,
    });
    let ops = ops.collect();
    Request::Write(content, ops)
}
