//! The time that decoding a packet and encoding it again takes, in the port and in the crate, over the same packets.

use std::hint::black_box;
use std::time::{Duration, Instant};

use crate::att::Att;
use crate::codec::{Decode, Encode};
use crate::inputs::{strict, Dice};

const PACKETS: usize = 1_000_000;
const ROUNDS: usize = 15;

extern "C" {
    /// The port's, of a copy of the repository: how many bytes it wrote, 0 for a refusal. A slice of Rattle is a pointer and a length.
    fn recode(src: *const u8, len: usize, out: *mut u8, room: usize) -> usize;
}

fn port(src: &[u8], out: &mut [u8]) -> usize {
    unsafe { recode(src.as_ptr(), src.len(), out.as_mut_ptr(), out.len()) }
}

fn rust(src: &[u8], out: &mut [u8]) -> bool {
    Att::decode(src).is_ok_and(|att| att.encode(out).is_ok())
}

/// Strict packets of every opcode that the crate can decode and encode (not 16, 18, 20, nor 10 with a UUID of 16 bytes).
fn packets() -> (Vec<u8>, Vec<(usize, usize)>) {
    let (mut dice, mut bytes, mut places) = (Dice::new(8), Vec::new(), Vec::new());
    while places.len() < PACKETS {
        let b = strict(&mut dice);
        if matches!(b[0], 0x16 | 0x18 | 0x20) || (b[0] == 0x10 && b.len() == 21) {
            continue;
        }
        places.push((bytes.len(), b.len()));
        bytes.extend(b);
    }
    (bytes, places)
}

fn timed(bytes: &[u8], places: &[(usize, usize)], mut one: impl FnMut(&[u8], &mut [u8])) -> Duration {
    let mut out = [0; 600];
    let start = Instant::now();
    for (at, len) in places {
        one(black_box(&bytes[*at..at + len]), black_box(&mut out));
    }
    start.elapsed()
}

pub fn run() -> i32 {
    let (bytes, places) = packets();
    let (mut ours, mut theirs) = ([0; 600], [0; 600]);
    for (at, len) in &places {
        let b = &bytes[*at..at + len];
        let same = port(b, &mut ours) == *len && rust(b, &mut theirs) && ours[..*len] == *b && theirs[..*len] == *b;
        assert!(same, "{b:02X?} is not encoded to itself");
    }
    // In turns, the best of several rounds: what else the machine does disturbs both alike.
    let (mut p, mut r) = (Duration::MAX, Duration::MAX);
    for _ in 0..ROUNDS {
        p = p.min(timed(&bytes, &places, |b, out| {
            black_box(port(b, out));
        }));
        r = r.min(timed(&bytes, &places, |b, out| {
            black_box(rust(b, out));
        }));
    }
    let each = |d: Duration| d.as_nanos() as f64 / PACKETS as f64;
    println!("decoded and encoded: {PACKETS} strict packets, {} bytes; the best of {ROUNDS} rounds", bytes.len());
    println!("the port  {:7.1} ns each", each(p));
    println!("the Rust  {:7.1} ns each", each(r));
    println!("ratio     {:7.2}", each(p) / each(r));
    0
}
