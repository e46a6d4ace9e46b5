//! Runs the program as a child, streams the requests to it and holds each reply against the crate's answer.

use std::io::{BufRead, BufReader, BufWriter, Write};
use std::process::{Command, Stdio};
use std::sync::mpsc::{sync_channel, TrySendError};
use std::thread;
use std::time::{Duration, Instant};

use crate::entries::{judge, Kind, Tally, ENTRIES};
use crate::inputs;
use crate::paper::Paper;

fn grouped(n: u64) -> String {
    let s = n.to_string();
    let mut out = String::new();
    for (i, c) in s.chars().enumerate() {
        if i > 0 && (s.len() - i) % 3 == 0 {
            out.push(',');
        }
        out.push(c);
    }
    out
}

pub fn run(words: &[String]) -> i32 {
    let all = words.first().is_some_and(|w| w == "--all-of-length-3");
    let words = &words[all as usize..];
    let build = if crate::checked() { "overflow checks on" } else { "overflow checks off" };
    let total = inputs::count(all);
    let mut child = Command::new(&words[0])
        .args(&words[1..])
        .stdin(Stdio::piped())
        .stdout(Stdio::piped())
        .spawn()
        .unwrap_or_else(|e| panic!("{}: {e}", words[0]));
    let mut input = BufWriter::new(child.stdin.take().unwrap());
    let mut output = BufReader::new(child.stdout.take().unwrap());

    // One thread asks, this one judges: neither pipe can fill up while the other waits.
    let (send, asked) = sync_channel(4096);
    let asking = thread::spawn(move || {
        inputs::each(all, &mut |request| {
            let written = writeln!(input, "? {request}").is_ok();
            written && match send.try_send(request) {
                Ok(()) => true,
                // Before this thread waits, the program has to have all that was asked.
                Err(TrySendError::Full(request)) => input.flush().is_ok() && send.send(request).is_ok(),
                Err(TrySendError::Disconnected(_)) => false,
            }
        });
    });

    let mut tally = Tally::default();
    let mut seen = Instant::now();
    let mut done = 0u64;
    let mut reply = String::new();
    let mut silent = false;
    for request in asked {
        reply.clear();
        if output.read_line(&mut reply).unwrap_or(0) == 0 {
            eprintln!("the program ended before its reply to: {request}");
            silent = true;
            break;
        }
        judge(&request, reply.trim_end_matches('\n'), &mut tally);
        done += 1;
        if seen.elapsed() > Duration::from_secs(2) {
            seen = Instant::now();
            eprintln!("{build}: {} of {} inputs", grouped(done), grouped(total));
        }
    }
    drop(output);
    let _ = asking.join();
    let _ = child.wait();
    print_table(build, &tally);
    (silent || done != total || tally.unlisted() > 0) as i32
}

fn print_table(build: &str, t: &Tally) {
    println!("The Rust with {build}");
    println!("  {:<16}{:>12}{:>14}{:>14}{:>14}{:>10}", "", "inputs", "answers", "equal", "listed", "unlisted");
    let row = |name: &str, k: &Kind| {
        let n = [k.inputs, k.answers, k.equal, k.listed, k.unlisted].map(grouped);
        println!("  {name:<16}{:>12}{:>14}{:>14}{:>14}{:>10}", n[0], n[1], n[2], n[3], n[4]);
    };
    let mut sum = Kind::default();
    for (name, k) in &t.kinds {
        row(name, k);
        sum.inputs += k.inputs;
        sum.answers += k.answers;
        sum.equal += k.equal;
        sum.listed += k.listed;
        sum.unlisted += k.unlisted;
    }
    row("all", &sum);
    println!("  strict tests held to document 01's column: {}", grouped(t.strict));
    println!("  Entries of docs/DIFFERENCES.md, and how often each was met or its claim about the Rust was run:");
    for (entry, what) in ENTRIES {
        println!("  {entry}  {what:<50}{:>12}", grouped(t.met.get(entry).copied().unwrap_or(0)));
    }
    for s in &t.shown {
        println!("  UNLISTED {s}");
    }
}

/// Document 01 as read in paper.rs in the place of the program: it answers the requests in the order in which they come.
pub fn answer_by_paper() -> i32 {
    let mut lines = std::io::stdin().lock().lines();
    let mut out = BufWriter::new(std::io::stdout().lock());
    let paper = Paper::default();
    inputs::each(false, &mut |request| {
        let Some(Ok(line)) = lines.next() else { return false };
        assert!(line == format!("? {request}"), "not the request that comes next");
        writeln!(out, "{}", paper.reply(&request)).is_ok() && out.flush().is_ok()
    });
    0
}
