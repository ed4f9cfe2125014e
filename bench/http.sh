#!/bin/sh
# Reads streams of 25,000, 50,000 and 100,000 requests with one feed in one thread, in pieces of several lengths, and prints
# how long each takes and how many requests a second that is, beside what httparse alone takes to read the heads of the same
# stream in the same run. Linear time shows as times that double. Last come heads of 4,075, 8,150 and 16,300 bytes that come
# byte by byte, whose time grows with the square, up to the window. It is no test: the program is made in a copy of the
# repository, where it is proved, built and run, which takes minutes.
set -eu
top=$(cd "$(dirname "$0")/.." && pwd)
work=$(mktemp -d)
trap 'rm -rf "$work"' EXIT
mkdir "$work/crates"
for crate in cv_token cv_feed cv_http; do
    mkdir "$work/crates/$crate"
    for part in src specs proofs; do
        cp -r "$top/crates/$crate/$part" "$work/crates/$crate/$part"
    done
    grep "^$crate:" "$top/crates.txt" >>"$work/crates.txt"
done
echo 'http_bench: cv_http httparse anyhow' >>"$work/crates.txt"
mkdir -p "$work/crates/http_bench/src"
cat >"$work/crates/http_bench/src/main.rt" <<'PROGRAM'
#![tactic(auto)]

use anyhow::{Result, anyhow};
use cv_http::Feed;
use httparse::Status;
use httparse::spans::{EMPTY_HEADER_SPAN, parse_request};
use std::alloc::Global;
use std::time::Instant;

const REQUEST: &str = "POST /deploy HTTP/1.1\r\nHost: localhost:8080\r\nContent-Type: application/json\r\nContent-Length: 27\r\n\r\n{\"name\":\"a\",\"script\":\"x:y\"}";

const BODY: usize = 27;

fn stream(alloc: Global, requests: u32) -> Result<String> {
    let mut all = String::new(alloc);
    for _ in 0..requests {
        all.push_str(REQUEST)?;
    }
    Ok(all)
}

// How many requests a feed takes of the stream in pieces of so many bytes.
fn taken(alloc: Global, bytes: &[u8], per: usize) -> Result<u64> {
    let mut feed = Feed::new(alloc)?;
    let mut count: u64 = 0;
    for piece in bytes.chunks(per.max(1)) {
        if feed.push(alloc, piece).is_err() {
            return Err(anyhow!("a fault"));
        }
        for _ in 0..u32::MAX {
            if feed.take().is_none() {
                break;
            }
            count = count.saturating_add(1);
        }
    }
    Ok(count)
}

// How many heads httparse reads, where each is followed by the body of the one request.
fn parsed(bytes: &[u8]) -> u64 {
    let mut count: u64 = 0;
    let mut left = bytes;
    for _ in 0..u32::MAX {
        let mut spans = [EMPTY_HEADER_SPAN; 64];
        let Ok(Status::Complete(head)) = parse_request(left, &mut spans) else {
            break;
        };
        let Some(rest) = left.get(head.len..).and_then(|rest| rest.get(BODY..)) else {
            break;
        };
        left = rest;
        count = count.saturating_add(1);
    }
    count
}

fn head(alloc: Global, len: usize) -> Result<String> {
    let mut text = String::from_str(alloc, "GET / HTTP/1.1\r\nX: ")?;
    for _ in 0..len {
        if text.len() + 4 >= len {
            break;
        }
        text.push_str("v")?;
    }
    text.push_str("\r\n\r\n")?;
    Ok(text)
}

fn main(rt: HostRuntime) -> Result<()> {
    let alloc = rt.alloc();
    for requests in [25_000u32, 50_000, 100_000] {
        let text = stream(alloc, requests)?;
        for per in [100_000_000usize, 65_536, 1_000, 100, 1] {
            let start = Instant::now(&rt)?;
            let count = taken(alloc, text.as_bytes(), per)?;
            let took = start.elapsed(&rt)?.as_micros().max(1);
            let rate = u128::from(count).saturating_mul(1_000_000).checked_div(took).unwrap_or(0);
            let millis = took / 1000;
            println!(rt; "{requests} requests in pieces of at most {per} bytes: {count} taken in {millis} ms, {rate} a second")?;
        }
        let start = Instant::now(&rt)?;
        let count = parsed(text.as_bytes());
        let took = start.elapsed(&rt)?.as_micros().max(1);
        let rate = u128::from(count).saturating_mul(1_000_000).checked_div(took).unwrap_or(0);
        let millis = took / 1000;
        println!(rt; "  httparse alone: {count} heads in {millis} ms, {rate} a second")?;
    }
    for len in [4_075usize, 8_150, 16_300] {
        let text = head(alloc, len)?;
        let start = Instant::now(&rt)?;
        let count = taken(alloc, text.as_bytes(), 1)?;
        let millis = start.elapsed(&rt)?.as_millis();
        println!(rt; "a head of {len} bytes, byte by byte: {count} taken in {millis} ms")?;
    }
    Ok(())
}
PROGRAM
cd "$work/crates/http_bench"
rt run >"$work/figures" 2>"$work/log" || { cat "$work/log" >&2; exit 1; }
cat "$work/figures"
