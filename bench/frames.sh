#!/bin/sh
# Reads a frame of 200,000, 400,000 and 800,000 bytes, and streams of 25,000, 50,000 and 100,000 short frames, with one feed in
# one thread, in pieces of several lengths, and prints how long each takes. Linear time shows as times that double, whatever the
# pieces. It is no test: the program is made in a copy of the repository, where it is proved, built and run, which takes long
# the first time.
set -eu
top=$(cd "$(dirname "$0")/.." && pwd)
work=$(mktemp -d)
trap 'rm -rf "$work"' EXIT
mkdir "$work/crates"
for crate in cv_token cv_lex cv_behave cv_flow cv_calc cv_kinds cv_rules cv_table cv_queue cv_endpoint cv_protocol cv_feed cv_frame; do
    mkdir "$work/crates/$crate"
    for part in src specs proofs; do
        cp -r "$top/crates/$crate/$part" "$work/crates/$crate/$part"
    done
    grep "^$crate:" "$top/crates.txt" >>"$work/crates.txt"
done
echo 'frame_bench: cv_frame anyhow' >>"$work/crates.txt"
mkdir -p "$work/crates/frame_bench/src"
cat >"$work/crates/frame_bench/src/main.rt" <<'PROGRAM'
#![tactic(auto)]

use anyhow::{Result, anyhow};
use cv_frame::Feed;
use std::alloc::Global;
use std::time::Instant;

const STATE_FRONT: &str = "{\"body\":[\"transfer\",[1,1,1],1,[\"cs1\",\"mid\",\"std.Identity\",[false],[],0,null,[null],[[3,[5],[";
const READER: &str = "[[1,1,1],[1,1,2],2]";
const STATE_END: &str = "]]],[]]],\"from\":1,\"stamp\":12,\"to\":2}";
const ACK: &str = "{\"body\":[\"ack\",[1,1,0],[1,1,0],3],\"from\":2,\"stamp\":9,\"to\":1}";

// A transfer whose outport has so many readers.
fn transfer(alloc: Global, readers: u32) -> Result<String> {
    let mut text = String::from_str(alloc, STATE_FRONT)?;
    for i in 0..readers {
        if i > 0 {
            text.push_str(",")?;
        }
        text.push_str(READER)?;
    }
    text.push_str(STATE_END)?;
    Ok(text)
}

// The text behind its length, so many times.
fn stream(alloc: Global, text: &str, count: u32) -> Result<Vec<u8>> {
    let len = u32::try_from(text.len()).unwrap_or(u32::MAX);
    let mut all = Vec::new(alloc);
    for _ in 0..count {
        all.extend_from_slice(&len.to_be_bytes())?;
        all.extend_from_slice(text.as_bytes())?;
    }
    Ok(all)
}

// How many frames a feed takes of the stream in pieces of so many bytes.
fn taken(alloc: Global, bytes: &[u8], per: usize) -> Result<u64> {
    let mut feed = Feed::new(alloc)?;
    let mut count: u64 = 0;
    for piece in bytes.chunks(per.max(1)) {
        if feed.push(alloc, piece).is_err() {
            return Err(anyhow!("a fault"));
        }
        for _ in 0..u32::MAX {
            if feed.take().is_none() {
                break;
            }
            count = count.saturating_add(1);
        }
    }
    Ok(count)
}

fn main(rt: HostRuntime) -> Result<()> {
    let alloc = rt.alloc();
    for readers in [10_000u32, 20_000, 40_000] {
        let text = transfer(alloc, readers)?;
        let bytes = stream(alloc, text.as_str(), 1)?;
        for per in [100_000_000usize, 1_000, 1] {
            let start = Instant::now(&rt)?;
            let count = taken(alloc, &bytes, per)?;
            let micros = start.elapsed(&rt)?.as_micros();
            let len = bytes.len();
            println!(rt; "a frame of {len} bytes in pieces of at most {per}: {count} taken in {micros} us")?;
        }
    }
    for frames in [25_000u32, 50_000, 100_000] {
        let bytes = stream(alloc, ACK, frames)?;
        for per in [100_000_000usize, 1_000, 1] {
            let start = Instant::now(&rt)?;
            let count = taken(alloc, &bytes, per)?;
            let micros = start.elapsed(&rt)?.as_micros();
            let len = bytes.len();
            println!(rt; "{frames} frames, {len} bytes, in pieces of at most {per}: {count} taken in {micros} us")?;
        }
    }
    Ok(())
}
PROGRAM
cd "$work/crates/frame_bench"
rt run >"$work/figures" 2>"$work/log" || { cat "$work/log" >&2; exit 1; }
cat "$work/figures"
