#!/bin/sh
# Reads texts of journals of 50,000, 100,000 and 200,000 entries and writes them again, in one thread, and prints how long each
# takes. Linear time shows as times that double. It is no test: the program is made in a copy of the repository, where it is proved,
# built and run, which takes long the first time.
set -eu
top=$(cd "$(dirname "$0")/.." && pwd)
work=$(mktemp -d)
trap 'rm -rf "$work"' EXIT
mkdir "$work/crates"
for crate in cv_token cv_lex cv_behave cv_flow cv_calc cv_kinds cv_network cv_rules cv_table cv_queue cv_endpoint cv_protocol cv_feed cv_frame cv_entry cv_record; do
    mkdir "$work/crates/$crate"
    for part in src specs proofs; do
        cp -r "$top/crates/$crate/$part" "$work/crates/$crate/$part"
    done
    grep "^$crate:" "$top/crates.txt" >>"$work/crates.txt"
done
echo 'journal_bench: cv_record anyhow' >>"$work/crates.txt"
mkdir -p "$work/crates/journal_bench/src"
cat >"$work/crates/journal_bench/src/main.rt" <<'PROGRAM'
#![tactic(auto)]

use anyhow::{Result, anyhow};
use cv_record::{read, write};
use std::alloc::Global;
use std::time::Instant;

const HEAD: &str = "[\"node\",1,1024,4,{\"node_name.name\":\"one\"},0]\n";
const FIRE: &str = "[1234567,[\"fire\",[1,1,0],0]]\n";
const SEND: &str = "[1234568,[\"send\",[1,1,7]]]\n";
const TOKEN: &str = "[1234569,[\"deliver\",{\"body\":[\"token\",[1,1,7],[1,1,3],991,1234],\"from\":1,\"stamp\":1234568,\"to\":1}]]\n";
const ACK: &str = "[1234570,[\"deliver\",{\"body\":[\"ack\",[1,1,7],[1,1,2],992],\"from\":1,\"stamp\":1234569,\"to\":1}]]\n";

// A journal of so many times these four entries.
fn text_of(alloc: Global, times: u32) -> Result<String> {
    let mut text = String::from_str(alloc, HEAD)?;
    for _ in 0..times {
        text.push_str(FIRE)?;
        text.push_str(SEND)?;
        text.push_str(TOKEN)?;
        text.push_str(ACK)?;
    }
    Ok(text)
}

fn main(rt: HostRuntime) -> Result<()> {
    let alloc = rt.alloc();
    for times in [12_500u32, 25_000, 50_000] {
        let text = text_of(alloc, times)?;
        let len = text.len();
        let start = Instant::now(&rt)?;
        let Ok(journals) = read(alloc, text.as_bytes()) else {
            return Err(anyhow!("a fault"));
        };
        let reading = start.elapsed(&rt)?.as_micros();
        let start = Instant::now(&rt)?;
        let bytes = write(alloc, &journals)?;
        let writing = start.elapsed(&rt)?.as_micros();
        let same = bytes.as_slice() == text.as_bytes();
        println!(rt; "{len} bytes: read in {reading} us, written in {writing} us, the same: {same}")?;
    }
    Ok(())
}
PROGRAM
cd "$work/crates/journal_bench"
rt run >"$work/figures" 2>"$work/log" || { cat "$work/log" >&2; exit 1; }
cat "$work/figures"
