#!/bin/sh
# Reads and writes JSON texts of 256, 512 and 1,024 KiB, nested lists of short texts, and prints how long each takes,
# beside what serde_json alone takes for the same. Linear time shows as times that double. It is no test: the program is
# made in a copy of the repository, where it is proved, built and run, which takes minutes.
set -eu
top=$(cd "$(dirname "$0")/.." && pwd)
work=$(mktemp -d)
trap 'rm -rf "$work"' EXIT
mkdir "$work/crates"
cp -r "$top/crates/cv_token" "$work/crates/cv_token"
rm -rf "$work/crates/cv_token/must-fail"
grep '^cv_token:' "$top/crates.txt" >"$work/crates.txt"
echo 'token_bench: cv_token serde_json anyhow' >>"$work/crates.txt"
mkdir -p "$work/crates/token_bench/src"
cat >"$work/crates/token_bench/src/main.rt" <<'PROGRAM'
#![tactic(auto)]

use anyhow::{Result, anyhow};
use cv_token::{read_tree, text};
use serde_json::Value;
use std::alloc::Global;
use std::time::Instant;

fn nested(alloc: Global, size: usize) -> Result<String> {
    let mut all = String::from_str(alloc, "[0")?;
    for _ in 0..size {
        if all.len() >= size {
            break;
        }
        all.push_str(",[[\"a short text\",[true,null,-123]],[],[[[\"b\"]]]]")?;
    }
    all.push_str("]")?;
    Ok(all)
}

fn main(rt: HostRuntime) -> Result<()> {
    let alloc = rt.alloc();
    for kib in [256usize, 512, 1024] {
        let bytes = nested(alloc, kib * 1024)?;
        let start = Instant::now(&rt)?;
        let Some(tree) = read_tree(alloc, bytes.as_bytes())? else {
            return Err(anyhow!("no tree"));
        };
        let read = start.elapsed(&rt)?;
        let start = Instant::now(&rt)?;
        let written = text(alloc, &tree)?;
        let wrote = start.elapsed(&rt)?;
        let same = written.as_str() == bytes.as_str();
        println!(rt; "{kib} KiB: read in {} ms, written in {} ms, the same: {same}", read.as_millis(), wrote.as_millis())?;
        let start = Instant::now(&rt)?;
        let Ok(value) = Value::from_slice(alloc, bytes.as_bytes()) else {
            return Err(anyhow!("no value"));
        };
        let read = start.elapsed(&rt)?;
        let start = Instant::now(&rt)?;
        let written = value.to_string(alloc)?;
        let wrote = start.elapsed(&rt)?;
        let same = written.as_str() == bytes.as_str();
        println!(rt; "  serde_json alone: read in {} ms, written in {} ms, the same: {same}", read.as_millis(), wrote.as_millis())?;
    }
    Ok(())
}
PROGRAM
cd "$work/crates/token_bench"
rt run >"$work/figures" 2>"$work/log" || { cat "$work/log" >&2; exit 1; }
cat "$work/figures"
