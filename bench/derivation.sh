#!/bin/sh
# Times `read_line` and `write_line` on 100 MB of lines, and prints the greatest memory taken.
# It works on a copy of the three crates, beside which it writes a small program.
set -e
top=$(cd "$(dirname "$0")/.." && pwd)
work=$(mktemp -d)
trap 'rm -rf "$work"' EXIT
mkdir -p "$work/crates/derivation_bench/src"
for crate in symbols literals derivation; do
    cp -r "$top/crates/$crate" "$work/crates/"
done
cp "$top/HANDLES" "$work/"
printf 'symbols: indexmap\nliterals: symbols smallvec\nderivation: symbols literals itoa\nderivation_bench: derivation symbols\n' > "$work/crates.txt"
cat > "$work/crates/derivation_bench/src/main.rt" <<'PROGRAM'
// Times lines of a derivation.
#![tactic(auto)]

use derivation::{read_line, write_line};
use std::alloc::{AllocError, Global};
use std::io;
use std::time::Instant;
use symbols::Listed;

// So many lines, of a sum and of a learned nogood by turns.
fn lines(alloc: Global, count: u32) -> Result<Vec<u8>, AllocError> {
    let mut text = Vec::new(alloc);
    for number in 1..count {
        text.extend_from_slice(format!(in alloc; "s 17 = c17 v{number}<=-1024 v2000000>=77\n")?.as_bytes())?;
        text.extend_from_slice(format!(in alloc; "r {number} ~b31 4 c2 77 v12<=3 {number} a5 1207 = a1 ~a44 b{number} c9 v7>=1\n")?.as_bytes())?;
    }
    Ok(text)
}

// Reads and writes every line, and gives the bytes that were written.
fn read_and_write(alloc: Global, text: &[u8]) -> u64 {
    let mut written: u64 = 0;
    for bytes in text.split(|byte| *byte == b'\n') {
        let mut out = Listed::new(alloc);
        if let Ok(line) = read_line(alloc, bytes) {
            if write_line(alloc, &line, &mut out).is_ok() {
                written = written.wrapping_add(out.len() as u64);
            }
        }
    }
    written
}

// Reads every line, and gives how many were read.
fn read_alone(alloc: Global, text: &[u8]) -> u64 {
    let mut count: u64 = 0;
    for bytes in text.split(|byte| *byte == b'\n') {
        if let Ok(_) = read_line(alloc, bytes) {
            count = count.wrapping_add(1);
        }
    }
    count
}

fn main(rt: HostRuntime) -> io::Result<()> {
    let text = lines(rt.alloc(), 1_000_000)?;
    let size = text.len();
    let start = Instant::now(&rt)?;
    let count = read_alone(rt.alloc(), &text);
    let taken = start.elapsed(&rt)?;
    println!(rt; "{size} bytes, {count} lines read, {taken:?}")?;
    let start = Instant::now(&rt)?;
    let written = read_and_write(rt.alloc(), &text);
    let taken = start.elapsed(&rt)?;
    println!(rt; "{size} bytes read, {written} written, {taken:?}")?;
    Ok(())
}
PROGRAM
cd "$work/crates/derivation_bench"
rt run > "$work/log" 2>&1 || { cat "$work/log"; exit 1; }
/usr/bin/time -f '%M KiB at most' out/derivation_bench
