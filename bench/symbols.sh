#!/bin/sh
# Times the making of the symbols `q(i,j)` for i and j below 1,000, the making of them once more, and the finding of them, in
# nanoseconds a symbol, and prints the greatest memory taken.
# It works on a copy of the crate, beside which it writes a small program.
set -e
top=$(cd "$(dirname "$0")/.." && pwd)
work=$(mktemp -d)
trap 'rm -rf "$work"' EXIT
mkdir -p "$work/crates/symbols_bench/src"
cp -r "$top/crates/symbols" "$work/crates/"
rm -rf "$work/crates/symbols/out"
cp "$top/HANDLES" "$work/"
grep '^symbols:' "$top/crates.txt" > "$work/crates.txt"
printf 'symbols_bench: symbols\n' >> "$work/crates.txt"
cat > "$work/crates/symbols_bench/src/main.rt" <<'PROGRAM'
// Times the making and the finding of function symbols.
#![tactic(auto)]

use std::alloc::Global;
use std::io;
use std::time::Instant;
use symbols::{SymbolId, SymbolTable};

const SIDE: i32 = 1_000;

// The ids of the numbers below 1,000.
fn numbers(alloc: Global, symbols: &mut SymbolTable) -> Option<Vec<SymbolId>> {
    let mut ids = Vec::new(alloc);
    for n in 0..SIDE {
        match symbols.number(n) {
            Ok(id) => match ids.push(id) {
                Ok(()) => {}
                Err(_) => return None,
            },
            Err(_) => return None,
        }
    }
    Some(ids)
}

// Makes `q(i,j)` for each pair of ids that are of the table, and tells how many places that sums up to.
fn make_pairs(symbols: &mut SymbolTable, ids: &[SymbolId]) -> Option<u64> {
    let mut sum = 0u64;
    for a in ids {
        for b in ids {
            if a.place() >= symbols.len() || b.place() >= symbols.len() {
                return None;
            }
            match symbols.function("q", &[*a, *b]) {
                Ok(id) => sum = sum.wrapping_add(id.place() as u64),
                Err(_) => return None,
            }
        }
    }
    Some(sum)
}

// Finds `q(i,j)` for each pair.
fn find_pairs(symbols: &SymbolTable, ids: &[SymbolId]) -> Option<u64> {
    let mut sum = 0u64;
    for a in ids {
        for b in ids {
            if a.place() >= symbols.len() || b.place() >= symbols.len() {
                return None;
            }
            match symbols.find_function("q", &[*a, *b]) {
                Some(id) => sum = sum.wrapping_add(id.place() as u64),
                None => return None,
            }
        }
    }
    Some(sum)
}

fn main(rt: HostRuntime) -> io::Result<()> {
    let mut symbols = match SymbolTable::new(rt.alloc()) {
        Ok(symbols) => symbols,
        Err(_) => return Ok(()),
    };
    let ids = match numbers(rt.alloc(), &mut symbols) {
        Some(ids) => ids,
        None => return Ok(()),
    };
    for what in ["new", "there"] {
        let start = Instant::now(&rt)?;
        let sum = make_pairs(&mut symbols, &ids);
        let taken = start.elapsed(&rt)?;
        println!(rt; "made, {what}: {taken:?} ({sum:?})")?;
    }
    let start = Instant::now(&rt)?;
    let sum = find_pairs(&symbols, &ids);
    let taken = start.elapsed(&rt)?;
    println!(rt; "found: {taken:?} ({sum:?})")?;
    Ok(())
}
PROGRAM
cd "$work/crates/symbols_bench"
rt run > "$work/log" 2>&1 || { cat "$work/log"; exit 1; }
/usr/bin/time -f '%M KiB at most' out/symbols_bench
