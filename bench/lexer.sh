#!/bin/sh
# Times `tokens` on facts `p(i,f(i)).` of about 1, 2, 4, 8 and 16 MiB, and prints the greatest memory taken.
# It works on a copy of the two crates, beside which it writes a small program.
set -e
top=$(cd "$(dirname "$0")/.." && pwd)
work=$(mktemp -d)
trap 'rm -rf "$work"' EXIT
mkdir -p "$work/crates/lexer_bench/src"
for crate in symbols lexer; do
    cp -r "$top/crates/$crate" "$work/crates/"
    rm -rf "$work/crates/$crate/out"
done
cp "$top/HANDLES" "$work/"
printf 'symbols: indexmap\nlexer: symbols\nlexer_bench: lexer\n' > "$work/crates.txt"
cat > "$work/crates/lexer_bench/src/main.rt" <<'PROGRAM'
// Times the tokens of facts.
#![tactic(auto)]

use lexer::tokens;
use std::alloc::{AllocError, Global};
use std::io;
use std::time::Instant;

// So many facts, each with a number at two places.
fn facts(alloc: Global, count: u32) -> Result<Vec<u8>, AllocError> {
    let mut text = Vec::new(alloc);
    for number in 0..count {
        text.extend_from_slice(format!(in alloc; "p({number},f({number})).\n")?.as_bytes())?;
    }
    Ok(text)
}

fn main(rt: HostRuntime) -> io::Result<()> {
    for count in [54_000u32, 108_000, 214_000, 412_000, 810_000] {
        let text = facts(rt.alloc(), count)?;
        let start = Instant::now(&rt)?;
        match tokens(rt.alloc(), &text) {
            Ok(found) => {
                let count = found.len();
                let taken = start.elapsed(&rt)?;
                let bytes = text.len();
                println!(rt; "{bytes} bytes, {count} tokens, {taken:?}")?;
            }
            Err(_) => println!(rt; "fault")?,
        }
    }
    Ok(())
}
PROGRAM
cd "$work/crates/lexer_bench"
rt run > "$work/log" 2>&1 || { cat "$work/log"; exit 1; }
/usr/bin/time -f '%M KiB at most' out/lexer_bench
