#!/bin/sh
# Times the trail: ten million pairs of set and undo of a bound, and a hundred million reads of a truth.
# It builds two small programs over a copy of the crates, and prints the nanoseconds of one pair and of one read.
set -eu
top=$(cd "$(dirname "$0")/.." && pwd)
work=$(mktemp -d)
trap 'rm -rf "$work"' EXIT
mkdir "$work/crates"
for crate in symbols literals order_literals trail; do
    mkdir "$work/crates/$crate"
    cp -r "$top/crates/$crate/src" "$top/crates/$crate/specs" "$work/crates/$crate/"
    if [ -d "$top/crates/$crate/proofs" ]; then cp -r "$top/crates/$crate/proofs" "$work/crates/$crate/"; fi
done
grep -E '^(symbols|literals|order_literals|trail):' "$top/crates.txt" > "$work/crates.txt"

# program NAME FIELD BODY ROUNDS: a program that runs the body for each n of the field's numbers in turn
program() {
    mkdir -p "$work/crates/$1/src" "$work/crates/$1/proofs/work"
    echo "$1: symbols literals trail" >> "$work/crates.txt"
    cat > "$work/crates/$1/src/main.rt" <<PROGRAM
#![tactic(auto)]

ghost use Rattle.std.specs.Prelude.{◌≤◌};

use literals::Lit;
use std::io;
use symbols::{Ends, Memory};
use trail::{Shape, Trail, Why};

fn work(trail: &mut Trail, rounds: u32) -> Result<u32, Memory>
    requires { 1000 ≤ trail.old.shape.$2 }
{
    let mut count = 0u32;
    for i in 0..rounds {
        let n = 1 + i % 1000;
        $3
    }
    Ok(count)
}

fn run(alloc: std::alloc::Global) -> Result<u32, Memory> {
    let shape = Shape {
        atoms: 1000,
        bodies: 0,
        constraints: 0,
        variables: 1000,
        ends: Ends { min: 0, max: 9 },
    };
    let mut trail = Trail::new(alloc, shape)?;
    work(&mut trail, $4)
}

fn main(rt: HostRuntime) -> io::Result<()> {
    let done = run(rt.alloc());
    println!(rt; "{}", done.unwrap_or(0))
}
PROGRAM
    cat > "$work/crates/$1/proofs/work/Invariants.antt" <<PROOF
use Rattle.std.proofs.Common.{◌≡◌}
use Rattle.$1.proofs.work.Given as goal

abbrev pub invariant-loop-i : goal.invariant-loop-i
invariant-loop-i l = l.trail.shape ≡ l.fn.trail.shape
PROOF
}

program bench_pairs variables 'trail.open_level()?;
        trail.set(Lit::AtMost(n, 5), Why::Decision)?;
        trail.undo_to(0);
        if trail.length() == 0 {
            count = count.wrapping_add(1);
        }' 10000000
program bench_reads atoms 'if trail.truth(Lit::Atom(n, true)) == Some(true) {
            count = count.wrapping_add(1);
        }' 100000000

# least NAME: the least of three runs, in seconds of processor time
least() {
    best=
    for _ in 1 2 3; do
        took=$( { TIMEFORMAT=%U; bash -c "TIMEFORMAT=%U; time '$work/crates/$1/out/$1' > /dev/null"; } 2>&1 | tail -1)
        if [ -z "$best" ] || [ "$(echo "$took < $best" | bc)" = 1 ]; then best=$took; fi
    done
    echo "$best"
}

for name in bench_pairs bench_reads; do
    (cd "$work/crates/$name" && rt run > "$work/$name.log" 2>&1) || { tail -40 "$work/$name.log"; exit 1; }
done
echo "one set and undo: $(echo "$(least bench_pairs) * 100" | bc) ns"
echo "one truth: $(echo "$(least bench_reads) * 10" | bc) ns"
