#!/bin/sh
# Times the reading of 1.6 and 16 MiB of facts, of ground rules, and of one rule with its variables: `clingcon` lexes and parses all of
# them, up to a fault in the last line or to the rule's end, and tells it. Linear time shows as a factor near ten. Prints seconds and the
# greatest memory taken.
# Usage: bench/text.sh [PROGRAM], crates/clingcon/out/clingcon where none is given.
set -e
top=$(cd "$(dirname "$0")/.." && pwd)
program=${1:-$top/crates/clingcon/out/clingcon}
work=$(mktemp -d)
trap 'rm -rf "$work"' EXIT
for bytes in 1677721 16777216; do
    awk -v most="$bytes" 'BEGIN {
        for (n = 0; ; n++) {
            line = "p(" n ",f(" n "))."
            size += length(line) + 1
            if (size > most - 5) break
            print line
        }
        print "a b."
    }' > "$work/facts$bytes.lp"
    awk -v most="$bytes" 'BEGIN {
        for (n = 0; ; n++) {
            line = "q(" n ") :- p(" n ",f(" n ")), not r(" n "), s(" n ",\"a\")."
            size += length(line) + 1
            if (size > most - 5) break
            print line
        }
        print "a b."
    }' > "$work/rules$bytes.lp"
    awk -v most="$bytes" 'BEGIN {
        printf "p(a"
        for (n = 0; ; n++) {
            word = ",X" n
            size += length(word)
            if (size > most - 7) break
            printf "%s", word
        }
        print ")."
    }' > "$work/variables$bytes.lp"
done
for kind in facts rules variables; do
    for bytes in 1677721 16777216; do
        printf '%s, %s bytes: ' "$kind" "$(wc -c < "$work/$kind$bytes.lp")"
        /usr/bin/time -f '%e s, %M KiB' "$program" "$work/$kind$bytes.lp" 2>&1 | tail -1
    done
done
