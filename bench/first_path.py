#!/usr/bin/env python3
"""Times `clingcon` on texts of facts and of a chain of rules, and tells the memory a symbol takes.

Usage: bench/first_path.py [PROGRAM]
PROGRAM is the built program; crates/clingcon/out/clingcon, which `rt run` in that folder or `rt ci` makes,
where none is given. Each text is read ten times smaller first: linear time shows as a factor near ten.
"""

import os
import subprocess
import sys
import tempfile
import time


def facts(count):
    """`p(i,f(j)).` with different i and j: per fact two numbers, one function and the atom."""
    return "".join(f"p({i},f({i + count})).\n" for i in range(count)), 4 * count


def chain(count):
    """`a0.` and `a1 :- a0.` and so on, the last rule first."""
    rules = [f"a{i} :- a{i - 1}.\n" for i in range(count - 1, 0, -1)]
    return "".join(rules) + "a0.\n", count


def measured(program, text):
    with tempfile.NamedTemporaryFile("w", suffix=".lp", delete=False) as file:
        file.write(text)
    try:
        begin = time.perf_counter()
        process = subprocess.Popen([program, file.name], stdout=subprocess.DEVNULL)
        _, status, usage = os.wait4(process.pid, 0)
        seconds = time.perf_counter() - begin
    finally:
        os.unlink(file.name)
    if os.waitstatus_to_exitcode(status) != 10:
        sys.exit(f"{program} ended with status {os.waitstatus_to_exitcode(status)}")
    return seconds, usage.ru_maxrss * 1024


def main():
    program = sys.argv[1] if len(sys.argv) > 1 else "crates/clingcon/out/clingcon"
    base = measured(program, "")[1]
    for name, make in (("facts", facts), ("chain", chain)):
        small_text, _ = make(6553)
        text, symbols = make(65536)
        small = min(measured(program, small_text)[0] for _ in range(5))
        runs = [measured(program, text) for _ in range(5)]
        seconds = min(run[0] for run in runs)
        bytes_each = (max(run[1] for run in runs) - base) / symbols
        print(
            f"{name}: {len(text)} bytes in {seconds:.3f} s, ten times less in {small:.3f} s,"
            f" factor {seconds / small:.1f}; {bytes_each:.0f} bytes of memory a symbol"
        )


if __name__ == "__main__":
    main()
