#!/usr/bin/env python3
"""The most bytes of stack that each exported call of libdollar.a takes, by the code of the archive.

Usage: objdump -dr crates/dollar/out/libdollar.a | python3 tools/stack.py

A function's frame is what it pushes and what it takes from the stack pointer, and the return address. A call takes the largest sum of frames along
its calls; a jump through a register stays in its function, as for a `match`. Ends with status 1 where that is no bound: a cycle of calls, a call
through a pointer, or a frame whose size is not fixed. The functions of the C library (memcpy, memmove, memset) are not in it.
"""
import re
import sys
from collections import Counter, defaultdict

RETURN_ADDRESS = 8


def read(lines):
    """Frames and calls by function, and the lines that no bound comes from."""
    frames, calls, bad = Counter(), defaultdict(set), []
    function = None
    for line, following in zip(lines, lines[1:] + [""]):
        if head := re.match(r"[0-9a-f]+ <(.+)>:$", line):
            function = head.group(1)
            frames[function] += RETURN_ADDRESS
        elif "\tpush " in line:
            frames[function] += 8
        elif size := re.search(r"\tsub\s+\$0x([0-9a-f]+),%rsp", line):
            frames[function] += int(size.group(1), 16)
        elif re.search(r"\t(sub|and)\s.*,%rsp|\tcall\s+\*", line):
            bad.append(f"{function}: {line.strip()}")
        elif re.search(r"\t(call|jmp)\b", line):
            if target := re.search(r"R_X86_64_\w+\s+(.+?)(?:[+-]0x[0-9a-f]+)?$", following):
                calls[function].add(target.group(1).removeprefix(".text."))
    return frames, calls, bad


def most(function, frames, calls, above=()):
    """The largest sum of frames from a function on."""
    if function in above:
        sys.exit(f"a cycle of calls: {function}")
    below = (most(callee, frames, calls, (*above, function)) for callee in calls[function] if callee in frames)
    return frames[function] + max(below, default=0)


def main():
    frames, calls, bad = read(sys.stdin.read().split("\n"))
    for function in sorted(frames):
        if function.startswith("dollar_"):
            print(f"{function:20} {most(function, frames, calls):6}")
    if bad:
        sys.exit("\n".join(bad))


main()
