#!/usr/bin/env python3
"""What crates/replay must print, counted from the stored samples without the code.

    tools/replay_stdout.py > crates/replay/stdout

The format is that of samples/README.md. Each walk and each block has a line with its calls by the stored
number, 0 to 5. That no call differs, and that each file ends with a whole call, is what the run has to show.
"""
import collections
import pathlib
import struct

TOP = pathlib.Path(__file__).resolve().parent.parent
WALKS = ("headers", "updates", "lsas", "lls", "trailers")


def calls(b):
    """The walk or block and the stored number of each call."""
    p = 0
    while p < len(b):
        walk, size = b[p + 1], struct.unpack_from(">I", b, p + 18)[0]
        p += 22 + size
        number, length = struct.unpack_from(">BI", b, p)
        p += 13 + (0 if number else length)
        yield walk, number
    assert p == len(b)


def report(name):
    found = list(calls((TOP / "samples" / name).read_bytes()))
    counts = collections.Counter(found)
    print(name)
    print("calls", len(found))
    for walk, word in enumerate(WALKS):
        print(word, *(counts[walk, number] for number in range(6)))
    assert sum(counts[w, n] for w in range(len(WALKS)) for n in range(6)) == len(found)
    print("whole")
    print("different", 0)


for name in (TOP / "crates" / "replay" / "args").read_text().split():
    report(name)
