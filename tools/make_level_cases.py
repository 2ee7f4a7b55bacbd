"""Writes a table of level decoders, calls and what they answer, always the same; levels come from the independent decoder.

A line is a case: KIND MAXIMUM ENCODING BYTES ROOM CALLS -> ANSWERS AREA. KIND is rep, def or mask; ENCODING 3 or 4, or - where
no data come first; the bytes are in hexadecimal, or - for none; ROOM is how many elements the area has, each 7 (or true, in a
mask) before the first call. The calls are joined by commas: r:Q:M reads up to Q records and M levels, s:Q:M skips them, f
flushes, d:M reads M definition levels, k:M skips them, n:ENCODING:BYTES goes on to other bytes. A read or a skip answers two
counts (records closed, or levels that equal the maximum; then levels taken), or the number of its refusal; a flush answers
whether a record was open. The area is its count, and then all of its elements. The bytes of the case are its first call.

    make_level_cases.py > cases.txt
"""

import random

from decode_stream import decode
from make_stream_cases import damaged, packed, varint

MOST = 30000
KINDS = {3: "hybrid", 4: "packed"}


class Decoder:
    """Levels to come, their end, an open record, and the area that they go to."""

    def __init__(self, kind, maximum, room):
        self.kind, self.maximum = kind, maximum
        self.cells = [True if kind == "mask" else 7] * room
        self.blank = False if kind == "mask" else 0
        self.count = 0
        self.opened = False
        self.levels, self.end = [], "clean"

    def set_data(self, encoding, data):
        # More levels than any case asks for, so that an end is seen where there is one.
        width = self.maximum.bit_length()
        self.levels, self.end = decode(KINDS[encoding], width, self.maximum + 1, data, MOST)

    def refuse(self, number, area):
        self.levels, self.end, self.opened = [], "clean", False
        if area:
            self.cells[self.count:] = [self.blank] * (len(self.cells) - self.count)
        return f"refused {number}"

    def append(self, levels):
        own = [level != 0 for level in levels] if self.kind == "mask" else levels
        own = own[: len(self.cells) - self.count]
        self.cells[self.count : self.count + len(own)] = own
        self.count += len(own)

    def settle(self, told, taken, full, opened, area):
        if area and full and taken > len(self.cells) - self.count:
            return self.refuse(16, area)
        if area:
            self.append(self.levels[:taken])
        self.levels = self.levels[taken:]
        self.opened = opened
        return f"{told} {taken}"

    def records(self, q, m, area):
        """A 0 met with a record open closes it; the call stops in front of the 0 that closes the last."""
        m = m if q else 0
        taken = closed = 0
        opened = self.opened
        while taken < m:
            if taken == len(self.levels):
                if self.end == "fault":
                    return self.refuse(8, area)
                return self.settle(closed, taken, False, opened, area)
            if opened and self.levels[taken] == 0:
                closed += 1
                if closed == q:
                    return self.settle(closed, taken, True, False, area)
            opened = True
            taken += 1
        return self.settle(closed, taken, True, opened, area)

    def definitions(self, m, area):
        if len(self.levels) < m and self.end == "fault":
            return self.refuse(8, area)
        taken = min(m, len(self.levels))
        told = self.levels[:taken].count(self.maximum)
        return self.settle(told, taken, taken == m, False, area)

    def call(self, words):
        name, *rest = words
        if name == "f":
            opened, self.opened = self.opened, False
            return "open" if opened else "closed"
        if name == "n":
            self.set_data(int(rest[0]), unhex(rest[1]))
            return "data"
        if name in "rs":
            return self.records(int(rest[0]), int(rest[1]), name == "r")
        return self.definitions(int(rest[0]), name == "d")


def unhex(word):
    return b"" if word == "-" else bytes.fromhex(word)


def answer(case):
    kind, maximum, encoding, data, room, calls = case.split(" ")
    decoder = Decoder(kind, int(maximum), int(room))
    words = ([] if encoding == "-" else [["n", encoding, data]]) + [call.split(":") for call in calls.split(",")]
    answers = "".join(f" {decoder.call(call)};" for call in words)
    cells = "".join(f" {cell}".lower() for cell in decoder.cells)
    return f"{case} ->{answers} {decoder.count} of{cells}"


def some_levels(rng, kind, maximum):
    """Levels of records of a few sizes, or any; now and then some above the maximum that its bits hold."""
    levels = []
    if rng.random() < 0.2:
        maximum = 2 ** maximum.bit_length() - 1
    if kind == "rep":
        for _ in range(rng.randint(1, 12)):
            size = rng.choice([1, 1, 2, 4, rng.randint(1, 40)])
            levels += [0] + [rng.randint(1, max(maximum, 1)) if maximum else 0 for _ in range(size - 1)]
    else:
        levels = [rng.randint(0, maximum) for _ in range(rng.randint(1, 60))]
    return levels


def encoded(rng, levels, maximum, encoding):
    width = maximum.bit_length()
    if encoding == 4:
        return packed(levels, width, True)
    out = b""
    while levels:
        if rng.random() < 0.5:
            size = next((i for i, level in enumerate(levels) if level != levels[0]), len(levels))
            size = rng.randint(1, size)
            out += varint(2 * size) + levels[0].to_bytes(-(-width // 8), "little")
            levels = levels[size:]
        else:
            groups = rng.randint(1, 3)
            run, levels = levels[: 8 * groups], levels[8 * groups :]
            groups = -(-len(run) // 8)
            run += [0] * (8 * groups - len(run))
            out += varint(2 * groups + 1) + packed(run, width, False)
    return out


def some_bytes(rng, kind, maximum, encoding):
    data = encoded(rng, some_levels(rng, kind, maximum), maximum, encoding)
    if rng.random() < 0.5:
        data = damaged(rng, data)
    return data.hex() or "-"


def some_call(rng, kind, maximum):
    if rng.random() < 0.1:
        encoding = rng.choice([3, 4])
        return f"n:{encoding}:{some_bytes(rng, kind, maximum, encoding)}"
    if kind == "rep":
        if rng.random() < 0.15:
            return "f"
        records = rng.choice([0, 1, 1, 2, 3, rng.randint(0, 20)])
        return f"{rng.choice('rrs')}:{records}:{rng.choice([0, 1, 2, 5, rng.randint(0, 60), 99])}"
    return f"{rng.choice('ddk')}:{rng.choice([0, 1, 2, 7, rng.randint(0, 40)])}"


FIXED = [
    "rep 1 3 0400060104000601 20 r:1:99,r:1:99,r:9:99,f",
    "rep 1 3 - 4 r:1:1,f",
    "rep 3 4 1b1b 8 r:2:8,s:1:8,f",
    "rep 1 3 040006ff 9 r:2:2,r:1:9,r:1:1",
    "rep 2 3 0a00 3 r:9:5,r:9:5,f",
    "rep 0 3 0a 9 r:3:4,f,s:1:1",
    "def 3 3 0388c6fa 9 d:8,d:1",
    "def 3 4 1be4 9 d:3,k:2,d:9",
    "def 1 3 0801 3 d:4,d:1",
    "mask 1 3 03aa 9 d:9,k:1",
    "mask 1 4 a5 4 d:3,k:4,d:1",
    "rep 1 - - 4 r:1:1,s:1:1,f,r:0:0",
    "def 2 - - 4 d:3,k:2",
    "mask 1 - - 4 d:3,k:2,n:3:0801,d:3",
]


def long_bytes(rng, maximum, encoding):
    """Some thousands of levels: long runs of one level, and stretches of many."""
    levels = []
    while len(levels) < 3500:
        levels += [rng.randint(0, maximum)] * rng.randint(1, 1500)
        levels += [rng.randint(0, maximum) for _ in range(rng.randint(0, 300))]
    return encoded(rng, levels, maximum, encoding).hex()


def long_call(rng, kind):
    levels = rng.choice([1, 60, 1023, 1024, 1025, 1500, 2500])
    if kind == "rep":
        return f"{rng.choice('rss')}:{rng.choice([1, 2, 40, 1000, 5000])}:{levels}"
    return f"{rng.choice('dkk')}:{levels}"


def cases(seed):
    rng = random.Random(seed)
    yield from FIXED
    for _ in range(300):
        kind = rng.choice(["rep", "rep", "def", "mask"])
        maximum = 1 if kind == "mask" else rng.choice([0, 1, 1, 2, 2, 3, 5, 7, 200, 255, 32767])
        encoding = rng.choice([3, 3, 4])
        calls = ",".join(some_call(rng, kind, maximum) for _ in range(rng.randint(1, 6)))
        yield f"{kind} {maximum} {encoding} {some_bytes(rng, kind, maximum, encoding)} {rng.choice([0, 3, 9, 30, 60])} {calls}"
    for _ in range(24):
        kind = rng.choice(["rep", "rep", "def", "mask"])
        maximum = 1 if kind == "mask" else rng.choice([1, 2, 3])
        encoding = rng.choice([3, 3, 4])
        calls = ",".join(long_call(rng, kind) for _ in range(rng.randint(2, 6)))
        yield f"{kind} {maximum} {encoding} {long_bytes(rng, maximum, encoding)} {rng.choice([9, 60, 60, 1100])} {calls}"


if __name__ == "__main__":
    for case in cases(5):
        print(answer(case))
