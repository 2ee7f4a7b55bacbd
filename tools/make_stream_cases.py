"""Writes a table of streams with what an independent decoder reads from them, always the same.

A line is a case: KIND WIDTH LIMIT BYTES COUNT -> NUMBERS END. The bytes are in hexadecimal, or - for none; COUNT numbers are
asked for; END is clean or fault if there are fewer, and more if all were given.

    make_stream_cases.py > cases.txt
"""

import random

from decode_stream import line

MOST_ASKED = 60
LONGEST = 2**31 - 1

FIXED = [
    ("hybrid", 3, 8, "0388c6fa", 20),
    ("hybrid", 3, 7, "0388c6fa", 20),
    ("hybrid", 1, 2, "0601", 20),
    ("hybrid", 1, 2, "0202", 20),
    ("hybrid", 1, 2, "02", 20),
    ("hybrid", 1, 2, "000201", 20),
    ("hybrid", 1, 2, "80", 20),
    ("hybrid", 1, 2, "010201", 20),
    ("hybrid", 1, 2, "05ff", 20),
    ("hybrid", 1, 0, "0200", 20),
    ("hybrid", 0, 1, "06", 20),
    ("hybrid", 0, 1, "05", 20),
    ("hybrid", 0, 0, "05", 20),
    ("hybrid", 0, 1, "", 20),
    ("hybrid", 8, 256, "", 20),
    ("hybrid", 1, 2, "8600" "01", 20),
    ("hybrid", 1, 2, "8000" "0201", 20),
    # the longest repeated run and one more, the longest packed run and one more
    ("hybrid", 1, 2, "feffffff0f01", 5),
    ("hybrid", 1, 2, "8080808010" "01", 5),
    ("hybrid", 1, 2, "ffffffff03" "00", 5),
    ("hybrid", 1, 2, "ffffffff01" "aa55", 30),
    ("hybrid", 1, 2, "8180808002" "aa55", 30),
    ("hybrid", 0, 1, "ffffffff01", 9),
    # headers of ten bytes, of eleven, and cut ones
    ("hybrid", 1, 2, "86808080808080808000" "01", 20),
    ("hybrid", 1, 2, "8680808080808080808000" "01", 20),
    ("hybrid", 1, 2, "86808080808080808080" "01", 20),
    ("hybrid", 1, 2, "808080808080808080", 20),
    ("hybrid", 1, 2, "80808080808080808080", 20),
    ("hybrid", 1, 2, "80808080808080808000" "0601", 20),
    ("hybrid", 1, 2, "ffffffffffffffffff7f" "01", 20),
    ("hybrid", 1, 2, "feffffffffffffffff7f" "01", 20),
    ("hybrid", 1, 2, "80808080808080808001" "01", 20),
    ("hybrid", 1, 2, "80808080808080808002" "01", 20),
    ("hybrid", 1, 2, "86808080808080808040" "01", 20),
    # a repeated value is not cut to the width
    ("hybrid", 1, 300, "04ff", 20),
    ("hybrid", 9, 70000, "04ffff", 20),
    ("hybrid", 32, 4294967295, "04feffffff", 20),
    ("hybrid", 32, 4294967295, "04ffffffff", 20),
    ("packed", 3, 8, "053977", 20),
    ("packed", 3, 7, "053977", 20),
    ("packed", 0, 1, "ffff", 20),
    ("packed", 1, 2, "", 20),
    ("packed", 9, 512, "ff", 20),
]


def varint(number, pad=0):
    groups = []
    while True:
        groups.append(number & 0x7F)
        number >>= 7
        if number == 0:
            break
    groups += [0] * min(pad, 10 - len(groups))
    return bytes([group | 0x80 for group in groups[:-1]] + groups[-1:])


def packed(numbers, width, down):
    bits = []
    for number in numbers:
        own = [number >> place & 1 for place in range(width)]
        bits += reversed(own) if down else own
    bits += [0] * (-len(bits) % 8)
    out = bytearray()
    for start in range(0, len(bits), 8):
        places = range(7, -1, -1) if down else range(8)
        out.append(sum(bit << place for bit, place in zip(bits[start:], places)))
    return bytes(out)


def some_run(rng, width, limit):
    top = min(limit, 2**width) - 1
    pad = rng.choice([0, 0, 0, 1, 3, 9])
    if rng.random() < 0.5:
        count = rng.choice([1, 2, 3, 7, 8, 40, rng.randint(1, 300), rng.randint(1, LONGEST)])
        value = rng.randint(0, max(top, 0))
        return varint(2 * count, pad) + value.to_bytes(-(-width // 8), "little")
    groups = rng.choice([1, 1, 2, 3, rng.randint(1, 6)])
    numbers = [rng.randint(0, max(top, 0)) for _ in range(8 * groups)]
    return varint(2 * groups + 1, pad) + packed(numbers, width, False)


def some_hybrid(rng, width, limit):
    runs = [some_run(rng, width, limit) for _ in range(rng.randint(1, 4))]
    return b"".join(runs)


def damaged(rng, data):
    way = rng.randrange(5)
    data = bytearray(data)
    if way == 0 and data:
        del data[rng.randrange(len(data)) :]
    elif way == 1 and data:
        data[rng.randrange(len(data))] ^= 1 << rng.randrange(8)
    elif way == 2:
        data.insert(rng.randint(0, len(data)), rng.choice([0x00, 0x01, 0x80, 0xFF]))
    elif way == 3:
        data[0:0] = rng.choice([b"\x01", b"\x01\x01", b"\x81\x00", b"\x80\x00", b"\x00"])
    else:
        data += rng.choice([b"\x80", b"\x03", b"\x02", b"\x80" * 10, b"\x80\x80\x80\x80\x10", b"\x00\x02\x01"])
    return bytes(data)


def some_width(rng):
    return rng.choice([0, 1, 1, 2, 3, 4, 5, 7, 8, 9, 12, 15, 16, 17, 20, 24, 25, 31, 32])


def some_limit(rng, width):
    full = min(2**width, 2**32 - 1)
    return rng.choice([full, full, full, rng.randint(1, full), rng.randint(0, full)])


def cases(seed):
    rng = random.Random(seed)
    for kind, width, limit, data, asked in FIXED:
        yield kind, width, limit, bytes.fromhex(data), asked
    for _ in range(120):
        width = some_width(rng)
        limit = some_limit(rng, width)
        yield "hybrid", width, limit, some_hybrid(rng, width, limit), rng.randint(1, MOST_ASKED)
    for _ in range(120):
        width = some_width(rng)
        limit = some_limit(rng, width)
        yield "hybrid", width, limit, damaged(rng, some_hybrid(rng, width, limit)), MOST_ASKED
    for _ in range(40):
        width = some_width(rng)
        data = bytes(rng.randrange(256) for _ in range(rng.randint(0, 30)))
        yield "hybrid", width, some_limit(rng, width), data, MOST_ASKED
    for _ in range(50):
        width = some_width(rng)
        limit = some_limit(rng, width)
        top = max(min(limit, 2**width) - 1, 0)
        numbers = [rng.randint(0, top) for _ in range(rng.randint(0, 30))]
        yield "packed", width, limit, packed(numbers, width, True), MOST_ASKED
    for _ in range(30):
        width = some_width(rng)
        data = bytes(rng.randrange(256) for _ in range(rng.randint(0, 30)))
        yield "packed", width, some_limit(rng, width), data, rng.randint(1, MOST_ASKED)


if __name__ == "__main__":
    for case in cases(20260101):
        print(line(*case))
