"""A decoder of the hybrid of runs and bit-packing (encoding 3) and of BIT_PACKED (encoding 4), written from the format text alone.

It is a second opinion on the proved reader and shares nothing with it. Where the format text leaves open what a reader does,
these are the rules: a header 0 is a clean end for good; data that ends within a header is a clean end; ten header bytes with
the top bit set are a fault; a packed run that the data cuts gives its whole numbers and is then a clean end; a run of more than
2^31 - 1 numbers is a fault, and so is one whose repeated value is not all there; a number at or above the limit is a fault
there; a packed run of no groups is passed over; numbers of width 0 take no bytes, and BIT_PACKED at width 0 holds none.

    decode_stream.py hybrid WIDTH LIMIT HEXBYTES COUNT
    decode_stream.py packed WIDTH LIMIT HEXBYTES COUNT
"""

import sys
from itertools import repeat

CLEAN, FAULT = "clean", "fault"
MOST_NUMBERS = 2**31 - 1
MOST_HEADER_BYTES = 10


class Bad(Exception):
    """The stream has a fault here."""


class Over(Exception):
    """The stream ends cleanly here."""


def varint(data, place):
    """ULEB-128: the number and the place behind it."""
    groups = []
    while True:
        if place == len(data):
            raise Over
        byte = data[place]
        place += 1
        groups.append(format(byte & 0x7F, "07b"))
        if byte < 0x80:
            return int("".join(reversed(groups)), 2), place
        if len(groups) == MOST_HEADER_BYTES:
            raise Bad


def lowest_first(data, width, count):
    """Numbers whose bits go from the lowest bit of each byte up."""
    for number in range(count):
        value = 0
        for bit in range(width):
            at = number * width + bit
            if data[at // 8] & (1 << (at % 8)):
                value |= 1 << bit
        yield value


def highest_first(data, width, count):
    """Numbers whose bits go from the highest bit of each byte down."""
    for number in range(count):
        value = 0
        for bit in range(width):
            at = number * width + bit
            value = value << 1 | (data[at // 8] >> (7 - at % 8)) & 1
        yield value


def hybrid_numbers(data, width):
    place = 0
    while place < len(data):
        header, place = varint(data, place)
        if header == 0:
            raise Over
        packed = header & 1 == 1
        count = (header >> 1) * (8 if packed else 1)
        if count > MOST_NUMBERS:
            raise Bad
        if packed:
            size = count // 8 * width
            run = data[place : place + size]
            whole = count if len(run) == size else len(run) * 8 // width
            yield from lowest_first(run, width, whole)
            if len(run) < size:
                raise Over
        else:
            size = -(-width // 8)
            value = data[place : place + size]
            if len(value) < size:
                raise Bad
            yield from repeat(int.from_bytes(value, "little"), count)
        place += size


def packed_numbers(data, width):
    if width == 0:
        return
    count = len(data) * 8 // width
    if count > MOST_NUMBERS:
        raise Bad
    yield from highest_first(data, width, count)


KINDS = {"hybrid": hybrid_numbers, "packed": packed_numbers}


def decode(kind, width, limit, data, asked):
    """The first `asked` numbers, and how the stream ends if it has fewer; else "more"."""
    numbers = []
    if asked == 0:
        return numbers, "more"
    try:
        for number in KINDS[kind](data, width):
            if number >= limit:
                return numbers, FAULT
            numbers.append(number)
            if len(numbers) == asked:
                return numbers, "more"
    except Bad:
        return numbers, FAULT
    except Over:
        return numbers, CLEAN
    return numbers, CLEAN


def line(kind, width, limit, data, asked):
    """A case of the table."""
    numbers, end = decode(kind, width, limit, data, asked)
    parts = [kind, width, limit, data.hex() or "-", asked, "->", *numbers, end]
    return " ".join(str(part) for part in parts)


def main(args):
    kind, width, limit, data, asked = args
    data = b"" if data == "-" else bytes.fromhex(data)
    print(line(kind, int(width), int(limit), data, int(asked)))


if __name__ == "__main__":
    main(sys.argv[1:])
