#!/usr/bin/env python3
"""Writes the table of page sources and calls that the program page_cases runs, and what it must print.

The answers come from the rules of docs/FORMATS.md, written again here; nothing of our own code is
run. Usage: make_page_cases.py FOLDER writes FOLDER/stdin and FOLDER/stdout.
"""
import itertools
import struct
import sys

U32 = 2**32 - 1


def le(n):
    return struct.pack("<I", n)


class Page:
    def __init__(self, text, dictionary=False, rows=None, levels=None):
        self.text, self.dictionary, self.rows, self.levels = text, dictionary, rows, levels


class Source:
    """Pages, and the fault behind them, or None for a clean end."""

    def __init__(self, pages, fault=None):
        self.pages, self.fault = pages, fault


class Refused(Exception):
    pass


def strip(records, data):
    pages, at = [], 0
    sizes = {0: 13, 1: 15, 2: 29}
    while at < len(records):
        kind = records[at]
        if kind not in sizes:
            return Source(pages, "the record is of an unknown kind")
        body = records[at + 1 : at + 1 + sizes[kind]]
        if len(body) < sizes[kind]:
            return Source(pages, "the strip ends within the record")
        place, length = struct.unpack_from("<II", body)
        if place + length > len(data):
            return Source(pages, "the record names bytes outside the data")
        front = f"place {place} length {length}"
        if kind == 0:
            count, encoding = struct.unpack_from("<IB", body, 8)
            pages.append(Page(f"dictionary {front} values {count} encoding {encoding}", dictionary=True))
        elif kind == 1:
            levels, enc, dfn, rep = struct.unpack_from("<IBBB", body, 8)
            pages.append(Page(f"v1 {front} levels {levels} encoding {enc} definition {dfn} repetition {rep}", levels=levels))
        else:
            levels, nulls, rows, rb, db, enc = struct.unpack_from("<IIIIIB", body, 8)
            pages.append(
                Page(
                    f"v2 {front} levels {levels} nulls {nulls} rows {rows} repetition-bytes {rb} definition-bytes {db} encoding {enc}",
                    rows=rows,
                    levels=levels,
                )
            )
        at += 1 + sizes[kind]
    return Source(pages)


def raw(width, count, values):
    if width not in (4, 8):
        raise Refused("raw values are neither 4 nor 8 bytes wide")
    if not 1 <= count <= 65536:
        raise Refused("a raw page holds 1 to 65536 values")
    if len(values) % width:
        raise Refused("the raw bytes end within a value")
    pages = []
    for at in range(0, len(values), width * count):
        length = min(width * count, len(values) - at)
        n = length // width
        pages.append(Page(f"v1 place {at} length {length} levels {n} encoding 0 definition 3 repetition 3", rows=n, levels=n))
    return Source(pages)


def chain(first, second):
    if first.fault:
        return first
    return Source(first.pages + second.pages, second.fault)


def option(n):
    return "None" if n is None else f"Some({n})"


def run(source, letters):
    out, at = [], 0
    for number, letter in enumerate(letters):
        if letter == "l":
            rest = source.pages[at:]
            out += [f"{i}: {p.text}" for i, p in enumerate(rest)]
            at = len(source.pages)
            out.append(f"refused 1 page {len(rest)}: {source.fault}" if source.fault else f"end pages {len(rest)}")
        elif at == len(source.pages) and source.fault:
            out.append(f"refused 1 page {number}: {source.fault}")
        elif at == len(source.pages):
            out.append({"p": "none", "g": "none", "s": "skipped", "b": "boundary true"}[letter])
        else:
            page = source.pages[at]
            if letter == "p":
                out.append(f"dictionary {str(page.dictionary).lower()} rows {option(page.rows)} levels {option(page.levels)}")
            elif letter == "g":
                out.append(f"{number}: {page.text}")
                at += 1
            elif letter == "s":
                out.append("skipped")
                at += 1
            else:
                out.append(f"boundary {str(page.rows is not None).lower()}")
    return out


def column_file(b):
    if len(b) < 7:
        return ["refused 14: the file ends within its header"]
    if b[2] > 2:
        return ["refused 14: the type is unknown"]
    n = struct.unpack_from("<I", b, 3)[0]
    if n > len(b) - 7:
        return ["refused 14: the strip reaches past the end of the file"]
    show = lambda x: "[" + ", ".join(str(v) for v in x) + "]"
    return [f"repetition {b[0]} definition {b[1]} type {b[2]}", f"strip {show(b[7:7+n])} data {show(b[7+n:])}"]


def dictionary(place, length, count=3, encoding=0):
    return bytes([0]) + le(place) + le(length) + le(count) + bytes([encoding])


def v1(place, length, levels=2, encodings=(0, 3, 4)):
    return bytes([1]) + le(place) + le(length) + le(levels) + bytes(encodings)


def v2(place, length, levels=5, nulls=1, rows=2, rep=3, dfn=4, encoding=8):
    return bytes([2]) + b"".join(le(n) for n in (place, length, levels, nulls, rows, rep, dfn)) + bytes([encoding])


def word(b):
    return b.hex() or "-"


def cases():
    data = bytes(range(10))
    every = "pbpgpbpgpbpgpbpg"
    S = lambda r, d=data: ("strip", r, d)
    R = lambda w, k, v: ("raw", w, k, v)
    whole = dictionary(0, 4) + v1(4, 6) + v2(10, 0)
    # each kind, known and unknown encodings, largest fields
    for one in (dictionary(0, 10), v1(2, 3), v2(9, 1), dictionary(0, 0, U32, 255), v1(10, 0, U32, (7, 99, 255)), v2(0, 0, U32, U32, U32, U32, U32, 255)):
        yield S(one), every[:6]
        yield S(one), "l"
    # an empty strip, no data, every call at a clean end
    yield S(b""), "pgsbpgsbl"
    yield S(b"", b""), "l"
    yield S(v1(0, 0), b""), "gl"
    # other kinds
    for kind in (3, 4, 127, 128, 255):
        yield S(bytes([kind])), "pgsbl"
        yield S(v1(0, 1) + bytes([kind]) + v1(0, 1)), "gpgsbl"
    # cut at every byte, behind a good record
    for record in (dictionary(0, 4), v1(4, 6), v2(10, 0)):
        for n in range(len(record)):
            yield S(v1(1, 1) + record[:n]), "pgpgsbl"
    # bytes at, before and past the data's end; places and lengths near 2^32
    for place, length in itertools.product((0, 1, 9, 10, 11, U32), (0, 1, 9, 10, 11, U32)):
        for make in (dictionary, v1, v2):
            yield S(make(place, length)), "pgl"
    yield S(v1(2**31, 2**31), data), "pgsb"
    yield S(v1(U32, U32), b""), "pgsb"
    # skips and gets in turn; one skip drops one page
    for letters in ("gggg", "ssss", "gsgl", "sgsl", "psps", "bsbsbsb", "sl", "ssl", "gsl", "ppgppgppgpp"):
        yield S(whole), letters
        yield S(whole + bytes([9])), letters
    # raw: widths, counts, cut values, a last page that is shorter
    for width in (0, 1, 2, 3, 4, 5, 7, 8, 9, 16):
        yield R(width, 2, bytes(16)), "l"
    for count in (0, 1, 2, 3, 4, 5, 65535, 65536, 65537, 2**32, 2**63):
        yield R(4, count, bytes(16)), "pgpbl"
        yield R(8, count, bytes(16)), "l"
    for n in range(18):
        yield R(4, 3, bytes(n)), "l"
        yield R(8, 1, bytes(n)), "pgspl"
    for letters in ("gggg", "ssss", "gsgs", "bsbsbsb", "psl", "sgl"):
        yield R(4, 2, bytes(20)), letters
    # chains of empty, broken and good sources
    parts = [S(b""), S(whole), S(v1(0, 1)), S(bytes([7])), S(dictionary(0, 4) + v1(9, 2)), S(v2(0, 1)[:-1]), R(4, 2, b""), R(4, 2, bytes(12))]
    for first, second in itertools.product(parts, parts):
        yield ("chain", first, second), "pbgpbsl"
    for first, second in ((S(whole), R(8, 1, bytes(24))), (R(8, 2, bytes(24)), S(whole))):
        for letters in ("gggggggg", "ssssssss", "gsgsgsgs", "sbsbsbsb", "sssl", "ssssl", "pgpgpgpgpgpg"):
            yield ("chain", first, second), letters
    yield ("chain", R(3, 1, b""), S(whole)), "l"
    yield ("chain", S(whole), R(4, 0, b"")), "l"
    # column files
    good = bytes([1, 2, 1]) + le(3) + b"abcdefg"
    for n in range(len(good) + 1):
        yield ("file", good[:n]), None
    for kind in (0, 1, 2, 3, 255):
        yield ("file", bytes([255, 0, kind]) + le(0)), None
        yield ("file", bytes([0, 255, kind]) + le(1)), None
    for n in (0, 1, 2, 3, 2**31, U32):
        yield ("file", bytes([0, 0, 2]) + le(n) + b"xy"), None


def words(source):
    kind = source[0]
    if kind == "chain":
        return f"chain {words(source[1])} {words(source[2])}"
    if kind == "strip":
        return f"strip {word(source[1])} {word(source[2])}"
    return f"raw {source[1]} {source[2]} {word(source[3])}"


def made(source):
    kind = source[0]
    if kind == "chain":
        return chain(made(source[1]), made(source[2]))
    if kind == "strip":
        return strip(source[1], source[2])
    return raw(source[1], source[2], source[3])


def main(folder):
    given, expected = [], []
    for source, letters in cases():
        if source[0] == "file":
            line, answer = f"file {word(source[1])}", column_file(source[1])
        else:
            line = f"{words(source)} {letters}"
            try:
                answer = run(made(source), letters)
            except Refused as cause:
                answer = [f"refused 14: {cause}"]
        given.append(line)
        expected += [line] + answer
    for name, lines in (("stdin", given), ("stdout", expected)):
        with open(f"{folder}/{name}", "w") as f:
            f.write("\n".join(lines) + "\n")
    print(f"{len(given)} cases")


if __name__ == "__main__":
    main(sys.argv[1])
