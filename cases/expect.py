#!/usr/bin/env python3
"""Expected output of framedump, worked out apart from it.

Usage: expect.py check | expect.py write

The tables reading.cases and raw.cases have a case a line: the captured line, what must be told of it, and
why, with ' | ' between. In the first column backslash escapes stand for bytes that do not show. The middle
column was written down with the case, and not copied from framedump's output. 'check' works every case out a second time, by the decoder below, which was
written from docs/FORMATS.md and shares nothing with the crates, and complains where the two differ;
'write' checks and then writes the standard input and the expected output of the programs that run the
tables. The last line of each table is written without its line feed.
"""
import os
import re
import struct
import sys

HERE = os.path.dirname(os.path.abspath(__file__))
PROGRAMS = {"reading": "framedump", "raw": "framedump_raw"}
KINDS = ["entries", "marker", "held", "whole", "refused", "?"]


def reading(cell):
    level, second, quality = struct.unpack(">iIB", cell)
    if not -50000 <= level <= 500000 or quality > 3:
        return None
    return f"{level},{second},{quality}"


def raw(cell):
    return "%d,%d" % struct.unpack(">QQ", cell)


def told(kind, width, cell_text, datagram):
    """What is told of a datagram."""
    first = datagram[0]
    sizes = {0x09: 7, 0x13: 8, 0x01: 5}
    if first == 0x07:
        if len(datagram) < 8 or len(datagram) != 8 + width * bin(datagram[7]).count("1"):
            return "refused 12"
    elif sizes.get(first) != len(datagram):
        return "refused 12"
    cycle = int.from_bytes(datagram[1:5], "big")
    if cycle == 0xFFFFFFFF or (cycle == 0 and first != 0x01):
        return "refused 12"
    if first == 0x01:
        return f"whole {cycle}"
    number = int.from_bytes(datagram[5:7], "big")
    if first == 0x09:
        return "refused 12" if number > 4096 else f"marker {cycle} {number}"
    bits = [b for b in range(8) if datagram[7] >> b & 1]
    if number > 511 or not bits:
        return "refused 12"
    if first == 0x13:
        return f"held {cycle} {number}" + "".join(f" {8 * number + b}" for b in bits)
    out = f"entries {cycle} {number}"
    for place, b in enumerate(bits):
        text = cell_text(datagram[8 + width * place : 8 + width * (place + 1)])
        if text is None:
            return "refused 13"
        out += f" {8 * number + b}={text}"
    return out


def worked_out(kind, line):
    if not re.fullmatch(rb"[0-9A-Fa-f]{2}( ?[0-9A-Fa-f]{2})*", line):
        return "?"
    datagram = bytes.fromhex(line.decode().replace(" ", ""))
    if len(datagram) > 136:
        return "?"
    return told(kind, *((9, reading) if kind == "reading" else (16, raw)), datagram)


def cases(kind):
    with open(os.path.join(HERE, kind + ".cases")) as table:
        for row in table:
            if row.strip() and not row.startswith("#"):
                line, expected, why = row.rstrip("\n").split(" | ")
                yield line.encode().decode("unicode_escape").encode("latin-1"), expected, why


def summary(answers):
    n = {k: sum(a.split(" ")[0] == k for a in answers) for k in KINDS}
    return (f"{len(answers)} datagrams: {n['entries']} entries, {n['marker']} markers, {n['held']} held, "
            f"{n['whole']} whole, {n['refused']} refused, {n['?']} unreadable")


def main(words):
    if words not in (["check"], ["write"]):
        sys.exit(__doc__)
    wrong = 0
    for kind, program in PROGRAMS.items():
        rows = list(cases(kind))
        for line, expected, why in rows:
            if worked_out(kind, line) != expected:
                wrong += 1
                print(f"{kind}: {why}: the table says {expected!r}, the decoder {worked_out(kind, line)!r}")
        print(f"{kind}: {len(rows)} cases")
        if words == ["write"] and not wrong:
            folder = os.path.join(HERE, "..", "crates", program)
            answers = [expected for _, expected, _ in rows]
            with open(os.path.join(folder, "stdin"), "wb") as out:
                out.write(b"\n".join(line for line, _, _ in rows))
            with open(os.path.join(folder, "stdout"), "w") as out:
                out.write("\n".join(answers + [summary(answers)]) + "\n")
    sys.exit(1 if wrong else 0)


main(sys.argv[1:])
