#!/usr/bin/env python3
"""seeds.py VECTORS OUT: writes the shared cases of the folder VECTORS as inputs of fuzz.c to the folder OUT."""

import pathlib
import struct
import sys

LONGEST = 20_000
READ_IP, READ_AS, WRITE, PATH, FAULT = range(5)


def octets(field):
    return b"" if field == "-" else bytes.fromhex(field)


def numbers(field):
    return b"" if field == "-" else b"".join(struct.pack(">Q", int(n)) for n in field.split(","))


def seed(fields):
    """The input for a case: function, lengths of the buffers (0: all long enough), what is read."""
    if fields[0] == "P":
        return bytes([PATH, 0]) + octets(fields[4])
    if fields[0] == "R":
        return bytes([READ_IP if fields[2] == "1" else READ_AS, 0]) + octets(fields[4])
    if fields[0] == "W":
        kind, room = min(int(fields[2]), 255), min(int(fields[4]), 0xFFFF)
        return struct.pack(">BBBH", WRITE, 0, kind, room) + numbers(fields[3])
    ip, as_ = octets(fields[3]), octets(fields[4])
    return struct.pack(">BBH", FAULT, 0, min(len(ip), 0xFFFF)) + ip + as_


def seeds(vectors):
    for line in (vectors / "cases.tsv").read_text().splitlines():
        yield seed(line.split("\t"))
    rest = (vectors / "path.cases").read_bytes()
    while rest:
        end = 4 + int.from_bytes(rest[:4], "big")
        yield bytes([PATH, 0]) + rest[4:end]
        rest = rest[end:]


def main(vectors, out):
    out = pathlib.Path(out)
    out.mkdir(parents=True, exist_ok=True)
    for number, octets_of_seed in enumerate(seeds(pathlib.Path(vectors))):
        if len(octets_of_seed) <= LONGEST:
            (out / f"seed-{number:05}").write_bytes(octets_of_seed)


if __name__ == "__main__":
    main(*sys.argv[1:])
