#!/usr/bin/env python3
"""cases: turns the shared cases of document 01 into the input and the stored output of the program `cases`.

    python3 tools/cases.py ../shared/vectors/cases.tsv crates/cases

writes crates/cases/stdin and crates/cases/stdout. A case of the input is one octet for its letter, then its fields: a number is
two octets, high octet first; octets come with their count in two octets before them. The output is the expected answers, a line each.

    R  extension, table length, value
    F  table length, IP value, AS value
    W  kind (eight octets), numbers with their count before them (eight octets each), room
    P  first table's length, second table's length, bundle (only those with a short table: all others are in the program `vectors`)

After each value that is accepted the rows that were read are written again, which must give the same octets.
Example 13 of document 01 (Appendix B's second value, 48 bits, octet ac) comes last.
"""
import sys

LETTERS = "RFWP"
TABLE = "3072"
ROOM = "40000"
EXAMPLE_13 = (
    "302c3010040300010130090302000a030304ac103007040300010205" "00300f040200023009030700200100000002",
    "1026,0,0,167772160,0,184549375,1026,0,0,2886729728,0,2887778303,1027,1,0,0,0,0,2048,0,2306124484190535680,0,2306124484190601215,18446744073709551615",
)


def number(text):
    return int(text).to_bytes(2, "big")


def octets(text):
    data = b"" if text == "-" else bytes.fromhex(text)
    return number(len(data)) + data


def numbers(text):
    data = [] if text == "-" else [int(n).to_bytes(8, "big") for n in text.split(",")]
    return number(len(data)) + b"".join(data)


def case(letter, fields):
    """The octets of a case."""
    if letter == "R":
        extension, length, value = fields
        return b"R" + number(extension) + number(length) + octets(value)
    if letter == "W":
        kind, rows, room = fields
        return b"W" + int(kind).to_bytes(8, "big") + numbers(rows) + number(room)
    if letter == "P":
        first, second, bundle = fields
        return b"P" + number(first) + number(second) + octets(bundle)
    length, ip, ids = fields
    return b"F" + number(length) + octets(ip) + octets(ids)


def written(extension, value, answer):
    """The case that writes what was read, and its answer."""
    rows = answer.split(" ")[2]
    return case("W", (extension, rows, ROOM)), "ok %d %s" % (len(value) // 2, value)


def main(source, crate):
    lines = [line.rstrip("\n").split("\t") for line in open(source, encoding="ascii")]
    value, rows = EXAMPLE_13
    lines.append(["R", "example-13", "1", TABLE, value, "ok 4 " + rows])
    cases, answers = [], []
    for letter, _, *fields, answer in lines:
        if letter not in LETTERS:
            continue
        if letter == "P":
            if int(TABLE) <= min(int(fields[0]), int(fields[1])):
                continue
            answer = answer.replace("|", "\n").rstrip("\n")
        cases.append(case(letter, fields))
        answers.append(answer)
        if letter == "R" and answer.startswith("ok "):
            again, octets_again = written(fields[0], fields[2], answer)
            cases.append(again)
            answers.append(octets_again)
    open(crate + "/stdin", "wb").write(b"".join(cases))
    open(crate + "/stdout", "w", encoding="ascii").write("\n".join(answers) + "\n")


main(*sys.argv[1:])
