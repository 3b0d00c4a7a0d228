#!/usr/bin/env python3
"""openssl: values that OpenSSL writes are read, and written back with equal octets.

    (cd crates/cases && rt run >/dev/null) && python3 tools/openssl.py [CERTIFICATES [SEED]]

It makes certificates with the `openssl` program (extensions sbgp-ipAddrBlock and sbgp-autonomousSysNum, with random ranges), takes the two
extension values out of each, reads them with the program `cases` (crates/cases/out/cases) and writes the rows that were read back.
OpenSSL takes every trailing one bit from max and keeps none, so a range whose max has no one bit left is refused with 9 (request (i) of
document 02 will change the rule). Such values are counted apart; every other value must come back with equal octets.
"""
import ipaddress
import pathlib
import random
import re
import subprocess
import sys
import tempfile

TOP = pathlib.Path(__file__).resolve().parent.parent
CASES = TOP / "crates" / "cases" / "out" / "cases"
CONFIG = """[req]
distinguished_name=dn
x509_extensions=ext
prompt=no
[dn]
CN=interoperation
[ext]
%s
"""


def ranges(bits, rng):
    """Ranges of numbers with gaps between them, some of them prefixes, some up to the last number."""
    edges = sorted({rng.choice((rng.getrandbits(bits), rng.getrandbits(bits) >> rng.randrange(bits) << rng.randrange(8))) % 2**bits for _ in range(2 * rng.randrange(1, 5))})
    if rng.random() < 0.2:
        edges = edges[:-1] + [2**bits - 1] if len(edges) % 2 == 0 else edges + [2**bits - 1]
    edges = edges[:len(edges) // 2 * 2]
    spans = []
    for low, high in zip(edges[::2], edges[1::2]):
        if spans and low <= spans[-1][1] + 1:
            continue
        if rng.random() < 0.4:
            free = rng.randrange(bits)
            low = low >> free << free
            high = low | (2**free - 1)
            if spans and low <= spans[-1][1] + 1:
                continue
        spans.append((low, high))
    return spans


def addresses(name, cls, bits, rng):
    if rng.random() < 0.15:
        return ["%s:inherit" % name]
    return ["%s:%s-%s" % (name, cls(a), cls(b)) for a, b in ranges(bits, rng)]


def numbers(name, rng):
    if rng.random() < 0.15:
        return ["%s:inherit" % name]
    return ["%s:%d" % (name, a) if a == b else "%s:%d-%d" % (name, a, b) for a, b in ranges(32, rng)]


def certificate(rng, folder, key):
    ip = (addresses("IPv4", ipaddress.IPv4Address, 32, rng) if rng.random() < 0.8 else []) + (addresses("IPv6", ipaddress.IPv6Address, 128, rng) if rng.random() < 0.8 else [])
    ids = (numbers("AS", rng) if rng.random() < 0.9 else []) + (numbers("RDI", rng) if rng.random() < 0.3 else [])
    lines = ["sbgp-ipAddrBlock = critical, " + ", ".join(ip)] * bool(ip) + ["sbgp-autonomousSysNum = critical, " + ", ".join(ids)] * bool(ids)
    (folder / "c.cnf").write_text(CONFIG % "\n".join(lines))
    made = subprocess.run(["openssl", "req", "-new", "-x509", "-key", key, "-config", folder / "c.cnf", "-days", "1", "-out", folder / "c.pem"], capture_output=True)
    if made.returncode:
        return []
    text = subprocess.run(["openssl", "asn1parse", "-in", folder / "c.pem"], capture_output=True, text=True, check=True).stdout
    found = re.findall(r"OBJECT\s+:(sbgp-ipAddrBlock|sbgp-autonomousSysNum)\n.*BOOLEAN.*\n.*HEX DUMP\]:([0-9A-F]*)", text)
    return [(1 if name == "sbgp-ipAddrBlock" else 2, bytes.fromhex(value)) for name, value in found]


def two(n):
    return n.to_bytes(2, "big")


def run(cases):
    return subprocess.run([CASES], input=b"".join(cases), capture_output=True, check=True).stdout.decode().splitlines()


def main(count=200, seed=1):
    rng = random.Random(int(seed))
    with tempfile.TemporaryDirectory() as name:
        folder = pathlib.Path(name)
        subprocess.run(["openssl", "ecparam", "-name", "prime256v1", "-genkey", "-noout", "-out", folder / "k.pem"], check=True)
        values = [v for _ in range(int(count)) for v in certificate(rng, folder, folder / "k.pem")]
    replies = run([b"R" + two(kind) + two(3072) + two(len(value)) + value for kind, value in values])
    equal, stripped, wrong = 0, 0, []
    back, kept = [], []
    for (kind, value), reply in zip(values, replies):
        if reply.startswith("ok "):
            rows = [int(n).to_bytes(8, "big") for n in reply.split(" ")[2].split(",") if n != "-"]
            back.append(b"W" + kind.to_bytes(8, "big") + two(len(rows)) + b"".join(rows) + two(40000))
            kept.append(value)
        elif reply.startswith("no 9 ") and lost(value, int(reply.split(" ")[4])):
            stripped += 1
        else:
            wrong.append((value, reply))
    for value, reply in zip(kept, run(back)):
        if reply == "ok %d %s" % (len(value), value.hex()):
            equal += 1
        else:
            wrong.append((value, reply))
    print("%d values of %d certificates: %d came back with equal octets, %d are refused with 9 because max keeps no one bit" % (len(values), int(count), equal, stripped))
    for value, reply in wrong:
        print("DIFFERENT", value.hex(), reply)
    print("%d passed, %d failed" % (equal + stripped, len(wrong)))
    return 1 if wrong or not equal else 0


def lost(value, place):
    """Whether the range at a place has a max with no one bit: SEQUENCE { BIT STRING min, BIT STRING max }."""
    first = place + 2
    second = first + 2 + value[first + 1]
    return not any(value[second + 3:second + 2 + value[second + 1]])


sys.exit(main(*sys.argv[1:]))
