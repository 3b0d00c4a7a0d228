#!/usr/bin/env python3
"""Brings the names of this repository's own definitions and lemmas to one spelling.

usage: python3 tools/names.py [FOLDER]     rewrites crates/, README.md and docs/ of FOLDER (this one if none is given) in place

Run once, after the kit's port.py and before any edit by hand. The spelling is that of the kit's CONTRACT_STYLE.md, "Names": words in snake case,
types in camel case; a dash stays where it joins the names of two functions, as in length-with_rows. What is renamed: each definition, lemma, section
member and alias of specs/ and proofs/ whose name has a capital inside or a dash. What keeps its name: all that the sources declare (functions, types,
fields, constants), what Rattle makes (invariant-.., decreases-.., the goals), and whatever a library exports. It ends with an error, and changes
nothing, where two names of one file would fall together.
"""
import collections
import glob
import os
import re
import sys

TOKEN = re.compile(r"[^\s(){}\[\];,.|@\"`]+")
DEFINED = re.compile(r"^\s*(?:(?:unfoldable|abbrev|pub) )*(?:(data|record|ruleset|module) )?([^\s(){}:;,.|\"`]+)\s+:(?:\s|$)")
SECTION = re.compile(r"^\s*(?:(?:unfoldable|abbrev|pub) )*(?:data|record|ruleset) ([^\s(){}:;,.|\"`]+)")
ALIAS = re.compile(r"(?<!\S)as ([^\s(){}:;,.|\"`]+)")
IMPORT = re.compile(r"^(?:pub )?use ([^\s{};]+?)(?:\.\{([^}]*)\})?\s*$")
MADE = ("invariant-", "decreases-")
# a dash stays between the names of two functions where one of them is a list's
FIRST, LAST = {"length"}, {"append", "drop", "length"}
# names of X.690's types, spelled as the constants of crates/der/src/tags.rt
CONSTANTS = {"BIT-STRING": "BIT_STRING", "OCTET-STRING": "OCTET_STRING"}
# lemmas that port.py gave the name that a definition gets here, by the place where they are said
LEMMAS = {"crates/path/": {"rows_in": "rows_in_lem"}, "crates/der/proofs/laws/Bits.antt": {"no_bits": "no_bits_lem"}}


def snake(word):
    if word.isupper():
        return word
    if word[:1].isupper():
        return word
    return re.sub(r"(?<=[a-z0-9])([A-Z])", lambda m: "_" + m.group(1).lower(), word)


def odd(name):
    return "-" in name or (name[:1].islower() and re.search(r"[a-z0-9][A-Z]", name))


def files(root, *kinds):
    for kind in kinds:
        yield from sorted(glob.glob(os.path.join(root, "crates/*/" + kind), recursive=True))


def read(path):
    with open(path, encoding="utf-8") as f:
        return f.read()


def declared(root):
    """The names that specs/ and proofs/ declare, aliases too, and of these the definitions (with no dash)."""
    names, plain = set(), set()
    for path in files(root, "specs/**/*.antt", "proofs/**/*.antt"):
        for line in read(path).split("\n"):
            if line.lstrip().startswith("--"):
                continue
            if line.startswith("use "):
                names.update(ALIAS.findall(line))
                continue
            m = DEFINED.match(line) or SECTION.match(line)
            if m:
                name = m.groups()[-1]
                names.add(name)
                if "-" not in name:
                    plain.add(name)
    return names, plain


def target(name, plain):
    if name in CONSTANTS:
        return CONSTANTS[name]
    left, dash, right = name.partition("-")
    if dash and (left in FIRST and right in plain or right in LAST and left in plain):
        return snake(left) + "-" + snake(right)
    word = "_".join(snake(part) for part in name.split("-"))
    # a lemma that would have its function's name
    return word + "_lem" if dash and word in functions(plain) else word


def functions(plain):
    return {snake(name) for name in plain}


def foreign(text):
    """The names that a file takes from elsewhere than this repository's crates."""
    found = set()
    for line in text.split("\n"):
        m = IMPORT.match(line)
        if m and m.group(2) and not re.match(r"Rattle\.(cases|der|face|ground|number|path|pathtable|report|table|values|vectors|writer)\.", m.group(1)):
            found.update(w.strip().split(" as ")[-1] for w in m.group(2).split(","))
    return found


def turn(text, names, keep):
    def one(m):
        word = m.group(0)
        bare = word.rstrip("'")
        if word in names and word not in keep:
            return names[word]
        if bare in names and bare not in keep:
            return names[bare] + word[len(bare):]
        return word
    return TOKEN.sub(one, text)


def turn_prose(text, names):
    """Comments and pages: the names, and the beginnings of names that are written as in first-.., NAME-one-reply."""
    text = turn(text, names, set())
    text = re.sub(r"NAME-one-reply", "NAME_one_reply", text)
    return re.sub(r"(?<![\w-])([a-z][a-z0-9_]*(?:-[a-z0-9_]+)*)-\.\.", lambda m: m.group(1).replace("-", "_") + "_..", text)


def turn_proof(path, text, names):
    keep = foreign(text)
    for place, more in LEMMAS.items():
        if place in path:
            names = names | more
    # an alias of a source's function has that function's name
    names = names | {a: snake(a.replace("-", "_")) for a in ALIAS.findall(text) if a in names}
    out = []
    for line in text.split("\n"):
        code, dashes, said = re.match(r"^(.*?)(?:(?<!\S)(--)(?=\s|$)(.*))?$", line).groups()
        out.append(turn(code, names, keep) + ((dashes + turn_prose(said, names)) if dashes else ""))
    return "\n".join(out)


def turn_source(text, names):
    """A source or an edit of one: no string changes, and no comment but for names in backticks or with a capital inside."""
    camel = {k: v for k, v in names.items() if "-" not in k}
    out = []
    for line in text.split("\n"):
        parts = re.split(r'("(?:[^"\\]|\\.)*")', line)
        out.append("".join(p if p.startswith('"') and len(p) > 1 else turn(p, camel, set()) for p in parts))
    return "\n".join(out)


def turn_page(text, names):
    return re.sub(r"`[^`\n]*`", lambda m: turn_prose(m.group(0), names), text)


def main():
    root = sys.argv[1] if len(sys.argv) > 1 else "."
    own, plain = declared(root)
    names = {n: target(n, plain) for n in own if odd(n) and not n.startswith(MADE)}
    names = {n: t for n, t in names.items() if t != n}
    work = []
    for path in files(root, "specs/**/*.antt", "proofs/**/*.antt"):
        work.append((path, turn_proof(path, read(path), names)))
    for path in files(root, "src/**/*.rt", "must-fail/*.edit"):
        work.append((path, turn_source(read(path), names)))
    for path in [os.path.join(root, "README.md"), *sorted(glob.glob(os.path.join(root, "docs/*.md")))]:
        if os.path.basename(path) != "PORT.md":
            work.append((path, turn_page(read(path), names)))
    # names that fall together in one file
    bad = 0
    for path, text in work:
        if not path.endswith(".antt"):
            continue
        old = read(path)
        before = collections.Counter()
        for line in old.split("\n"):
            m = DEFINED.match(line)
            if m and not line.lstrip().startswith("--") and not line.startswith("        "):
                before[m.groups()[-1]] += 1
        for a in before:
            if a in names and names[a] in before:
                print(f"{path}: {a} and {names[a]}")
                bad += 1
    if bad:
        sys.exit(1)
    for path, text in work:
        if text != read(path):
            with open(path, "w", encoding="utf-8") as f:
                f.write(text)
    # a file or folder of proofs/ keeps its name: it is a module or a function
    print(f"{len(names)} names")


if __name__ == "__main__":
    main()
