#!/usr/bin/env python3
"""respell.py: brings the definitions and lemmas of crates/*/specs and crates/*/proofs to one spelling.

Functions and lemmas are in snake case, types and facts in upper camel case; a dash joins two names, and a plain
word is added with an underscore. Names of src/ (functions, fields, types), strings, comments' prose and generated
names keep their spelling. Run once at the top of a repository that the kit's port.py has turned. With --list it
prints the renamings alone."""
import glob
import os
import re
import sys

# A name is letters, digits, underscores, dashes and primes, as antt reads it.
NAME = r"[A-Za-z_][A-Za-z0-9_'-]*"
HEAD = re.compile(r"^(?:(?:abbrev|unfoldable|pub) )*(?:(data|record) )?(?:pub )?(%s)(?=[ :])(.*)$" % NAME)
# A field of a record, a constructor, or a definition behind `where`.
MEMBER = re.compile(r"^ +(?:pub )?(%s) : " % NAME)
# What holds no names: strings and comments, in Rust characters too.
ANTT = r'"(?:[^"\\]|\\.)*"|--[^\n]*'
RUST = r"""b?'(?:[^'\\]|\\.)'|"(?:[^"\\]|\\.)*"|//[^\n]*"""
# Words of the library that own lemmas are named after.
LIBRARY = {"length", "take", "drop", "map", "append", "get_or", "reverse", "replicate", "filter", "cond", "mag"}
# Lemmas whose names would fall together with a definition's.
EXCEPT = {name: name.replace("-", "_") + "_lem" for name in ("eight-bytes", "form-answer", "length-size", "low-bytes")}


def snake(part):
    return re.sub(r"(?<=[a-z0-9])([A-Z])", lambda m: "_" + m.group(1).lower(), part)


def camel(name):
    return "".join(p[:1].upper() + p[1:] for p in name.split("-"))


def files(pattern):
    return sorted(path for part in pattern.split() for path in glob.glob("crates/*/" + part, recursive=True))


def definitions():
    """Each own name with what it is where it stands: True for a type."""
    found = {}
    for path in files("specs/**/*.antt proofs/**/*.antt"):
        answers = os.path.basename(path) in ("Answers.antt", "Invariants.antt", "Proof.antt") and "/proofs/" in path
        for line in open(path, encoding="utf-8"):
            inner = MEMBER.match(line)
            if inner and not answers:
                found.setdefault(inner.group(1), set()).add(False)
            m = HEAD.match(line.rstrip("\n"))
            if not m or line.startswith(("use ", "mod ", "pub mod", "unfolding ", "--")):
                continue
            kind, name, rest = m.groups()
            if not kind and not re.match(r"^\s*(\(|\{|:)", rest):
                continue
            if answers and re.search(r":\s*(goal|given)\.", rest):
                continue
            is_type = bool(kind) or bool(re.search(r"(^|→|:)\s*Type 0$", rest.strip()))
            found.setdefault(name, set()).add(is_type or name[0].isupper())
    return found


def renamings():
    found = definitions()
    functions = {snake(n) for n, uses in found.items() if False in uses and "-" not in n}
    types = {camel(n) for n, uses in found.items() if True in uses}
    names = functions | types | LIBRARY
    new = {}
    for name, uses in found.items():
        if False not in uses:
            to = camel(name)
        else:
            parts = [snake(p) for p in name.split("-")]
            to = parts[0]
            for left, right in zip(parts, parts[1:]):
                to += ("-" if left in names and right in names else "_") + right
        to = EXCEPT.get(name, to)
        if to != name:
            new[name] = to
    return found, new


def respelled(text, new, literal):
    """The text with its names turned; what `literal` matches (strings, comments) stays."""
    token = re.compile(r"(?<![A-Za-z0-9_'-])%s" % NAME)

    def turn(s):
        return token.sub(lambda m: new.get(m.group(0), m.group(0)), s)

    out, at = [], 0
    for m in re.finditer(literal, text):
        out += [turn(text[at:m.start()]), m.group(0)]
        at = m.end()
    return "".join(out) + turn(text[at:])


def main():
    found, new = renamings()
    fell = {}
    for name in found:
        fell.setdefault(new.get(name, name), []).append(name)
    for to, names in sorted(fell.items()):
        if len(names) > 1:
            print("fall together: %s: %s" % (to, " ".join(sorted(names))))
    if "--list" in sys.argv:
        for a, b in sorted(new.items()):
            print("%s\t%s" % (a, b))
        return
    for path in files("specs/**/*.antt proofs/**/*.antt src/**/*.rt"):
        text = open(path, encoding="utf-8").read()
        after = respelled(text, new, RUST if path.endswith(".rt") else ANTT)
        if after != text:
            open(path, "w", encoding="utf-8").write(after)
    print("%d names respelled" % len(new))


main()
