#!/usr/bin/env python3
"""Spells the repository's own definitions, lemmas, fields and labels in snake case, where port.py left them in camel case.

usage: python3 tools/spell.py        once, at the top, after port.py

It goes over the definitions, proofs, contracts and must-fail edits of crates/, and over the names that README.md and docs/ put in
backquotes. Names of the library, types, modules and what stands in strings stay. It stops, with nothing written, where two names
would fall together in one file.
"""

import glob
import re
import sys

NAME = r"[^\s(){}.;,@\"«»\[\]`]+"
HUMP = re.compile(r"(?<=[a-z0-9])[A-Z]")
# A local name that would meet the definition of its file.
APART = {("crates/counter_stream/proofs/Fitness.antt", "has_room"): "has-room"}


def snake(name):
    return HUMP.sub(lambda m: "_" + m[0].lower(), name)


def is_camel(name):
    return bool(re.match(r"[a-z]", name) and HUMP.search(name) and "·" not in name)


def files(*patterns):
    return sorted(f for p in patterns for f in glob.glob(p, recursive=True) if "/out/" not in f)


def read(path):
    with open(path, encoding="utf-8") as f:
        return f.read()


def main():
    proofs = files("crates/*/specs/**/*.antt", "crates/*/proofs/**/*.antt")
    turned = {}
    for path in proofs:
        for m in re.finditer(NAME, re.sub(r"(?m)^\s*--.*$", "", read(path))):
            if is_camel(m[0]):
                turned[m[0]] = snake(m[0])
    back = {}
    for name, to in turned.items():
        if back.setdefault(to, name) != name:
            sys.exit(f"{name} and {back[to]} would both be {to}")

    texts = {}
    for path in proofs + files("crates/*/src/**/*.rt", "crates/*/must-fail/*.edit"):
        text = read(path)
        for (where, name), to in APART.items():
            if where == path:
                text = re.sub(rf"(?<![\w.-]){name}(?![\w-])", to, text)
        if path.endswith(".antt"):
            here = set(re.findall(rf"(?<![.\w-]){NAME}", re.sub(r"(?m)--.*$", "", text)))
            for name in sorted(here & set(turned)):
                if turned[name] in here:
                    sys.exit(f"{path}: {name} would meet {turned[name]}")
        texts[path] = re.sub(NAME, lambda m: turned.get(m[0], m[0]), text)
    for path in files("README.md", "docs/*.md"):
        text = read(path)
        texts[path] = re.sub(r"`[^`\n]*`", lambda q: re.sub(NAME, lambda m: turned.get(m[0], m[0]), q[0]), text)
    for path, text in texts.items():
        if text != read(path):
            with open(path, "w", encoding="utf-8") as f:
                f.write(text)
    print(f"{len(turned)} names")


if __name__ == "__main__":
    main()
