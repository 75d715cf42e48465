#!/usr/bin/env python3
"""Counts the places that docs/DESIGN-PASS.md speaks of, in src/ and proofs/ of every crate.

usage: python3 tools/design.py [COMMIT] [--list POINT]        at the top; the working tree without a commit

It goes by text: a place that it lists is one to look at. With --list it prints each place of a point.
"""

import collections
import re
import subprocess
import sys


def read(commit, pattern):
    """Each file that git tracks and the pattern fits, with its text."""
    if commit:
        names = subprocess.check_output(["git", "ls-tree", "-r", "--name-only", commit], text=True)
        get = lambda f: subprocess.check_output(["git", "show", f"{commit}:{f}"], text=True)
    else:
        names = subprocess.check_output(["git", "ls-files", "-co", "--exclude-standard"], text=True)
        get = lambda f: open(f, encoding="utf-8").read()
    found = {}
    for f in names.splitlines():
        if re.fullmatch(pattern, f):
            try:
                found[f] = get(f)
            except FileNotFoundError:
                pass
    return found


def code(text):
    """A source without comments, ghost imports and clauses."""
    text = re.sub(r"//[^\n]*", "", text)
    return re.sub(r"(?m)^ *(ghost use .*|(requires|ensures)\b.*)$", "", text)


def functions(text):
    """Each function: name, parameters, body."""
    for m in re.finditer(r"\bfn (\w+)[^(]*\(", text):
        depth, i = 1, m.end()
        while depth:
            depth += {"(": 1, ")": -1}.get(text[i], 0)
            i += 1
        start = text.find("{", i)
        stop = text.find(";", i)
        if start < 0 or 0 <= stop < start and "[" not in text[i:stop]:
            continue
        depth, j = 1, start + 1
        while depth:
            depth += {"{": 1, "}": -1}.get(text[j], 0)
            j += 1
        yield m[1], text[m.end() : i - 1], text[start:j]


def parameters(text):
    parts, depth, cur = [], 0, ""
    for ch in text:
        depth += {"(": 1, "[": 1, "<": 1, ")": -1, "]": -1, ">": -1}.get(ch, 0)
        if ch == "," and not depth:
            parts.append(cur)
            cur = ""
        else:
            cur += ch
    return [" ".join(p.split()) for p in parts + [cur] if ":" in p]


def facts(line):
    body, parts, depth, cur = line[line.index("{") + 1 : line.rindex("}")], [], 0, ""
    for ch in body + "×":
        depth += {"(": 1, "[": 1, "{": 1, ")": -1, "]": -1, "}": -1}.get(ch, 0)
        if ch == "×" and not depth:
            cur = cur.strip()
            while cur.startswith("(") and cur.endswith(")"):
                cur = cur[1:-1].strip()
            parts.append(cur)
            cur = ""
        else:
            cur += ch
    return parts


def places(sources):
    """(point, what, where) for each place."""
    shapes, records = collections.defaultdict(list), collections.defaultdict(list)
    needs, sets = collections.Counter(), collections.Counter()
    for f, raw in sources.items():
        text = code(raw)
        for m in re.finditer(r"\benum (\w+) \{(.*?)\n\}", text, re.S):
            flat = re.sub(r"[({][^(){}]*[)}]", "*", m[2])
            cases = [c.strip() for c in flat.split(",") if c.strip()]
            if len(cases) == 2 and any("*" in c for c in cases):
                yield 1, "enum of the shape of Option or Result", f"{f} {m[1]}"
        for m in re.finditer(r"\bstruct (\w+)[^;{(]*\{(.*?)\n\}", text, re.S):
            fields = re.findall(r"(\w+): ([^,\n]+)", m[2])
            if len(fields) > 1:
                records[tuple(sorted(fields))].append(f"{f} {m[1]}")
            if any(n == "number" and t in ("u32", "usize") for n, t in fields):
                yield 1, "struct with a number for a refusal", f"{f} {m[1]}"
            if any(t == "bool" for n, t in fields) and len(fields) > 1:
                yield 1, "struct with a flag beside a value", f"{f} {m[1]}"
            if any(n in ("count", "len") for n, t in fields) and any("[" in t for n, t in fields):
                yield 6, "buffer with its length beside", f"{f} {m[1]}"
        run = re.findall(r"(?m)^(?:pub(?:\(crate\))? )?const (\w+): usize = (\d+);", text)
        last = None
        for name, value in run:
            if value == "0" or last is not None and int(value) == last + 1:
                last = int(value)
                yield 1, "constant of a run 0, 1, 2, .. for kinds", f"{f} {name}"
            else:
                last = None
        for name, params, body in functions(text):
            listed = parameters(params)
            for p in listed:
                if re.fullmatch(r"(kind|question|fault|form|number|list|part): (usize|u32)", p):
                    yield 1, "parameter that is a number for a kind or a refusal", f"{f} {name}({p})"
            for m in re.finditer(r"(?m)^ *(while|loop)\b[^\n]*", body):
                yield 3, "while or loop", f"{f} {name}: {m[0].strip()}"
            types = [p.split(": ", 1)[1] for p in listed]
            after = text[text.find(body) - 60 : text.find(body)]
            if len(types) == 2 and types[0] == types[1] and re.search(r"-> bool\s*$", after) and re.match(r"same|equal|alike|is_same|differ", name):
                yield 4, "equality by hand", f"{f} {name}"
            if re.fullmatch(r"words|of_words|is_at_end|copy|least|lesser|same_cells|differ", name):
                yield 4, "copying, conversion or comparison by hand", f"{f} {name}"
            tokens = re.findall(r"[A-Za-z_]\w*|\d\w*|[^\s\w]", body)
            if len(tokens) >= 30:
                keep = {"if", "else", "while", "for", "in", "return", "let", "mut", "match", "as", "loop", "self"}
                names = {}
                shape = " ".join(t if t in keep or not re.match(r"\w", t) else ("0" if t[0].isdigit() else names.setdefault(t, f"v{len(names)}")) for t in tokens)
                shapes[shape].append(f"{f} {name}")
            for k in range(len(listed) - 2):
                sets[tuple(sorted(listed[k : k + 3]))] += 1
            arms = re.findall(r"=> ([\w:]+)\(", body)
            if re.search(r"\bmatch (\w+) \{", body) and len(arms) >= 3 and len(arms) == body.count("=>") - body.count("=> {}") and len(set(arms)) >= 3:
                yield 7, "switch on which function to call", f"{f} {name}"
        for line in re.findall(r"(?m)^ *requires \{.*\}$", raw):
            needs.update(set(facts(line)))
    for shape, where in shapes.items():
        for w in where[1:]:
            yield 2, "function of the shape of another", f"{w} ~ {where[0]}"
    for where in records.values():
        for w in where[1:]:
            yield 2, "struct of the fields of another", f"{w} ~ {where[0]}"
    for fact, n in needs.items():
        if n >= 3:
            yield 5, "fact in the requires of three or more functions", f"{n} {fact}"
    for three, n in sets.items():
        if n >= 3:
            yield 5, "three parameters together in three or more functions", f"{n} {', '.join(three)}"


def main():
    args = sys.argv[1:]
    point = int(args.pop(args.index("--list") + 1)) if "--list" in args else None
    args = [a for a in args if a != "--list"]
    commit = args[0] if args else None
    found = list(places(read(commit, r"crates/\w+/src/.*\.rt")))
    if point:
        for p, what, where in found:
            if p == point:
                print(f"{what}: {where}")
        return
    for (p, what), n in sorted(collections.Counter((p, w) for p, w, _ in found).items()):
        print(f"{p} {what}: {n}")
    proofs = read(commit, r"crates/\w+/proofs/.*\.antt")
    lines = sum(t.count("\n") for t in proofs.values())
    own = sum(len(re.findall(r"branch-raw|in_default-own", t)) for t in proofs.values())
    big = sorted(((t.count("\n"), f) for f, t in proofs.items()), reverse=True)[0]
    print(f"8 files of proofs: {len(proofs)}, lines: {lines}, the longest: {big[0]} in {big[1]}, names that may change: {own}")


if __name__ == "__main__":
    main()
