#!/usr/bin/env python3
"""Spells the parts of goals' names in proofs/F/ as the sources do: `copy-front-requires` becomes `copy_front-requires`.

usage: python3 tools/goal_names.py FOLDER [CRATE ..]   FOLDER: where the toolchain lies

An older Rattle wrote a dash for each `_` of a name of the sources. Turned are the names of functions, variables,
fields and labels with `_` of all crates and of the toolchain's library, and Rattle's own words with `_`, wherever a
file of a function's proof has them as parts of a longer name or alone behind a dot or in a record.
"""

import os
import re
import sys

WORD = re.compile(r"[A-Za-z][A-Za-z0-9]*(?:_[A-Za-z0-9]+)+")
TOKEN = re.compile(r"(?<![\w'-])[^\W\d][\w']*(?:-[\w']+)+(?![\w'-])")
RATTLE = [
    "overflow_add", "overflow_sub", "overflow_mul", "overflow_cast", "overflow_neg", "overflow_shl", "overflow_shr",
    "overflow_div", "overflow_rem", "in_ok", "in_err", "in_some", "in_none", "in_default",
    "type_inv", "i_in_bounds", "not_none", "has_next",
]


def sources(folder):
    for where, dirs, names in os.walk(folder):
        dirs[:] = [d for d in dirs if d != "out"]
        for n in names:
            if n.endswith(".rt"):
                yield os.path.join(where, n)


def main():
    kit = sys.argv[1]
    crates = sys.argv[2:] or sorted(os.listdir("crates"))
    words = set(RATTLE)
    for p in sources("crates"):
        words |= set(WORD.findall(open(p, encoding="utf-8").read()))
    for lib in ("core", "std", "std_alloc", "std_collections", "std_heap", "std_io", "io"):
        for p in sources(os.path.join(kit, "rattle", lib)):
            words |= set(re.findall(r"\bfn ([a-z][a-z0-9]*(?:_[a-z0-9]+)+)", open(p, encoding="utf-8").read()))
    dashed = {w.replace("_", "-"): w for w in words}
    longest = sorted(dashed, key=len, reverse=True)
    head = {}
    for w in longest:
        head.setdefault(w.split("-")[0], []).append(w)

    def turned(token):
        parts = token.split("-")
        out = []
        i = 0
        while i < len(parts):
            for w in head.get(parts[i], ()):
                n = w.count("-") + 1
                if parts[i : i + n] == w.split("-"):
                    out.append(dashed[w])
                    i += n
                    break
            else:
                out.append(parts[i])
                i += 1
        return "-".join(out)

    count = 0
    for c in crates:
        top = os.path.join("crates", c, "proofs")
        for where, dirs, names in os.walk(top):
            if where == top:
                continue
            for n in names:
                p = os.path.join(where, n)
                t = open(p, encoding="utf-8").read()
                lines = t.split("\n")
                keep = set()
                for line in lines:
                    m = re.match(r"use ([\w.'-]+)\.\{([^}]*)\}", line)
                    if m and ".Goals" not in m.group(1) and ".Given" not in m.group(1):
                        keep |= {x.strip().split(" as ")[-1] for x in m.group(2).split(",")}
                for i, line in enumerate(lines):
                    if line.startswith("use ") and ".Goals" not in line and ".Given" not in line:
                        continue
                    if line.lstrip().startswith("--"):
                        continue
                    lines[i] = TOKEN.sub(lambda m: m.group(0) if m.group(0) in keep else turned(m.group(0)), line)
                new = "\n".join(lines)
                if new != t:
                    open(p, "w", encoding="utf-8").write(new)
                    count += 1
    print(f"{count} files changed")


main()
