#!/usr/bin/env python3
"""Spells the names of the repository's own definitions and lemmas in snake case: `code-room` becomes `code_room`.

usage: python3 tools/snake_names.py          at the top of the repository: renames in place
       python3 tools/snake_names.py --list   prints what it would rename, and names that would fall together

Renamed are the names with a dash that a file of specs/ or proofs/ defines: definitions, lemmas, records, fields and
constructors, other names for what is brought in, and local names given by `let`. Kept are the names of goals
(`pub x : goal.x`), of functions of src/, text in quotes, and remarks but for names in backticks. A name that a file
brings in from a library is kept in that file.
"""

import os
import re
import sys

TOKEN = re.compile(r"(?<![\w'·-])" + r"[^\W\d][\w']*(?:-[\w']+)+" + r"(?![\w'-])")
HEAD = re.compile(r"^(?:abbrev |unfoldable |opaque )?(?:pub )?(?:record |data )?([^\W\d][\w']*(?:-[\w']+)+)\s*(?::|$|\()")
FIELD = re.compile(r"^\s+(?:abbrev |unfoldable |opaque )?(?:pub )?([^\W\d][\w']*(?:-[\w']+)+)\s*:\s")
LOCAL = re.compile(r"\blet ([^\W\d][\w']*(?:-[\w']+)+)\s*[:=]")
ALIAS = re.compile(r" as ([^\W\d][\w']*(?:-[\w']+)+)(?=[,}\s])")
GOAL = re.compile(r"^(?:abbrev )?(?:pub )?([\w'-]+)\s*:\s*goal\.([\w'-]+)")
USE = re.compile(r"\buse ([\w.'-]+)\.\{([^}]*)\}")


def files(kinds):
    for folder, dirs, names in os.walk("crates"):
        dirs[:] = sorted(d for d in dirs if d != "out")
        for n in sorted(names):
            if n.endswith(kinds):
                yield os.path.join(folder, n)


def own_crates():
    return {d for d in os.listdir("crates") if os.path.isdir(os.path.join("crates", d))}


def collect():
    found = {}
    goals = set()
    for p in files((".antt",)):
        for line in open(p, encoding="utf-8"):
            g = GOAL.match(line)
            if g and g.group(1) == g.group(2):
                goals.add(g.group(1))
                continue
            for m in (HEAD.match(line), FIELD.match(line), *LOCAL.finditer(line), *ALIAS.finditer(line)):
                if m:
                    found.setdefault(m.group(1), set()).add(p)
    return found, goals


def library_names(text, own):
    """The names that this text brings in from a library."""
    out = set()
    for m in USE.finditer(text):
        parts = m.group(1).split(".")
        if len(parts) > 1 and parts[0] == "Rattle" and parts[1] in own:
            continue
        for n in m.group(2).split(","):
            n = n.strip()
            if " as " not in n:
                out.add(n)
    return out


def pieces(text, remark):
    """Splits a text into code, quoted text and remarks."""
    out = []
    i = 0
    start = 0
    kind = "code"
    while i < len(text):
        if text.startswith(remark, i):
            out.append(("code", text[start:i]))
            j = text.find("\n", i)
            j = len(text) if j < 0 else j
            out.append(("remark", text[i:j]))
            i = start = j
        elif text[i] == '"':
            out.append(("code", text[start:i]))
            j = i + 1
            while j < len(text) and text[j] != '"':
                j += 2 if text[j] == "\\" else 1
            out.append(("quoted", text[i : j + 1]))
            i = start = j + 1
        elif text[i] == "'" and remark == "//":
            m = re.match(r"'(?:\\.[^']*|[^'\\])'", text[i:])
            i += len(m.group(0)) if m else 1
        else:
            i += 1
    out.append(("code", text[start:]))
    return out


def renamed(text, remark, turn):
    def each(m):
        return turn.get(m.group(0), m.group(0))

    out = []
    for kind, piece in pieces(text, remark):
        if kind == "code":
            piece = TOKEN.sub(each, piece)
        elif kind == "remark":
            piece = re.sub(r"`([^`\n]*)`", lambda m: "`" + TOKEN.sub(each, m.group(1)) + "`", piece)
        out.append(piece)
    return "".join(out)


def main():
    found, goals = collect()
    own = own_crates()
    turn = {n: n.replace("-", "_") for n in found}
    clash = sorted(n for n in turn if n in goals)
    for n in clash:
        print(f"also a goal's name, left: {n}")
        del turn[n]
    texts = {p: open(p, encoding="utf-8").read() for p in files((".antt", ".rt", ".edit"))}
    words = {}
    for p, t in texts.items():
        for kind, piece in pieces(t, "//" if p.endswith((".rt", ".edit")) else "--"):
            if kind == "code":
                for w in set(re.findall(r"[^\W\d][\w']*(?:-[\w']+)*", piece)):
                    words.setdefault(w, set()).add(p)
    for n, new in sorted(turn.items()):
        if new in words:
            print(f"falls together: {n} with {new} in {' '.join(sorted(words[new])[:6])}")
    if "--list" in sys.argv:
        for n in sorted(turn):
            print(n, "->", turn[n])
        return
    count = 0
    for p, t in texts.items():
        keep = library_names(t, own)
        here = {n: new for n, new in turn.items() if n not in keep}
        new = renamed(t, "//" if p.endswith((".rt", ".edit")) else "--", here)
        if new != t:
            open(p, "w", encoding="utf-8").write(new)
            count += 1
    print(f"{len(turn)} names, {count} files changed")


main()
