#!/usr/bin/env python3
"""Respells the repository's own definitions and lemmas as today's Rattle spells them: words in snake case.

usage: python3 tools/respell.py      at the top of the repository, once, right after /opt/rattle/port/port.py

Each name of a .antt file or a clause that begins with a small letter and has a capital inside, as `mayBegin`, becomes
snake case, `may_begin`, in every .antt, .rt, .edit and .md file and in tests/docs. What stands in a string stays. Where
the new name is taken by a lemma already, that lemma takes `_lem`. It writes the names, old and new, to docs/PORT-NAMES.txt (which has been put in order by crate since).
"""

import os
import re

# names that would read wrongly letter by letter, or that are a tactic's
EXCEPTIONS = {"getD-in": "get_or-in", "getD-plus": "get_or-plus", "in-getD": "in-get_or"}
# a definition of lists that has a tactic's name by now: in the files that import it
TACTIC = {"first_of": "first_answer"}
# lemmas that stand in the way of a definition of the same snake name: file, old, new
TAKEN = {"front_of": "front_of_lem", "meets_at": "meets_at_lem", "no_words": "no_words_lem", "none_of": "none_of_lem", "passed_over": "passed_over_lem"}
TOKEN = re.compile(r"[^\W\d](?:[\w?'₀-₉]|-(?=[^\W\d]))*")
STRING = re.compile(r'"(?:\\.|[^"\\])*"', re.S)


def camel(n):
    return re.search(r"[a-z0-9'][A-Z]", n) and not n[0].isupper()


def snake(n):
    return EXCEPTIONS.get(n) or re.sub(r"(?<=[a-z0-9'])([A-Z])", lambda m: "_" + m.group(1).lower(), n)


def files(*ends):
    for top in ("crates", "docs", "tests/docs"):
        for folder, dirs, names in os.walk(top):
            dirs[:] = sorted(d for d in dirs if d not in ("out", "changes"))
            for f in sorted(names):
                if f.endswith(ends):
                    yield os.path.join(folder, f)
    if ".md" in ends:
        yield "README.md"


def read(p):
    with open(p, encoding="utf-8") as f:
        return f.read()


def main():
    names = {}
    seen = set()
    for p in files(".antt"):
        for t in TOKEN.findall(re.sub(r"--[^\n]*", "", read(p))):
            seen.add(t)
            if camel(t):
                names[t] = snake(t)
    for old, new in EXCEPTIONS.items():
        if old in seen:
            names[old] = new
    for old, new in TAKEN.items():
        if old in seen:
            names[old] = new
    assert len(set(names.values())) == len(names), "two names fall together"
    for old, new in sorted(names.items()):
        if new in seen and new not in names:
            print(f"look: {old} becomes {new}, which stands already")

    def turned(text):
        return TOKEN.sub(lambda m: names.get(m.group(0), m.group(0)), text)

    for p in files(".antt", ".rt", ".edit", ".md", "words.txt"):
        if p.endswith(("PORT.md", "PORT-NAMES.txt")):
            continue
        old = read(p)
        if p.endswith((".md", ".txt")):
            new = old
            for a, b in names.items():
                if camel(a):
                    new = re.sub(r"(?<![\w'-])" + re.escape(a) + r"(?![\w'?-])", b, new)
        else:
            out, at = [], 0
            for m in STRING.finditer(old) if p.endswith((".rt", ".edit")) else ():
                out += [turned(old[at : m.start()]), m.group(0)]
                at = m.end()
            new = "".join(out) + turned(old[at:])
            if p.startswith("crates/lists/") or re.search(r"use Rattle\.lists\.specs\.Lists\.\{[^}]*\bfirst_of\b", new):
                new = re.sub(r"(?<![\w'-])first_of(?![\w'-])", TACTIC["first_of"], new)
        if new != old:
            with open(p, "w", encoding="utf-8") as f:
                f.write(new)
    with open("docs/PORT-NAMES.txt", "w", encoding="utf-8") as f:
        for old, new in sorted(names.items()):
            f.write(f"{old} {new}\n")
    print(f"{len(names)} names respelled")


main()
