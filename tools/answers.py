#!/usr/bin/env python3
"""Turns the proofs of a crate that walk the code by hand into invariants and answers.

usage: python3 tools/answers.py CRATE        at the top of the repository, once the crates below CRATE are proved

Each crates/CRATE/proofs/../Proof.antt that closes a walk by `tie.close` becomes Invariants.antt, for the loops, and
Answers.antt, for the goals that the check doesn't find alone. The names of goals and steps are those that
`rt check --generated DIR --old-names` lists beside the older ones. An answer that says `search rules` goes.
"""

import json
import os
import re
import subprocess
import sys
import tempfile

ID = r"[^\W\d][\w'?₀-₉]*(?:-[\w'?₀-₉]+)*"
PATH = re.compile(rf"(?<![\w'.₀-₉-])(?P<base>{ID})(?P<path>(?:\.(?:{ID}|\d+))*)")


def norm(n):
    n = n.replace("_", "-").lower()
    return re.sub(r"^overflow-", "", n)


class Function:
    """What the check lists of a function's older and newer names."""

    def __init__(self, info):
        self.needs = {}
        places = info["places"]
        at = {p[0]: k for k, p in enumerate(places)}
        for (old, new), (place, _) in zip(info["needs"], info["asked_at"]):
            for n in (old, new):
                self.needs.setdefault(norm(n), (new, place, info.get("asked", {}).get(old)))
        self.place = {}
        self.params = info.get("params", {})
        for k, p in enumerate(places):
            steps, clauses, callees, facts = {}, {}, {}, {}
            i = k
            while i is not None:
                q = places[i]
                old, new = q[2]
                if old and norm(old) not in steps:
                    steps[norm(old)] = new
                    if q[3]:
                        callees[new] = q[3]
                    c = info["clauses"][i]
                    if c and c.get("fields"):
                        clauses[new] = c["fields"]
                arm = info["arms"][i]
                if arm:
                    for field, step, path in arm[2]:
                        facts.setdefault((norm(step), ".".join(path)), f"{arm[0]}.{field}")
                i = at[q[1]] if q[1] is not None else None
            for name, step in info["typed"][k]:
                facts.setdefault((norm(step), "given"), f"type_inv.{name}")
            self.place[p[0]] = (steps, clauses, callees, facts)
        self.loops = {norm(l[0][0]): (l[0][1], l[1], ch) for l, ch in zip(info["loops"], info["changed"])}
        self.pre = info.get("pre")
        if isinstance(self.pre, dict):
            self.pre = self.pre.get("fields")
        self.args = {}
        for a, b in info["args"]:
            m, k = re.fullmatch(r"\.args \.(\S+)", a), re.fullmatch(r"\.args \.(\S+)", b)
            if m and k:
                self.args[m.group(1)] = k.group(1)


class Turn:
    """Turns one term at a place of the function: `roots` are the variables that are walks so far; each becomes `c`."""

    def __init__(self, f, place, roots):
        self.f = f
        self.steps, self.clauses, self.callees, self.facts = f.place[place]
        self.vars = {v: ("walk", "c") for v in roots}

    def path(self, base, fields):
        """The text of base.fields, and the kind of what it is."""
        kind, text = self.vars.get(base, (None, base))
        out = [text]
        fields = list(fields)
        while fields:
            x = fields.pop(0)
            if kind == "walk":
                if x == "before":
                    continue
                if x in ("pre", "requires"):
                    kind = "requires"
                    out.append("requires")
                elif x in ("args", "ranges"):
                    kind = "args"
                    out.append(x)
                elif norm(x) not in self.steps and norm(x).rstrip("0123456789") in self.steps and x[-1].isdigit():
                    fields.insert(0, x.rstrip("0123456789"))
                    continue
                elif norm(x) == "well-formed":
                    kind = None
                    out.append("well_formed")
                elif norm(x) in self.steps:
                    told = [k for k in range(len(fields), -1, -1) if (norm(x), ".".join(fields[:k])) in self.facts]
                    if told:
                        out.append(self.facts[(norm(x), ".".join(fields[: told[0]]))])
                        fields = fields[told[0] :]
                        kind = None
                        continue
                    s = self.steps[norm(x)]
                    kind = ("step", s)
                    out.append(s)
                else:
                    kind = None
                    out.append(x)
            elif kind == "args":
                kind = None
                out.append(self.f.args.get(x, x))
            elif isinstance(kind, tuple) and kind[0] == "step":
                s = kind[1]
                x = {"inv": "invariant", "taken": "true", "came": "branch", "pre": "requires"}.get(x, x)
                if x == "left" and (s.startswith("if") or s.endswith("-test")):
                    x = "false"
                if x in ("new", "last") and s in self.callees and fields and fields[0].isdigit():
                    names, k = self.f.params.get(self.callees[s], []), 0
                    while fields and fields[0] == "1":
                        k += 1
                        fields.pop(0)
                    if fields and fields[0] == "0":
                        fields.pop(0)
                    out += ["new", names[k] if k < len(names) else f"PARAM{k}"]
                    kind = None
                    continue
                kind = ("ensures", s) if x == "ensures" else None
                out.append(x)
                if kind and len(self.clauses.get(s, [])) == 1 and not (fields and fields[0] == self.clauses[s][0]):
                    out.append(self.clauses[s][0])
                    kind = None
                if s.startswith("if-not-") and not any(k.endswith("-" + s[7:]) for k in self.callees) and not re.search(r"!" + re.escape(s[7:]) + r"\.", SOURCE) and x in ("true", "false") and not fields:
                    return "(ap not " + ".".join(out) + ")", None
            elif isinstance(kind, tuple) and kind[0] == "ensures":
                names = self.clauses.get(kind[1])
                if x.isdigit() and names:
                    x = nested(x, fields, names)
                kind = None
                out.append(x)
            elif kind == "requires":
                if x.isdigit() and self.f.pre:
                    x = nested(x, fields, self.f.pre)
                kind = None
                out.append(x)
            else:
                out.append(x)
        return ".".join(out), kind

    def term(self, text):
        # a let that only names a walk, or a step of one
        out, at = [], 0
        let = re.compile(rf"let (?P<v>{ID}) = (?P<e>{ID})(?P<p>(?:\.(?:{ID}|\d+))*) in(?P<sp>\s*)")
        while True:
            m = let.search(text, at)
            if not m:
                out.append(self.plain(text[at:]))
                break
            out.append(self.plain(text[at : m.start()]))
            e, kind = self.path(m.group("e"), [x for x in m.group("p").split(".") if x])
            if kind == "walk":
                self.vars[m.group("v")] = ("walk", e)
            else:
                self.vars[m.group("v")] = (kind, m.group("v"))
                out.append(f"let {m.group('v')} = {e} in{m.group('sp')}")
            at = m.end()
        return "".join(out)

    def plain(self, text):
        def one(m):
            said, kind = self.path(m.group("base"), [x for x in m.group("path").split(".") if x])
            names = self.clauses.get(kind[1], []) if isinstance(kind, tuple) and kind[0] == "ensures" else self.f.pre if kind == "requires" else None
            if names and len(names) > 1:
                # all clauses at once: a lemma takes them as pairs
                out = f"{said}.{names[-1]}"
                for n in reversed(names[:-1]):
                    out = f"({said}.{n}, {out})"
                return out
            return said

        return PATH.sub(one, text)


class Helpers:
    """The file's own functions of a walk: those that only walk back, and the facts, which become lets where they serve."""

    def __init__(self, found):
        self.back, self.facts, self.types, self.at = [], {}, set(), {}
        for m, b in found:
            if m and m.group("t").strip().startswith("Type") and "tie." in m.group("b"):
                self.types.add(m.group("n"))
        self.bad = []
        for m, b in found:
            if not m:
                self.bad.append(b)
                continue
            if m.group("n") in self.types:
                continue
            args = m.group("args").split()
            sig = m.group("t")
            k = re.match(rf"\((?P<v>{ID}) : (?P<t>[^()]*)\)\s*(?:→)?\s*(?P<r>.*)$", sig, re.S) or re.match(r"(?P<t>[^()→]*?)\s*→\s*(?P<r>.*)$", sig, re.S)
            self.at[m.group("n")] = 0
            second = re.match(rf"(?P<a>[^()→]*?)\s*→\s*(?P<t>tie\.[^()→]*?)\s*→\s*(?P<r>.*)$", sig, re.S)
            if second and len(args) > 1:
                self.at[m.group("n")] = 1
                rest = " ".join([args[0]] + args[2:])
                self.facts[m.group("n")] = (args[1], f"{second.group('a')} → {second.group('r')}", args[1], f"λ {rest}. " + m.group("b").strip(), (m.group("unf") or "").split()[1:])
                continue
            if not k or not args or not (k.group("t").startswith("tie.") or k.group("t").strip() in self.types):
                self.bad.append(b)
                continue
            v = k.groupdict().get("v") or args[0]
            if re.fullmatch(rf"\s*{ID}(\.before)*\s*", m.group("b")) or ((re.match(r"tie\.", k.group("r")) or k.group("r").strip() in self.types) and "\n" not in m.group("b").strip()):
                self.back.append((m.group("n"), args[0], m.group("b").strip()))
            else:
                body = m.group("b").strip()
                if len(args) > 1:
                    body = "λ " + " ".join(args[1:]) + ". " + body
                self.facts[m.group("n")] = (v, k.group("r"), args[0], body, (m.group("unf") or "").split()[1:])

    ARG = rf"(?P<arg>\d+|{ID}(?:\.(?:{ID}|\d+))*|\([^()]*\)(?:\.(?:{ID}|\d+))*)"

    def flat(self, text):
        """Without calls that only walk back, and without the walk that a fact is asked at."""
        while True:
            was = text
            for n, v, body in self.back:
                def sub(m):
                    a = m.group("arg")
                    it = re.sub(rf"(?<![\w'.-]){re.escape(v)}(?![\w'-])", lambda _: a, body)
                    return f"({it})" if " " in it else it
                text = re.sub(rf"\({re.escape(n)} {self.ARG}\)", sub, text)
                text = re.sub(rf"(?<![\w'.-]){re.escape(n)} {self.ARG}", sub, text)
            text = re.sub(rf"\((?!cc\b)({ID}(?:\.before)*)\)", r"\1", text)
            if text == was:
                break
        for n in self.facts:
            first = rf"((?: {self.ARG.replace('?P<arg>', '?:')}){{{self.at[n]}}})"
            text = re.sub(rf"\({re.escape(n)}{first} {ID}(?:\.before)*\)", lambda m: f"§{n}§{m.group(1)}" if not self.at[n] else f"(§{n}§{m.group(1)})", text)
            text = re.sub(rf"(?<![\w'.§-]){re.escape(n)}{first} {ID}(?:\.before)*(?![\w'.-])", lambda m: f"§{n}§{m.group(1)}", text)
        return text.replace("§", "")

    def served(self, text):
        """The facts that a text asks, those first that others ask."""
        out = []

        def visit(t):
            for n in self.facts:
                if re.search(rf"(?<![\w'.-]){re.escape(n)}(?![\w'-])", t) and n not in out:
                    visit(self.facts[n][1] + " " + self.facts[n][3])
                    if n not in out:
                        out.append(n)

        visit(text)
        return out


def nested(x, fields, names):
    """The clause that a path into right-nested pairs leads to."""
    k = 0
    while x == "1" and k + 2 < len(names) and fields and fields[0].isdigit():
        k += 1
        x = fields.pop(0)
    return names[k + int(x)] if k + int(x) < len(names) else x


def items(text):
    """The items of a file: (kind, lines)."""
    blocks = re.split(r"\n\s*\n", text.strip("\n"))
    return blocks


Names = []


def turn(path, f, module):
    del Names[:]
    text = open(path, encoding="utf-8").read()
    if "tie.close" not in text:
        return None
    blocks = items(text)
    head, uses, rest = [], [], []
    for b in blocks:
        lines = b.split("\n")
        if any(l.startswith("use ") for l in lines):
            head += [l for l in lines if l.startswith("--")]
            for l in lines:
                if l.startswith("use "):
                    uses.append(l)
                elif not l.startswith("--"):
                    uses[-1] += "\n" + l
        else:
            rest.append(b)
    uses = [u for u in uses if not re.search(r"\.Statement\.\{statement\}|Tie as tie$", u)]
    sig = re.compile(rf"^(?P<c>(?:--[^\n]*\n)*)(?P<ab>abbrev )?(?P<pub>pub )?(?P<n>{ID}) : (?P<t>.*?)\n(?P<unf>unfolding [^\n]*\n)?(?P=n)(?P<args>[^\n=]*?) =(?P<b>.*)$", re.S)
    helpers, invs, needs, odd, aliases = [], [], [], [], []
    for b in rest:
        m = sig.match(b)
        if m and re.match(r"tie\.(invariant|decreases|Inv|μ)-", m.group("t")):
            invs.append(m)
        elif m and m.group("t").startswith("tie.Need-"):
            needs.append(m)
        elif "tie.close" in b:
            continue
        elif "tie." in b or any(re.search(rf"(?<![\w'.-]){re.escape(a)}(?![\w'-])", m.group("t") if m else b) for a in aliases):
            helpers.append((m, b))
            if m and m.group("ab"):
                aliases.append(m.group("n"))
        else:
            odd.append(b)
    invs_text = []
    for m in invs:
        kind, loop = re.match(r"tie\.(invariant|decreases|Inv|μ)-(.*)", m.group("t").split()[0]).groups()
        kind = {"Inv": "invariant", "μ": "decreases"}.get(kind, kind)
        new, names, changed = f.loops[norm(loop)]
        args = m.group("args").split()
        moved = [n for n, c in zip(names, changed) if c]
        sub = {}
        for i, a in enumerate(args):
            if i < len(names):
                sub.setdefault(a, f"l.initial.{names[i]}" if changed[i] else f"l.{names[i]}")
            elif i - len(names) < len(moved):
                sub[a] = f"l.{moved[i - len(names)]}"
        body = PATH.sub(lambda k: sub.get(k.group("base"), k.group("base")) + k.group("path"), m.group("b"))
        invs_text.append(f"{m.group('c')}abbrev pub {kind}-{new} : goal.{kind}-{new}\n{kind}-{new} l ={body}")
    h = Helpers(helpers)
    said = "\n".join(invs_text)
    shared, own = [], []
    for b in odd:
        k = re.search(rf"^(?:abbrev |unfoldable )?(?:pub )?(?:record |data )?({ID})(?=[ :])", re.sub(r"^(--[^\n]*\n)*", "", b))
        if k and re.search(rf"(?<![\w'.-]){re.escape(k.group(1))}(?![\w'-])", said + "\n".join(shared)):
            b = re.sub(rf"(?m)^(abbrev |unfoldable |)(?:pub )?(record |data |)({re.escape(k.group(1))} :|{re.escape(k.group(1))} )", lambda m: f"{m.group(1) or ('' if m.group(2) else 'unfoldable ')}pub {m.group(2)}{m.group(3)}" if m.group(3).endswith(":") or m.group(2) else m.group(0), b, count=1)
            shared.append(b)
            Names.append(k.group(1))
        else:
            own.append(b)
    invs_text = shared + invs_text
    odd = own
    out = odd + ["-- left, by hand:\n-- " + b.replace("\n", "\n-- ") for b in h.bad]
    if h.bad:
        print(f"look: {path}: {len(h.bad)} helpers by hand")
    answers = []
    for m in needs:
        old = re.match(r"tie\.Need-(\S+)", m.group("t")).group(1)
        body = m.group("b").strip()
        if body == "search rules" and not m.group("unf"):
            continue
        if norm(old) not in f.needs:
            print(f"look: {path}: no goal for {old}")
            out.append("-- left, no such goal:\n-- " + m.group(0).replace("\n", "\n-- "))
            continue
        new, place, fields = f.needs[norm(old)]
        args = m.group("args").split()
        root = args[0] if args else "c"
        lets, unf = "", (m.group("unf") or "").split()[1:]
        text = h.flat(m.group("b"))
        for n in h.served(text):
            v, sig, v2, b, u = h.facts[n]
            unf += [x for x in u if x not in unf]
            lets += f"\n    let {n} : {Turn(f, place, [v]).term(h.flat(sig)).strip()} = {Turn(f, place, [v2]).term(h.flat(b)).strip()} in"
        body = Turn(f, place, [root]).term(text)
        if fields:
            k = re.fullmatch(r"(?P<pre>(?:.*\bin)?\s*)\((?P<tup>.*)\)\s*", body, re.S)
            parts = split(k.group("tup")) if k else None
            while parts and len(parts) < len(fields):
                last = parts[-1].strip()
                inner = split(last[1:-1]) if last.startswith("(") and last.endswith(")") else None
                if not inner or len(inner) < 2:
                    break
                parts = parts[:-1] + inner
            if parts and len(parts) == len(fields):
                body = k.group("pre") + "record {\n" + "".join(f"      {n} = {p.strip()};\n" for n, p in zip(fields, parts)) + "    }"
            elif re.match(r"(.*\bin)?\s*(absurd|search) ", body, re.S) and not re.search(r" in\n(?!\s*(absurd|search) )[^\n]*$", body):
                pass
            elif len(fields) > 1 and rewritten(body, fields):
                body = rewritten(body, fields)
            elif len(fields) > 1:
                cut = body.rfind(" in\n") + 4 if " in\n" in body else 0
                ways = [".0"] + [".1" * k + ".0" for k in range(1, len(fields) - 1)] + [".1" * (len(fields) - 1)]
                body = body[:cut] + f"\n    let all = {body[cut:].strip()} in\n    record {{ " + "; ".join(f"{n} = all{w}" for n, w in zip(fields, ways)) + " }"
        if lets:
            body = lets + ("\n    " + body.strip())
        unf = f"unfolding {' '.join(unf)}\n" if unf else ""
        more = "".join(" " + a for a in args[1:] if not a.startswith("κ"))
        answers.append(f"{m.group('c')}pub {new} : goal.{new}\n{unf}{new} c{more} ={body}")
    return head, uses, invs_text, out, answers


def rewritten(body, fields):
    """`rw L (a, (b, c))` with the clauses' names in the tuple's place."""
    cut = body.rfind(" in\n") + 4 if " in\n" in body else 0
    last = body[cut:]
    k = re.match(r"\s*rw ", last)
    if not k:
        return None
    i = k.end()
    if i < len(last) and last[i] == "(":
        depth = 0
        for j in range(i, len(last)):
            depth += (last[j] == "(") - (last[j] == ")")
            if depth == 0:
                break
    else:
        j = last.find(" ", i)
        if j < 0:
            return None
        j -= 1
    rest = last[j + 1 :].strip()
    if not (rest.startswith("(") and rest.endswith(")")):
        return None
    parts = split(rest[1:-1])
    while parts and len(parts) < len(fields):
        l = parts[-1].strip()
        inner = split(l[1:-1]) if l.startswith("(") and l.endswith(")") else None
        if not inner or len(inner) < 2:
            return None
        parts = parts[:-1] + inner
    if not parts or len(parts) != len(fields):
        return None
    return body[:cut] + last[: j + 1] + " (record {\n" + "".join(f"      {n} = {p.strip()};\n" for n, p in zip(fields, parts)) + "    })"


def split(t):
    parts, depth, cur = [], 0, ""
    for ch in t:
        if ch in "([{":
            depth += 1
        elif ch in ")]}":
            depth -= 1
            if depth < 0:
                return None
        if ch == "," and depth == 0:
            parts.append(cur)
            cur = ""
        else:
            cur += ch
    if cur.strip():
        parts.append(cur)
    return parts


def used(uses, text):
    out = []
    if "(ap not " in text:
        said = " ".join(uses)
        uses = uses + [u for w, u in (("ap", "use mathlib.Core.Path.{ap}"), ("not", "use mathlib.Core.Bool.{not}")) if not re.search(rf"[{{ ]{w}[,}}]", said)]
    for u in uses:
        m = re.match(r"use ([^{]*)\{(.*)\}$", u, re.S)
        if not m:
            out.append(u)
            continue
        keep = []
        for n in (x.strip() for x in m.group(2).split(",")):
            w = n.split(" as ")[-1]
            parts = [p for p in w.split("◌") if p]
            if all(re.search(r"(?<![\w'-])" + re.escape(p) + r"(?![\w'-])" if re.match(r"\w", p) else re.escape(p), text) for p in parts):
                keep.append(n)
        if keep:
            out.append(f"use {m.group(1)}{{{', '.join(keep)}}}")
    return out


SOURCE = ""


def main():
    global SOURCE
    crate = sys.argv[1]
    where = os.path.join("crates", crate)
    for p in os.listdir(os.path.join(where, "src")):
        SOURCE += open(os.path.join(where, "src", p), encoding="utf-8").read()
    with tempfile.TemporaryDirectory() as d:
        r = subprocess.run(["rt", "check", "--generated", d, "--old-names"], cwd=where, capture_output=True, text=True)
        try:
            names = json.load(open(os.path.join(d, "names.json")))
        except OSError:
            print(r.stdout[-2000:], r.stderr[-2000:])
            return 1
    prefix = f"Rattle-{crate}-proofs."
    for key, info in sorted(names.items()):
        if not key.startswith(prefix) or not key.endswith(".Lts"):
            continue
        module = key[len(prefix) : -len(".Lts")]
        folder = os.path.join(where, "proofs", *module.split("."))
        path = os.path.join(folder, "Proof.antt")
        if not os.path.exists(path):
            continue
        got = turn(path, Function(info), module)
        if not got:
            print(f"look: {path}: no tie")
            continue
        head, uses, inv, helpers, answers = got
        lead = "\n".join(head) + "\n" if head else ""
        base = f"Rattle.{crate}.proofs.{module}"
        if inv:
            body = "\n\n".join(inv)
            with open(os.path.join(folder, "Invariants.antt"), "w", encoding="utf-8") as o:
                o.write(lead + "\n".join(used(uses, body) + [f"use {base}.Given as goal"]) + "\n\n" + body + "\n")
        if answers or (helpers and answers):
            body = "\n\n".join(helpers + answers)
            with open(os.path.join(folder, "Answers.antt"), "w", encoding="utf-8") as o:
                o.write(lead + "\n".join(used(uses, body) + ([f"use {base}.Invariants.{{{', '.join(Names)}}}"] if inv and any(re.search(rf"(?<![\w'.-]){re.escape(n)}(?![\w'-])", body) for n in Names) else []) + [f"use {base}.Goals as goal"]) + "\n\n" + body + "\n")
        os.remove(path)
        if not os.listdir(folder):
            os.rmdir(folder)
    root = [p for p in (os.path.join(where, "src", n) for n in ("lib.rt", "main.rt")) if os.path.exists(p)][0]
    t = open(root, encoding="utf-8").read()
    if "#![tactic(auto)]" not in t:
        lines = t.split("\n")
        i = next(i for i, l in enumerate(lines) if not l.startswith("//"))
        lines.insert(i, "#![tactic(auto)]")
        open(root, "w", encoding="utf-8").write("\n".join(lines))
    return 0


raise SystemExit(main())
