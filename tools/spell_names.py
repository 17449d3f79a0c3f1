#!/usr/bin/env python3
"""Brings the repository's own names in specs/ and proofs/ to one spelling: words in snake case, types and facts in camel case.

usage: python3 tools/spell_names.py [--dry]      at the top of the repository

Only names that a file of specs/ or proofs/ of this repository defines, binds as a record field or declares are turned, and only
those with a dash. Names of the library and names that Rattle makes for a function's goals keep their spelling. Functions of src/,
strings, inputs and outputs are not touched. What falls together with another name is printed.
"""
import os
import re
import sys

WORD = r"[A-Za-z_][\w'-]*"
TOKEN = re.compile(r"(?<![\w'◌-])" + WORD + r"(?![\w'◌])")
LETTER = re.compile(r"-")
DEFINED = re.compile(r"^\s*(?:(?:abbrev|unfoldable|pub|data|record|ruleset)\s+)*(" + WORD + r")\s+(?:\(.*\)\s*)?:(?!=)", re.M)
RECORD = re.compile(r"\b(?:record|data|ruleset)\s+(?:pub\s+)?(" + WORD + r")")
PARAM = re.compile(r"[({]((?:" + WORD + r"\s+)+):")
LET = re.compile(r"\blet\s+(" + WORD + r")\s*[:=]")
AS = re.compile(r"\bas\s+(" + WORD + r")")
GOAL = re.compile(r"^(?:abbrev )?pub (" + WORD + r") : goal\.", re.M)


def files(suffixes):
    for top in ("crates",):
        for folder, dirs, names in os.walk(top):
            dirs[:] = sorted(d for d in dirs if d != "out")
            for n in sorted(names):
                if n.endswith(suffixes):
                    yield os.path.join(folder, n)


def is_answer(path):
    parts = path.split(os.sep)
    return "proofs" in parts and len(parts) - parts.index("proofs") > 2


def turned(name):
    if name[0].isupper():
        return "".join(w[:1].upper() + w[1:] for w in name.split("-"))
    return name.replace("-", "_")


def main():
    dry = "--dry" in sys.argv
    text = {}
    for p in files((".antt", ".rt")):
        with open(p, encoding="utf-8") as f:
            text[p] = f.read()
    own, made, plain = set(), set(), set()
    for p, t in text.items():
        code = re.sub(r"--(?=\s).*|//.*", "", t)
        if p.endswith(".antt"):
            found = set()
            for rx in (DEFINED, RECORD, LET, AS):
                found |= set(rx.findall(code))
            for g in PARAM.findall(code):
                found |= set(g.split())
            own |= found - set(GOAL.findall(code))
        else:
            own |= set(AS.findall(code))
        made |= set(GOAL.findall(code))
        plain |= set(TOKEN.findall(code))
    names = {n for n in own if LETTER.search(n)}
    table = {n: turned(n) for n in sorted(names)}
    for n, m in table.items():
        if n in made:
            print("a goal has this name too:", n)
        if m in plain and m not in names:
            print("falls together:", n, "->", m, [p for p, t in text.items() if re.search(r"(?<![\w'-])" + re.escape(m) + r"(?![\w'-])", t)][:4])
    back = {}
    for n, m in table.items():
        back.setdefault(m, []).append(n)
    for m, ns in back.items():
        if len(ns) > 1:
            print("two names fall together:", ns)
    if dry:
        print(len(table), "names")
        return
    fields = set()
    for p, t in text.items():
        if p.endswith(".antt"):
            for m in re.finditer(r"^pub record .* where\n((?:  .*\n)+)", t, re.M):
                fields |= {f for f in DEFINED.findall(m.group(1)) if f in table}
    for p, t in text.items():
        lines = []
        for line in t.split("\n"):
            if p.endswith(".rt") and not re.search(r"ghost|ensures|requires|[λ≡→⌜]", line):
                lines.append(line)
                continue

            def one(m):
                n = m.group(0)
                if n not in table:
                    return n
                before = line[m.start() - 1 : m.start()]
                if before == "." and n not in fields and not re.search(r"Rattle[\w.]*\.$", line[: m.start()]):
                    return n
                return table[n]

            lines.append(TOKEN.sub(one, line))
        new = "\n".join(lines)
        if new != t:
            with open(p, "w", encoding="utf-8") as f:
                f.write(new)
    print(len(table), "names turned")
    for top in ("docs", "."):
        for n in sorted(os.listdir(top)):
            if n.endswith(".md"):
                p = os.path.join(top, n)
                t = open(p, encoding="utf-8").read()
                new = re.sub(r"`[^`\n]+`", lambda m: TOKEN.sub(lambda k: table.get(k.group(0), k.group(0)), m.group(0)), t)
                if new != t:
                    open(p, "w", encoding="utf-8").write(new)


main()
