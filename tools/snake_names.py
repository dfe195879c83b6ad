#!/usr/bin/env python3
"""Brings the repository's own definitions and lemmas to snake case, and its facts to camel case.

usage: python3 tools/snake_names.py [--list]     at the top of the repository, once, after the kit's port.py

Own names are those with a dash that stand in specs/ and in the lemma files of proofs/, and the helpers of functions' proofs, but for what is imported from
other libraries and for names that Rattle makes (goals and steps, in the folders of functions). A dash stays where it joins a name and a sign. Strings stay,
and documents and must-fail edits follow where they say such a name. It proves nothing: the check decides.
"""
import collections
import glob
import os
import re
import sys

WORD = re.compile(r"[^\s(){}\[\];,.λ@`]+")
OURS = {os.path.basename(p) for p in glob.glob("crates/*")}
# a lemma about a bit of an exclusive or, beside the library's `bit_xor`
KEPT = {"bit-xor"}


def code_of(line):
    """A line of antt without its remark."""
    return re.split(r"(?:^|(?<=\s))-- ", line, maxsplit=1)[0]


def is_goal_folder(path):
    rel = path.split("/proofs/", 1)
    return len(rel) == 2 and "/" in rel[1]


def texts():
    for p in sorted(glob.glob("crates/*/specs/**/*.antt", recursive=True) + glob.glob("crates/*/proofs/**/*.antt", recursive=True)):
        if "/out/" not in p:
            yield p


def imports(text):
    """Names imported from elsewhere."""
    out = set()
    for m in re.finditer(r"use ([\w.·-]+)\.\{([^}]*)\}", text):
        head = m.group(1).split(".")
        ours = head[0] == "Rattle" and len(head) > 1 and head[1] in OURS and "Goals" not in head and "Given" not in head
        if not ours:
            for w in m.group(2).split(","):
                out.add(w.strip().split(" as ")[0].strip())
                if " as " in w:
                    out.discard(w.strip())
    return out


def gather():
    own, definitions = set(), set()
    for p in glob.glob("crates/*/src/**/*.rt", recursive=True):
        for m in re.finditer(r"ghost use [^;]* as ([\w'-]+)", open(p).read()):
            if "-" in m.group(1):
                own.add(m.group(1))
    for p in texts():
        text = open(p).read()
        if is_goal_folder(p):
            for m in re.finditer(r"^([\w']+(?:-[\w']+)+) : (?!goal\.)", text, re.M):
                own.add(m.group(1))
            continue
        away = imports(text)
        lines = [code_of(l) for l in text.split("\n")]
        body = "\n".join(lines)
        for m in re.finditer(r"^\s*(?:pub )?(?:abbrev|unfoldable)(?: pub)? ([^\s:]+)", body, re.M):
            definitions.add(m.group(1))
        for m in re.finditer(r"^\s*(?:pub )?(?:data|record)(?: pub)? ([^\s:]+)", body, re.M):
            definitions.add(m.group(1))
        inside = False
        for l in lines:
            if re.match(r"\s*(pub )?(data|record) ", l):
                inside = True
                depth = len(l) - len(l.lstrip())
                continue
            if inside and l.strip():
                if len(l) - len(l.lstrip()) <= depth:
                    inside = False
                else:
                    m = re.match(r"\s*(?:pub )?([^\s:]+) :", l)
                    if m:
                        definitions.add(m.group(1))
        for m in WORD.finditer(body):
            w = m.group(0)
            if body[: m.start()].endswith("."):
                continue
            if "-" in w.strip("-") and "◌" not in w and w not in away and not re.match(r"^[-\d]", w):
                own.add(w)
    return own, definitions


def turned(name, definitions):
    if name in KEPT:
        return name
    if name[0].isupper():
        return "".join(w[:1].upper() + w[1:] for w in name.split("-"))
    parts = [w.lower() if len(w) == 1 and w.isupper() else re.sub(r"(?<=[a-z])([A-Z])(?=[a-z])", lambda m: "_" + m.group(1).lower(), w) for w in name.split("-")]
    if name in definitions:
        return "_".join(parts)
    out = parts[0]
    for k in range(1, len(parts)):
        sign = not re.match(r"[A-Za-z0-9_']", parts[k]) or not re.match(r"[A-Za-z0-9_']", parts[k - 1])
        out += ("-" if sign else "_") + parts[k]
    return out


def quoted(text, to):
    """Prose, with the names turned that stand between backticks."""
    return re.sub(r"`[^`\n]+`", lambda q: WORD.sub(lambda m: to.get(m.group(0), m.group(0)), q.group(0)), text)


def main():
    own, definitions = gather()
    to = {n: turned(n, definitions) for n in own}
    to = {a: b for a, b in to.items() if a != b}
    if "--list" in sys.argv:
        for a in sorted(to):
            print(a, "->", to[a], "" if a in definitions else "(lemma)")
    back = collections.defaultdict(set)
    for a, b in to.items():
        back[b].add(a)
    for b, many in back.items():
        if len(many) > 1:
            print("falls together:", sorted(many), "->", b)
    present = collections.defaultdict(set)
    for p in texts():
        body = "\n".join(code_of(l) for l in open(p).read().split("\n"))
        words = set(WORD.findall(body))
        for a, b in to.items():
            if a in words and b in words:
                print("falls together in", p, ":", a, "->", b)
    if "--list" in sys.argv:
        return
    made = re.compile(r"(?:^|[^\w.])(?:c|g|l|goal|w|o|s)$")
    for p in texts():
        folder = is_goal_folder(p)
        text = open(p).read()
        away = imports(text)
        lines = text.split("\n")
        for i, line in enumerate(lines):
            code = code_of(line)
            rest = line[len(code):]

            def swap(m):
                w = m.group(0)
                if w not in to or w in away:
                    return w
                before = code[: m.start()]
                if folder and before.endswith(".") and made.search(before[:-1]):
                    return w
                if re.search(r"(?:Memᴰ|Permᴰ)\.$", before):
                    return w
                return to[w]

            lines[i] = WORD.sub(swap, code) + quoted(rest, to)
        open(p, "w").write("\n".join(lines))
    for p in ["README.md", *sorted(glob.glob("docs/*.md"))]:
        text = open(p).read()
        open(p, "w").write(quoted(text, to))
    for p in sorted(glob.glob("crates/*/must-fail/*.edit")):
        lines = open(p).read().split("\n")
        lines = [WORD.sub(lambda m: to.get(m.group(0), m.group(0)), l) if re.match("(old|new):", l) else l for l in lines]
        open(p, "w").write("\n".join(lines))
    for p in sorted(glob.glob("crates/*/src/**/*.rt", recursive=True)):
        lines = open(p).read().split("\n")
        for i, line in enumerate(lines):
            if line.lstrip().startswith("//"):
                lines[i] = quoted(line, to)
            else:
                lines[i] = "".join(w if w.startswith('"') else WORD.sub(lambda m: to.get(m.group(0), m.group(0)), w) for w in re.split(r'("[^"]*")', line))
        open(p, "w").write("\n".join(lines))


main()
