#!/usr/bin/env python3
"""Brings this repository's own names in specs/, proofs/ and contracts to today's spelling, once, after port.py.

usage: python3 tools/respell.py        at the top of the repository, on a tree that port.py has turned

A name that a file of specs/ or proofs/ declares (a definition, lemma, record field or constructor) and that has a dash becomes
  - a type or fact, which begins with a capital: camel case, as Made-for -> MadeFor, but for a lemma on a type, as Over-prop, whose dash joins the two;
  - anything else: snake case, as count-below -> count_below.
Names of goals and of steps that Rattle makes, names of the library, code, strings and comments stay. What falls together is printed, and
then nothing is written.
"""

import os
import re
import subprocess
import sys

TOKEN = re.compile(r"[^\s(){}\[\].,;@«»\"|]+")
SIGNATURE = re.compile(r"^\s*((?:abbrev |unfoldable |pub )*)([^\s(){}\[\].,;:=λ]+(?: [^\s(){}\[\].,;:=λ]+)*) :(?:\s|$)")
HEAD = re.compile(r"^\s*(?:pub )?(?:abbrev )?(?:pub )?(data|record) ([^\s(){}:]+)")
ALIAS = re.compile(r"([^\s(){}\[\].,;]+) as ([^\s(){}\[\].,;]+)")
# respelled by port.py by a rule for lemmas that doesn't fit here: what they were called, in snake case
MENDED = re.compile(r"^(\w+_of)_lem$")


def files():
    for folder, dirs, names in os.walk("crates"):
        dirs[:] = sorted(d for d in dirs if d != "out")
        for f in sorted(names):
            if f.endswith((".antt", ".rt", ".edit")):
                yield os.path.join(folder, f)


def generated(path):
    return os.path.basename(path) in ("Answers.antt", "Invariants.antt")


def declared(path, text):
    """The names that a file of specs/ or proofs/ declares, without answers to goals."""
    for line in text.splitlines():
        if line.lstrip().startswith("--"):
            continue
        m = HEAD.match(line)
        if m:
            yield m.group(2)
            continue
        m = SIGNATURE.match(line)
        if m and not re.search(r" : goal\.\S+\s*$", line) and not re.match(r"\s*let ", line):
            yield from m.group(2).split(" ")


def new_name(name):
    parts = name.split("-")
    if name[0].isupper():
        return parts[0] + "".join(p[:1].upper() + p[1:] for p in parts[1:])
    return "_".join(parts)


def own(texts):
    names = set()
    for path, text in texts.items():
        if path.endswith(".antt"):
            names |= set(declared(path, text))
        for line in text.splitlines():
            if re.match(r"\s*(ghost )?use ", line):
                for a in ALIAS.finditer(line):
                    names.add(a.group(2))
    turned = {}
    for n in names:
        if re.match(r"[^a-z].*-(prop|empty)$", n):
            continue
        if "-" in n.strip("-") and re.search(r"\w-\w", n):
            turned[n] = new_name(n)
        elif MENDED.match(n):
            turned[n] = MENDED.match(n).group(1)
    return names, turned


def respell_line(line, turned, steps):
    """Turns the names of one line of antt; `steps` says that a name after c., w., l., g. or goal. is Rattle's."""
    out, last = [], 0
    for m in TOKEN.finditer(line):
        t = m.group(0)
        if t not in turned:
            continue
        before = line[: m.start()]
        if steps and re.search(r"(?:^|[\s({\[,;])(?:c|w|l|g|goal|c\.args|c\.[\w-]+\.new|l\.initial|l\.fn)\.$", before):
            continue
        out.append(line[last : m.start()] + turned[t])
        last = m.end()
    return "".join(out) + line[last:]


def comment_at(line, mark):
    """Where the comment of a line begins."""
    quoted = False
    for i, c in enumerate(line):
        if c == '"' and (i == 0 or line[i - 1] != "\\"):
            quoted = not quoted
        if not quoted and line.startswith(mark, i) and (mark == "//" or i == 0 or line[i - 1].isspace()):
            return i
    return len(line)


def in_quotes(text, turned):
    """The names that a comment or a page has between back quotes."""
    return re.sub(r"`[^`]*`", lambda m: respell_line(m.group(0).replace("`", " "), turned, False).replace(" ", "`", 1)[:-1] + "`", text)


PARTS = re.compile(r"""(?P<note>//[^\n]*)|(?P<text>"(?:\\.|[^"\\])*"|'(?:\\.|[^'\\])')|(?P<rest>[^"'/]+|.)""", re.S)


def respell(path, text, turned):
    if path.endswith(".rt"):
        return "".join(
            m.group(0) if m.group("text") else in_quotes(m.group(0), turned) if m.group("note") else respell_line(m.group(0), turned, False)
            for m in PARTS.finditer(text)
        )
    goals = set(re.findall(r" : goal\.(\S+)", text)) if generated(path) else set()
    kept = {k: v for k, v in turned.items() if k not in goals}
    if path.endswith(".edit"):
        return "\n".join(respell_line(line, kept, False) for line in text.split("\n"))
    lines = []
    for line in text.split("\n"):
        at = comment_at(line, "--")
        lines.append(respell_line(line[:at], kept, generated(path)) + in_quotes(line[at:], kept))
    return "\n".join(lines)


def main():
    texts = {p: open(p, encoding="utf-8").read() for p in files()}
    names, turned = own(texts)
    bad = []
    to = {}
    for old, new in sorted(turned.items()):
        if new in to:
            bad.append(f"{old} and {to[new]} would both be {new}")
        to[new] = old
    words = {}
    for p, t in texts.items():
        if not p.endswith(".antt"):
            continue
        for m in TOKEN.finditer(t):
            words.setdefault(m.group(0), set()).add(p)
    for new, old in sorted(to.items()):
        both = words.get(new, set()) & words.get(old, set())
        if both:
            bad.append(f"{old} would be {new}, which stands in {', '.join(sorted(both))}")
    if "--dry" in sys.argv or bad:
        print("\n".join(bad))
        print(len(turned), "names,", len(bad), "that fall together")
        return 1
    for p, t in texts.items():
        n = respell(p, t, turned)
        if n != t:
            with open(p, "w", encoding="utf-8") as f:
                f.write(n)
    for c in sorted(os.listdir("crates")):
        subprocess.run(["rt", "fmt"], cwd=os.path.join("crates", c), stdout=subprocess.DEVNULL, stderr=subprocess.DEVNULL)
    print(len(turned), "names respelled")
    return 0


if __name__ == "__main__":
    raise SystemExit(main())
