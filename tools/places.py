#!/usr/bin/env python3
"""Counts the places in crates/*/src where an older form may stand, point by point, at a commit.

usage: python3 tools/places.py [-l] [COMMIT]        COMMIT is HEAD where none is given; -l prints each place too

It goes by text: a place is a line, and a line that is found is one to read, not a verdict. docs/DESIGN-PASS.md says what became of them.
"""

import re
import subprocess
import sys

# (point, what is looked for, pattern)
PATTERNS = [
    ("1", "a refusal or kind as a number", r"\bErr\(\d+\)|Result<\w+, u8>|^\s*return [1-9]\d*;|expected = |-> u8 \{$.*refus"),
    ("1", "a number that stands for none", r"//.*\b0 (is none|where (it|none|there|that|granted)\b)|\bmut (x|mark) = |mark: usize|none did"),
    ("1", "an error or none turned into a number by hand", r"(Err\(_\)|None) => 0,|Ok\(_\) => 0,"),
    ("1", "an Option turned into a Result by hand, or the other way", r"Some\(\w+\) => Ok\(|None => (return )?Err\(|Err\(_\) => None,"),
    ("1", "an error passed up by hand", r"Err\(why\) => (\{|return Err|Err\(why)|if let Err\(\w+\) = |return Err\((why|fault)\)"),
    ("1", "an error that says nothing", r"anyhow!\("),
    ("1", "a number taken apart into kinds", r"(target|[a-z]\w*\.target\(\)|\bt) (>=|<) 4|\(?(t|target) - 4\)? as"),
    ("1", "an enum of two variants with a value each", r"^\s+(Settled|Split)\("),
    ("2", "the test of a radix", r"radix (<|>|!=) \d"),
    ("2", "a type made for a radix", r"pub fn new\(radix: u8\)"),
    ("2", "the test of a value or label", r"(value|left|right|label|\ba|\bb) >= (self\.(radix|labels)|[12]\b)"),
    ("2", "a table of values made by a double or single loop", r"\b(m|f|h)\.set\("),
    ("2", "a cell, a row or a grid of answers", r"fn (answer|carry)(_at|_row)\(|fn (answers|carries)\("),
    ("2", "a word turned into a kind", r"fn (labelling_kind|operation_kind|number_of)\(|fn named\("),
    ("2", "a row of edges filled in a loop", r"let mut out = \["),
    ("2", "a list of cases played", r"for \(script, expected\) in"),
    ("2", "an array of random values", r"values\[x\] = "),
    ("2", "an arm for each labelling, operation or kind", r"^\s*(AnyLabelling|AnyOperation|Chosen|Kind|Built)::\w+(\(\w\))? =>"),
    ("3", "a loop over a range", r"^\s*for \w+ in .*\.\."),
    ("3", "a loop without a range", r"^\s*(while|loop)\b"),
    ("3", "a count kept by hand", r"(\+|-)= 1;|i = i\.wrapping_add\(1\)"),
    ("3", "a search or test in a loop", r"^\s*for \w+ in .*\.iter\(\) \{$|^\s*for byte in"),
    ("4", "equality by hand", r"\.word (==|!=) |\*\w == \*\w"),
    ("4", "conversion or printing by hand", r"fn (same|named|word|told|number_of)\b"),
    ("4", "an impl of a std trait", r"^impl.*\b(From<|TryFrom<|FromStr|Display|PartialEq|Eq|Clone|Debug)\b.* for "),
    ("5", "chart, card and store that belong together", r"Whole chart"),
    ("5", "the chains of a store", r"Chained \(items"),
    ("5", "a radix in range, in a type", r"ghost (low: \{ 2 ≤ radix|high: \{ radix ≤ 4)"),
    ("5", "store, chart and card as parameters", r"store: &(mut )?Store\b"),
    ("5", "heap, labels, random and tally as parameters", r"^\s+(random: &mut Random|tally: &mut Tally|heap: Global),$"),
    ("6", "an array of fixed length in a type, or as a value", r"\[[^\[\];]+; ?\w+\]"),
    ("6", "a list searched by hand", r"for (node|kept|g) in "),
    ("7", "a switch on which step to run", r"match (walk|question|self\.kind|labels\.kind|plan\.kind)\b|enum (Walk|Question|Built|Kind)\b|Built::\w+ =>"),
]


def git(*args):
    return subprocess.run(["git", *args], capture_output=True, text=True, check=True).stdout


def main():
    args = [a for a in sys.argv[1:] if a != "-l"]
    commit = args[0] if args else "HEAD"
    names = [n for n in git("ls-tree", "-r", "--name-only", commit, "crates").splitlines() if re.match(r"crates/\w+/src/.*\.rt$", n)]
    lines = [(n, i, s) for n in names for i, s in enumerate(git("show", f"{commit}:{n}").splitlines(), 1)]
    totals = {}
    for point, what, pattern in PATTERNS:
        found = [x for x in lines if re.search(pattern, x[2])]
        totals.setdefault(point, set()).update((n, i) for n, i, _ in found)
        print(f"{point}  {len(found):4}  {what}")
        if "-l" in sys.argv:
            for n, i, s in found:
                print(f"         {n}:{i}: {s.strip()}")
    for point in sorted(totals):
        print(f"point {point}: {len(totals[point])} lines")
    proofs = [n for n in git("ls-tree", "-r", "--name-only", commit, "crates").splitlines() if re.match(r"crates/\w+/proofs/.*\.antt$", n)]
    by = {}
    for n in proofs:
        crate = n.split("/")[1]
        text = git("show", f"{commit}:{n}")
        k = by.setdefault(crate, [0, 0, 0])
        k[0] += 1
        k[1] += text.count("\n")
        k[2] += len(re.findall(r"^pub returns|^pub [\w-]+ : goal", text, re.M))
    for crate, (files, total, answers) in sorted(by.items()):
        print(f"8  {crate}: {files} files of proofs, {total} lines, {answers} answers")
    print(f"src: {len(names)} files, {len(lines)} lines")


main()
