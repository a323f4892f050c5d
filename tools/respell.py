#!/usr/bin/env python3
"""Brings this repository's own names to the spelling of today's Rattle, after port.py has run.

usage: python3 tools/respell.py        at the top of a checkout in which port.py has run, once

Definitions, lemmas, fields and constructors of specs/ and of the lemma files of proofs/ get snake case, and the
module `laws` becomes `Laws`. Where a definition and a lemma about it would have one name, the lemma ends in
`_lem`. Names in proofs/F/ are named by Rattle after the code of F and stay. It prints what to look at.
"""

import os
import re
import sys
from collections import defaultdict

DECLARED = re.compile(
    r"^\s*(?:(?:unfoldable|abbrev|pub|data|record|ruleset)\s+)*([^\s:(){}\[\],;.\"]+)\s*(?:\([^)]*\)\s*|\{[^}]*\}\s*)*:(?!:)\s"
)
TOKEN = re.compile(r"[^\s(){}\[\];.,\"`|]+")
# Lemmas that port.py had turned already, and that a definition takes the name of.
TAKEN = {"found_rows": "found_rows_lem", "too_long": "too_long_lem"}
# What port.py turned because the library has the same spelling.
TURNED = """add-done add-r after-minus after-none all-append all-end all-keep all-map all-middle all-more all-replicate
all-snoc all-take all-true answerOf any-append at-all at-first at-front at-second bits-at blank-part by-digits by-lines
by-width by-zero bytesAt code-fits code-is columns-of count-kept count-small digit-value digits-of each-fits each-snoc
end-is ended-stuck endedOf ending-of ends-by entry-at failsOf fieldOf fieldsOf first-some found-number found-rows
gate-same head-read head-step high-end highOf is-ok is-read isLast kept-by kept-more kind-fits known-is lead-is
left-after left-alone left-out length-fields length-found length-front line-read line-refused lineAt lineOf lines-from
lines-long lines-snoc listed-more listed-of listed-small literals-end look-spec main-spec map-snoc missed-first
more-left mul-at mul-next names-at new-spec new-walks no-more no-name no-room none-after none-before none-kept
none-left none-named none-passes not-found not-last not-listed not-named not-taken numbered-more numbers-fit one-line
one-more operand-stuck operandAt ordered-at pair-step part-length pass-walks passes-at past-first past-fits past-three
pick-next picked-same planOf put-all put-byte put-next read-all read-as read-next read-spec readTables resultOf
room-after room-at row-fits row-of rows-append rows-are rows-few same-answer same-end same-entries same-length same-of
same-refl same-some same-true seen-next shift-back shortOf signOf standing-on sub-read take-next taken-in testOf textOf
to-end told-text too-long too-short turned-down two-digits two-fields unused-spec upTo walk-ends word-good words-are
words-small wordsOf written-in written-read writtenOf wrote-none""".split()


def snake(name):
    name = re.sub(r"([a-z0-9])([A-Z])", lambda m: m.group(1) + "_" + m.group(2).lower(), name)
    return name.replace("-", "_").replace("\u2032", "'")


def files(root, *endings):
    for folder, dirs, names in os.walk(root):
        dirs[:] = sorted(d for d in dirs if d not in ("out", ".git", "target"))
        for name in sorted(names):
            if name.endswith(endings):
                yield os.path.join(folder, name)


def read(path):
    with open(path, encoding="utf-8") as f:
        return f.read()


def declared():
    names = defaultdict(set)
    for path in files("crates", ".antt"):
        parts = path.split(os.sep)
        if "proofs" in parts and len(parts) > 4:
            continue
        for line in read(path).splitlines():
            m = DECLARED.match(line)
            if m:
                names[m.group(1)].add(path)
    return names


def turned(names):
    new = {n: snake(n) for n in names if re.match("[a-z]", n) and snake(n) != n}
    camel = {new[n] for n in new if "-" not in n} | {n for n in names if "-" not in n and n in map(snake, TURNED) and snake(n) == n and any(t for t in TURNED if snake(t) == n and "-" not in t)}
    for n in new:
        # A lemma about a definition of its name.
        if "-" in n and new[n] in camel and n != "no-plan":
            new[n] += "_lem"
    new.update(TAKEN)
    return new


def main():
    if not os.path.isdir("crates"):
        sys.exit("respell: run it at the top of the repository")
    names = declared()
    new = turned(names)
    values = defaultdict(set)
    for n, s in new.items():
        values[s].add(n)
    for s, olds in sorted(values.items()):
        if len(olds) > 1 or s in names:
            print("look: together:", s, sorted(olds), sorted(names.get(s, ())))
    for path in files("crates", ".antt", ".rt"):
        text = read(path)
        before = set(TOKEN.findall(text))
        for s in sorted(before & set(values)):
            if before & values[s] and s not in names:
                print(f"look: {path}: {s} stood there already")
        after = TOKEN.sub(lambda m: new.get(m.group(), m.group()), text)
        after = after.replace(".specs.laws", ".specs.Laws").replace("pub mod laws", "pub mod Laws")
        if after != text:
            with open(path, "w", encoding="utf-8") as f:
                f.write(after)
    for folder in sorted(os.listdir("crates")):
        for end in ("", ".antt"):
            old = os.path.join("crates", folder, "specs", "laws" + end)
            if os.path.exists(old):
                os.rename(old, os.path.join("crates", folder, "specs", "Laws" + end))


main()
