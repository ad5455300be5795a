#!/usr/bin/env python3
"""Brings the names of this repository's own definitions and lemmas to one spelling.

Run once at the root, after the toolchain's port.py: types, records and facts in upper camel case
(`Good-list` becomes `GoodList`), all other names in snake case (`plan-of` becomes `plan_of`).
Names that the toolchain makes (goals, steps, its own library's) keep their dashes, and so does
everything that is no name of antt: functions, strings, inputs and outputs.
Prints each change, and stops before any change where two names would fall together.
"""
import glob
import os
import re
import sys

# A character that can stand inside a name of antt.
STOPS = r"\s(){};.,λ∷\[\]|`"
NAME = rf"[^{STOPS}]+"
TOKEN = re.compile(NAME)
# What stands before the colon of a definition, a lemma, a record, a type, a field or a constructor.
HEAD = re.compile(
    r"\s*(?:(?:abbrev pub|unfoldable pub|abbrev|unfoldable|pub data|pub record|data|record|pub) )?"
    rf"({NAME})((?: (?!=){NAME})*|(?: [({{][^=λ]*)?)$"
)
# Definitions that would have the name of a function of src/.
TAKEN = {
    "automata-fault": "automata_fault_lem",
    "element-meaning": "element_meaning_lem",
    "line-meaning": "line_meaning_lem",
}
# Spellings that port.py had changed already, as pages still have them: filled below from LISTED.
LISTED = """
after-none and-then any-order any-out apart-other as-read at-at at-home at-place below-64 below-at below-in
below-suc bit-past both-ok counts-of cut-at each-free either-way err-of every-in every-more fill-more first-of
first-some full-by full-is gives-back going-on head-read if-ok in-left is-below is-digit joined-at joined-by
joined-free kept-next kept-same keys-in keys-length last-of last-or least-at left-alone lies-same line-at list-of
lowest-step more-rows name-free name-of named-by next-of no-line no-sides no-top none-free none-in none-left
none-out not-full not-in not-some not-there not-top number-in number-of one-bit one-less one-more one-parent
or-else or-some other-length others-apart parent-short past-end placed-at put-as put-first put-next read-through
rows-behind rows-fit rows-in rows-more same-by same-line same-ok same-set same-some same-word set-at single-of
some-in some-of some-out tells-at term-of text-of then-ok times-more too-long too-many walks-same written-as
""".split()


def spelled(name):
    """The name in today's spelling."""
    if name in TAKEN:
        return TAKEN[name]
    words = re.split(r"[-_]", name)
    if name[0].isupper():
        return "".join(word[:1].upper() + word[1:] for word in words)
    return "_".join(words)


def antt_files():
    return sorted(glob.glob("crates/*/specs/**/*.antt", recursive=True) + glob.glob("crates/*/proofs/**/*.antt", recursive=True))


def own_names():
    """Each own name that is spelled otherwise today, with the files that define it."""
    found = {}
    for path in antt_files():
        with open(path, encoding="utf-8") as file:
            for line in file:
                if line.lstrip().startswith("--") or " : " not in line or " : goal." in line:
                    continue
                head = HEAD.match(line.split(" : ", 1)[0])
                if head is None:
                    continue
                name = head.group(1)
                if spelled(name) != name and re.match(r"[A-Za-z][A-Za-z0-9]*([-_][A-Za-z0-9]+)+$", name):
                    found.setdefault(name, set()).add(path)
    return found


def clauses_only(text, change):
    """Applies `change` to the ghost parts of a source file and to its comments, and leaves code and strings."""
    out = []
    for line in text.split("\n"):
        ghost = re.match(r"\s*(ghost |requires|ensures|law |//)", line) or "λ" in line or "≡" in line
        out.append(change(line) if ghost else line)
    return "\n".join(out)


def main():
    names = own_names()
    table = {name: spelled(name) for name in names}
    used = {}
    for path in antt_files() + sorted(glob.glob("crates/*/src/**/*.rt", recursive=True)):
        with open(path, encoding="utf-8") as file:
            for token in TOKEN.findall(file.read()):
                used.setdefault(token, set()).add(path)
    clashes = []
    for old, new in sorted(table.items()):
        others = [name for name in table if name != old and table[name] == new]
        there = {p for p in used.get(new, set()) if p.endswith(".antt") and p.split("/")[1] in {d.split("/")[1] for d in names[old]}}
        if others or there:
            clashes.append(f"{old} -> {new}: {others} {sorted(there)[:4]}")
    for clash in clashes:
        print("falls together:", clash)
    if clashes and "--anyway" not in sys.argv:
        return 1

    def change(text):
        return TOKEN.sub(lambda m: table.get(m.group(0), m.group(0)), text)

    pages = dict(table, **{name: spelled(name) for name in LISTED})

    def change_page(text):
        return re.sub(r"`([^`\n]+)`", lambda m: TOKEN.sub(lambda t: pages.get(t.group(0), t.group(0)), m.group(0)), text)

    for old, new in sorted(table.items()):
        print(f"{old} -> {new}")
    todo = [(path, change) for path in antt_files()]
    todo += [(path, lambda text: clauses_only(text, change)) for path in sorted(glob.glob("crates/*/src/**/*.rt", recursive=True))]
    todo += [(path, change_page) for path in ["README.md"] + sorted(glob.glob("docs/*.md")) if os.path.exists(path) and "PORT" not in path]
    for path, how in todo:
        with open(path, encoding="utf-8") as file:
            before = file.read()
        after = how(before)
        if after != before:
            with open(path, "w", encoding="utf-8") as file:
                file.write(after)
    return 0


sys.exit(main())
