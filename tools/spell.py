#!/usr/bin/env python3
"""Brings the repository's own definitions and lemmas to the spelling of today's Rattle, once, after port.py: words in snake case, types in camel
case, `get_or` where a name says `getD`. A dash stays only between two names of functions, as in `length-tab`. Names of the kit, names that Rattle
makes (goals) and names of src/ stay. Prints each name that moved, and each that would fall together with another.

usage: tools/spell.py [--check]      at the top of the repository"""

import collections
import glob
import os
import re
import subprocess
import sys

# the kit's sources, beside the page that `rt doc` names
KIT = os.path.join(os.path.dirname(subprocess.run(["rt", "doc"], capture_output=True, text=True, check=True).stdout.strip()), "rattle")
WORD = re.compile(r"[^\s(){}.;,@\"«»`|]+")
COMMENT = re.compile(r"(?<![^\s(){}.;,@\"«»])--[^\n]*")
SIGNATURE = re.compile(
    r"^\s*((?:(?:unfoldable|abbrev|pub|data|record|ruleset) )*)([^\s(){}.;,@\"«»:]+)(?: \{[^}]*\})?((?: [^:\n=]*)?) : (.*)$"
)
TYPE = re.compile(r"^\s*(?:(?:abbrev|pub) )*(?:data|record) ([^\s(){}.;,@\"«»:]+)")
RULESET = re.compile(r"^\s*(?:pub )?ruleset (?:pub )?([^\s(){}.;,@\"«»:]+)")
# words of the kit that are functions, by which a lemma is named
FUNCTIONS = set(
    "length get_or take drop set replicate append map reverse cons nil mul add sub div mod pow max min sets ltb leb eqb count all".split()
)


# a field, and a name that stands in one proof alone
FIELDS = {"on_line"}


def read(path):
    with open(path, encoding="utf-8") as f:
        return f.read()


def antt_files():
    return sorted(
        f
        for kind in ("specs", "proofs")
        for f in glob.glob("crates/*/%s/**/*.antt" % kind, recursive=True)
    )


def kit_words():
    words = set()
    for root in ("logic", "std", "antt", "core"):
        for folder, _, files in os.walk(os.path.join(KIT, root)):
            for name in files:
                if name.endswith(".antt"):
                    words.update(
                        WORD.findall(COMMENT.sub("", read(os.path.join(folder, name))))
                    )
    return words


def declared():
    """Each name that a file declares, with the files, and the functions among them."""
    names, functions = collections.defaultdict(set), set()
    for path in antt_files():
        made = "/proofs/" in path and path.endswith(
            ("Proof.antt", "Invariants.antt", "Answers.antt")
        )
        for line in COMMENT.sub("", read(path)).split("\n"):
            m = SIGNATURE.match(line)
            if m and m[2] not in ("let", "module", "open", "use", "|", "in"):
                if not (made and re.match(r"(tie|goal|statement)\b", m[4])):
                    names[m[2]].add(path)
                    if "/specs/" in path and re.search(r"abbrev|unfoldable", m[1]):
                        functions.add(m[2])
            for pattern in (TYPE, RULESET):
                m = pattern.match(line)
                if m:
                    names[m[1]].add(path)
    return names, functions


def snake(word):
    return re.sub(r"(?<=[a-z0-9])([A-Z])", lambda m: "_" + m[1].lower(), word)


def respelled(name, functions):
    if name[0].isupper():
        return name
    parts = [p.replace("getD", "get_or") for p in name.split("-")]
    parts = [p if p[:1].isupper() else snake(p) for p in parts]
    if len(parts) > 1 and all(p in functions for p in parts):
        return "-".join(parts)
    return "_".join(parts)


def turned(text, table):
    return WORD.sub(lambda m: table.get(m[0], m[0]), text)


def turn_antt(text, table):
    out, at = [], 0
    for m in COMMENT.finditer(text):
        out += [turned(text[at : m.start()], table), spans(m[0], table)]
        at = m.end()
    return "".join(out) + turned(text[at:], table)


def spans(text, table):
    return re.sub(r"`[^`\n]*`", lambda m: turned(m[0], table), text)


def main():
    names, functions = declared()
    specified = set(functions)
    kit = kit_words()
    functions = {snake(f) for f in functions} | FUNCTIONS
    table = {}
    for name in sorted(names):
        new = respelled(name, functions)
        if new != name and name not in kit:
            table[name] = new
    # a lemma that would have its function's name ends in `_lem`
    for name in list(names):
        new = table.get(name, name)
        functional = [f for f in names if f != name and table.get(f, f) == new and f in specified]
        if functional and name not in specified and name not in FIELDS:
            table[name] = new + "_lem"
    taken = collections.defaultdict(set)
    for name in names:
        taken[table.get(name, name)].add(name)
    for new, olds in sorted(taken.items()):
        if len(olds) > 1:
            print("fall together:", new, sorted(olds))
    for old, new in table.items():
        if new in kit:
            print("now a word of the kit too:", old, new)
    for old, new in sorted(table.items()):
        print(old, new, sep="\t")
    if "--check" in sys.argv:
        return
    edits = glob.glob("crates/*/must-fail/*.edit")
    sources = glob.glob("crates/*/src/**/*.rt", recursive=True)
    pages = [f for f in glob.glob("**/*.md", recursive=True)]
    for path in antt_files() + edits + sources + pages:
        old = read(path)
        if path.endswith(".antt"):
            new = turn_antt(old, table)
        elif path.endswith(".md"):
            new = spans(old, table)
        else:
            new = turned(old, table)
        if new != old:
            with open(path, "w", encoding="utf-8") as f:
                f.write(new)


main()
