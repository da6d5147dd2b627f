#!/usr/bin/env python3
"""Brings this repository's own definitions and lemmas to one spelling: words in snake case. Run once, right after port.py, at the top.

A lemma that would get the name of a definition gets '_lem' behind it. The crate md5 becomes md5_block, since the kit has a library of the name md5. Functions of src/, exported
names, strings, inputs and outputs keep their names. It prints the names that it could not keep apart, and ends with 1 if there are any.
"""

import collections
import glob
import os
import re
import subprocess
import sys

KIT = "/opt/rattle/rattle"
TOKEN = re.compile(r"[A-Za-z_][\w'\u2032\-]*")
DECLARED = re.compile(r"(?m)^[ ]*((?:pub |abbrev |unfoldable |data |record )*)([A-Za-z_][\w'\u2032\-]*)((?: *[({][^)}]*[)}])*) : ")
CRATE, NEW_CRATE = "md5", "md5_block"


def read(path):
    with open(path, encoding="utf-8", errors="replace") as f:
        return f.read()


def no_comments(text):
    return re.sub(r"(?m)(^|\s)--( .*)?$", "", text)


def snake(name):
    name = name.replace("\u2032", "'")
    if name[0].islower():
        name = re.sub(r"([a-z0-9])([A-Z])", lambda m: m[1] + "_" + m[2].lower(), name)
    return name.replace("-", "_")


def odd(name):
    return "-" in name or "\u2032" in name or (name[0].islower() and re.search(r"[a-z0-9][A-Z]", name) is not None)


def library():
    words = set()
    for folder, _, files in os.walk(KIT):
        for f in files:
            if f.endswith(".antt"):
                words |= set(TOKEN.findall(no_comments(read(os.path.join(folder, f)))))
    return words


def names():
    """The new spelling of each odd name, that of the plain names that give way in one file, what is declared, and whether names fall together."""
    lemma_files = sorted(glob.glob("crates/*/specs/*.antt") + glob.glob("crates/*/proofs/*.antt"))
    in_file = {f: set(TOKEN.findall(no_comments(read(f)))) for f in lemma_files}
    declared = collections.defaultdict(list)
    for f in lemma_files:
        for m in DECLARED.finditer(no_comments(read(f))):
            declared[m[2]].append((f, "abbrev" in m[1] or "unfoldable" in m[1]))
    kit = library()
    all_words = set().union(*in_file.values())
    wanted = {name: snake(name) for name in sorted(all_words) if odd(name) and name not in kit}
    # a lemma gives way to a definition that would have its name, and a name that is there already to one that comes to its file
    aside, bad = collections.defaultdict(dict), 0
    by_new = collections.defaultdict(set)
    for old, new in wanted.items():
        by_new[new].add(old)
    for new, olds in sorted(by_new.items()):
        together = [f for f, words in in_file.items() if len(words & (olds | {new})) > 1]
        definitions = [o for o in olds if any(d for _, d in declared.get(o, []))]
        if len(olds) > 1 and len(definitions) == 1:
            for o in olds - set(definitions):
                wanted[o] = new + "_lem"
        elif len(olds) > 1 and together:
            print("fall together:", new, sorted(olds), together)
            bad = 1
        if new in all_words:
            for f in together:
                if new in in_file[f]:
                    if any(is_definition for _, is_definition in declared[new]):
                        for o in olds - set(definitions):
                            wanted[o] = new + "_lem"
                    else:
                        aside[f][new] = new + "_lem"
    return wanted, aside, declared, bad


def turn_words(text, wanted):
    return TOKEN.sub(lambda m: wanted.get(m[0], m[0]), text)


def turn_crate(text):
    text = re.sub(r"\bRattle\.%s\." % CRATE, "Rattle.%s." % NEW_CRATE, text)
    return re.sub(r"\b(use |)%s::" % CRATE, lambda m: m[1] + NEW_CRATE + "::", text)


def main():
    wanted, aside, declared, bad = names()
    top = {o: n for o, n in wanted.items() if o in declared}
    prose = {o: n for o, n in top.items() if o.count("-") > 1 or (o[0].islower() and re.search(r"[a-z0-9][A-Z]", o))}
    for path in sorted(glob.glob("crates/*/specs/*.antt") + glob.glob("crates/*/proofs/**/*.antt", recursive=True)):
        lemma_file = path.count("/") == 3
        lines = []
        for line in read(path).splitlines(keepends=True):
            m = re.search(r"(^|\s)--(\s|$)", line)
            code, comment = (line[: m.start()], line[m.start() :]) if m else (line, "")
            lines.append(turn_words(code, {**wanted, **aside.get(path, {})} if lemma_file else top) + turn_words(comment, prose))
        write(path, turn_crate("".join(lines)))
    for path in sorted(glob.glob("crates/*/src/**/*.rt", recursive=True)):
        text = read(path)
        # ghost imports and clauses alone: what a clause calls has no other place
        aliases = {a: snake(a) for m in re.finditer(r"ghost use [^;]*;", text) for a in re.findall(r" as (\w+)", m[0]) if odd(a)}
        here = {**top, **aliases}
        text = re.sub(r'"(?:\\.|[^"\\])*"|//[^\n]*|[^"/]+|/', lambda m: m[0] if m[0].startswith('"') else turn_words(m[0], here), text)
        write(path, turn_crate(text))
    for path in sorted(glob.glob("crates/*/must-fail/*.edit")):
        write(path, turn_crate(turn_words(read(path), top)))
    lines = []
    for line in read("crates.txt").splitlines():
        if not line.startswith("#"):
            line = re.sub(r"(?<![\w])%s(?![\w])" % CRATE, NEW_CRATE, line)
        lines.append(line)
    write("crates.txt", "\n".join(lines) + "\n")
    subprocess.run(["git", "mv", "crates/" + CRATE, "crates/" + NEW_CRATE], check=True)
    with open("/tmp/respelled.txt", "w", encoding="utf-8") as f:
        f.write("".join(f"{o} {n}\n" for o, n in sorted(wanted.items())))
    print(f"respelled {len(wanted)} names; they are listed in /tmp/respelled.txt")
    return bad


def write(path, text):
    if text != read(path):
        with open(path, "w", encoding="utf-8") as f:
            f.write(text)


if __name__ == "__main__":
    sys.exit(main())
