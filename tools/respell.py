#!/usr/bin/env python3
"""Respells the repository's own definitions and lemmas: words in snake case, types in camel case.

usage: python3 tools/respell.py        at the top of the checkout, once, after the kit's port.py

Functions of src/, strings, comments but for names in backquotes, names that the kit's library declares, and names that
Rattle makes for goals and steps keep their spelling. Prints the table of names; with --check it writes nothing.
"""

import glob
import os
import re
import sys

WORD = re.compile(r"(?<![\w'·-])[A-Za-zℕ_][\w']*(?:-[\w']+)*(?:'\w*)?")
SIGNATURE = re.compile(r"^\s*(?:unfoldable |abbrev )?(?:pub )?([^\s:(){}]+) :(?=\s|$)")
DATA = re.compile(r"^\s*pub (?:record|data) ([^\s:(){}]+)")
USE = re.compile(r"^\s*(?:ghost )?use (Rattle|borrow|logic|Prim|mathlib)\.([\w.]+?)(?:\.\{([^}]*)\})?(?: as \w+)?;?\s*$")
# A fact whose name began with a small letter.
FACTS = {"all_words": "AllWords"}


def respelled(name):
    if name in FACTS:
        return FACTS[name]
    if "-" not in name:
        return name
    if name[0].isupper():
        return "".join(part[:1].upper() + part[1:] for part in name.split("-"))
    return name.replace("-", "_")


def is_answer(path):
    """Whether a file holds answers for one function, with names that Rattle makes."""
    return "/proofs/" in path and len(path.split("/")) > 4


def imports(text, crates):
    """The names that a file brings in: from crates of the repository, and from the kit."""
    own, kit = set(), set()
    for line in text.splitlines():
        m = USE.match(line)
        if not m or not m.group(3):
            continue
        inside = m.group(1) == "Rattle" and m.group(2).split(".")[0] in crates
        made = inside and m.group(2).split(".")[-1] in ("Goals", "Given")
        for item in m.group(3).split(","):
            for name in item.split(" as "):
                (own if inside and not made else kit).add(name.strip())
    return own, kit


def signatures(text):
    names = set()
    for line in text.splitlines():
        m = SIGNATURE.match(line) or DATA.match(line)
        if m:
            names.add(m.group(1))
    return names


def answers(text):
    """The goals that a file of answers answers: each stands there as `name : goal.name`."""
    return set(re.findall(r"^(?:abbrev )?pub (\S+) : goal\.", text, re.M))


def turn(text, allowed, barred, after_dot, comment):
    """Respells the words of the code for which `allowed` says so, after a dot those of after_dot, and in comments what stands in backquotes."""
    out = []
    for line in text.split("\n"):
        code, mark, rest = line, "", ""
        if not line.lstrip().startswith(comment):
            at = line.find(" " + comment)
            if at >= 0:
                code, mark, rest = line[:at], line[at : at + 1 + len(comment)], line[at + 1 + len(comment) :]
        else:
            code, rest = "", line

        def one(m):
            word = m.group(0)
            if word in barred or respelled(word) == word:
                return word
            if m.start() and code[m.start() - 1] == ".":
                return respelled(word) if after_dot(word) else word
            return respelled(word) if allowed(word) else word

        rest = re.sub(r"`([\w'-]+)`", lambda m: "`" + (respelled(m.group(1)) if allowed(m.group(1)) else m.group(1)) + "`", rest)
        out.append(WORD.sub(one, code) + mark + rest)
    return "\n".join(out)


def main():
    write = "--check" not in sys.argv
    crates = {os.path.basename(d) for d in glob.glob("crates/*") if os.path.isdir(d)}
    files = sorted(f for f in glob.glob("crates/**/*.antt", recursive=True) + glob.glob("crates/**/*.rt", recursive=True) if "/out/" not in f)
    texts = {f: open(f, encoding="utf-8").read() for f in files}
    declared = set()
    for f, t in texts.items():
        if f.endswith(".antt"):
            declared |= signatures(t) - (answers(t) if is_answer(f) else set())
    table = {}
    for f, t in texts.items():
        own, kit = imports(t, crates)
        if f.endswith(".rt"):
            new = turn(t, lambda w: w in own, kit, lambda w: w in declared, "//")
        elif is_answer(f):
            helpers = signatures(t) - answers(t)
            made = set(re.findall(r"(?:\bc|\bl|\bw)\.([\w'-]+)", t))
            new = turn(t, lambda w: w in own or w in helpers, kit | answers(t), lambda w: w in declared and w not in made, "--")
        else:
            new = turn(t, lambda w: True, kit, lambda w: w not in kit, "--")
        if new != t:
            before = WORD.findall(t)
            after = WORD.findall(new)
            for a, b in zip(before, after):
                if a != b:
                    table.setdefault(a, b)
            if write:
                with open(f, "w", encoding="utf-8") as o:
                    o.write(new)
    words = set()
    for t in texts.values():
        words |= set(WORD.findall(t))
    for a in sorted(table):
        print(f"{a} {table[a]}{'  (stood already)' if table[a] in words else ''}")
    print(f"{len(table)} names", file=sys.stderr)


main()
