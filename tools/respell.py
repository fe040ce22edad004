#!/usr/bin/env python3
"""Brings the repository's own definitions and lemmas to snake case, after the toolchain's own script has turned the rest.

usage: python3 tools/respell.py        once, at the top of the repository

It collects every name with a dash that a file of specs/ or proofs/ defines (a definition, a lemma, a constructor, a field of a
record, a lemma of a `where`), and writes it with underscores, a type in camel case, in specs/, proofs/, the clauses of src/, the must-fail edits, and in
back quotes in docs/ and README.md (there also names that the toolchain's script wrote so). Names of goals and of steps, which Rattle makes, stay; so does everything between double quotes.
A name that would fall together with another of the repository, or with one that the same file brings in, is reported and left.
"""

import collections
import os
import re
import sys

DEFINES = re.compile(r"^(\s*)((?:abbrev |unfoldable |pub |ruleset )*)([^\s(){}:=]+(?: [^\s(){}:=]+)*) :(?: |$)")
TYPE = re.compile(r"^\s*(?:pub )?(?:record|data) ([^\s(){}:=]+)")
TOKEN = re.compile(r'"(?:[^"\\\n]|\\.)*"|[^\s(){}\[\],;.:`"←]+')
ANSWERS = ("Answers.antt", "Invariants.antt", "Proof.antt")
# A fact is spelled as a type; a library has put_mid.
FACTS = {"begins-open": "BeginsOpen", "put-mid": "middle_put"}
# What stands before the dot of a name that Rattle makes: the facts at a goal, a branch, the goals themselves.
MADE = ("c", "w", "goal", "need", "given", "l")


def files(root, ends):
    for top in ("crates", "docs", "README.md"):
        path = os.path.join(root, top)
        if os.path.isfile(path):
            yield path
        for folder, dirs, names in os.walk(path):
            dirs[:] = sorted(d for d in dirs if d not in ("out", ".git"))
            for n in sorted(names):
                if n.endswith(ends):
                    yield os.path.join(folder, n)


def defined(root):
    """Each name that a file of specs/ or proofs/ defines, with the files."""
    found = collections.defaultdict(set)
    for p in files(root, (".antt",)):
        with open(p, encoding="utf-8") as f:
            for line in f:
                m = TYPE.match(line)
                if m and m.group(1) not in ("{", "record"):
                    found[m.group(1)].add(p)
                m = DEFINES.match(line)
                if m and "--" not in m.group(0):
                    for n in m.group(3).split():
                        found[n].add(p)
    return found


def camel(name):
    return "".join(part[0].upper() + part[1:] for part in name.split("-"))


def respelled(found):
    new = {}
    for n, where in found.items():
        own = [p for p in where if os.path.basename(p) not in ANSWERS]
        if "-" in n and own:
            new[n] = FACTS.get(n, camel(n) if n[0].isupper() else n.replace("-", "_"))
    taken = collections.Counter(new.get(n, n) for n in found)
    for n in [n for n in new if taken[new[n]] > 1]:
        print(f"respell: {n} would fall together with another name: left as it is")
        del new[n]
    return new


def turn(text, new, also=()):
    """The text with each name of new written anew, where it is a whole name and not one that Rattle makes; and each whose form
    with underscores is in also."""
    out, last = [], 0
    for m in TOKEN.finditer(text):
        t = m.group(0)
        to = new.get(t) or (t.replace("-", "_") if "-" in t and t.replace("-", "_") in also else None)
        if not to:
            continue
        if m.start() and text[m.start() - 1] == ".":
            head = re.search(r"[^\s(){}\[\],;:]*$", text[: m.start() - 1]).group(0).split(".")[0]
            if head in MADE:
                continue
        out += [text[last : m.start()], to]
        last = m.end()
    return "".join(out) + text[last:]


def brought_in(text):
    """The names that the lines of a file bring in from the libraries."""
    names = set()
    for m in re.finditer(r"^(?:ghost )?use ([^;\n{]*?)\.?\{([^}]*)\}", text, re.M):
        if not re.match(r"Rattle\.(?!std\b)", m.group(1)):
            names |= {n.strip().split(" as ")[-1] for n in m.group(2).split(",")}
    return names


def main(root):
    found = defined(root)
    new = respelled(found)
    for p in files(root, (".antt", ".rt")):
        with open(p, encoding="utf-8") as f:
            text = f.read()
        libs = brought_in(text)
        for n in sorted(set(TOKEN.findall(text)) & set(new)):
            if new[n] in libs:
                print(f"respell: {p}: {n} would be {new[n]}, which a library has: mend it by hand")
    count = 0
    for p in files(root, (".antt", ".rt", ".edit", ".md")):
        with open(p, encoding="utf-8") as f:
            text = f.read()
        if p.endswith(".md"):
            after = re.sub(r"`[^`\n]*`", lambda m: turn(m.group(0), new, found), text)
        elif p.endswith(".edit"):
            after = turn(text, new, found)
        else:
            after = turn(text, new)
        if after != text:
            count += 1
            with open(p, "w", encoding="utf-8") as f:
                f.write(after)
    print(f"respell: {len(new)} names in {count} files")


if __name__ == "__main__":
    main(sys.argv[1] if len(sys.argv) > 1 else ".")
