#!/usr/bin/env python3
"""Lists places in crates/*/src where a plainer form of today's Rattle may stand. Run it at the top of the repository; with -l it lists each place.

It reads text and knows no types: what it finds is looked at by a person, and docs/DESIGN-PASS.md says what came of each.
"""
import re
import sys
from collections import defaultdict
from pathlib import Path

LIST = "-l" in sys.argv[1:]
ONLY = [a for a in sys.argv[1:] if a != "-l"]


def strip(text):
    """Without comments and ghost lines; as many lines as before."""
    out = []
    for line in text.split("\n"):
        s = line.strip()
        if s.startswith(("//", "ghost use")):
            out.append("")
            continue
        out.append(re.sub(r"\s//.*$", "", line))
    return "\n".join(out)


FILES = {p: strip(p.read_text()) for p in sorted(Path("crates").glob("*/src/**/*.rt"))}


def close(text, at):
    """The place after the brace that closes the one at `at`."""
    depth = 0
    for i in range(at, len(text)):
        if text[i] == "{":
            depth += 1
        elif text[i] == "}":
            depth -= 1
            if depth == 0:
                return i + 1
    return len(text)


def functions():
    """Each function: file, line, name, head up to the clauses, clauses, body."""
    for path, text in FILES.items():
        for m in re.finditer(r"^[ ]*((?:pub(?:\(crate\))? )?(?:final )?fn (\w+))", text, re.M):
            head_end = re.compile(r"^\s*(requires|ensures)|\{\s*$|;\s*$|\{[^\n]*\}\s*$", re.M).search(text, m.end())
            if not head_end:
                continue
            at = m.end()
            depth = 0
            body = None
            i = m.start()
            # the body is the first brace that opens at the end of a line or stands alone, and is no clause's
            for line in re.finditer(r"[^\n]*\n?", text[m.start():]):
                s = line.group(0)
                t = s.strip()
                pos = m.start() + line.start()
                if body is None and (t == "{" or (t.endswith("{") and not t.startswith(("requires", "ensures")))):
                    body = pos + s.rindex("{")
                    break
                if t in ("{}",):
                    body = pos + s.index("{")
                    break
                if t.endswith(";") and not t.startswith(("requires", "ensures", "let", "return")) and depth == 0:
                    break
                if t.startswith("ensures") and t.endswith("};"):
                    break
                if line.end() == line.start():
                    break
            if body is None:
                continue
            end = close(text, body)
            head = text[m.start():body]
            yield path, text.count("\n", 0, m.start()) + 1, m.group(2), head, text[body:end]


FUNCTIONS = list(functions())
FOUND = defaultdict(list)


def put(point, path, line, what):
    FOUND[point].append((str(path).replace("crates/", ""), line, what.strip()[:110]))


def lines(point, pattern, flags=0):
    rx = re.compile(pattern, flags)
    for path, text in FILES.items():
        for m in rx.finditer(text):
            put(point, path, text.count("\n", 0, m.start()) + 1, m.group(0).replace("\n", " "))


# 1. Option, Result, enums
for path, text in FILES.items():
    for m in re.finditer(r"enum (\w+)[^{]*\{", text):
        body = text[m.end():close(text, m.end() - 1) - 1]
        variants = [v.strip() for v in re.findall(r"^\s*([A-Z]\w*(?:\([^)]*\))?),", body, re.M)]
        if len(variants) == 2 and any("(" in v for v in variants):
            put("1a an enum of two cases that carry something", path, text.count("\n", 0, m.start()) + 1, m.group(1) + ": " + ", ".join(variants))
    for m in re.finditer(r"struct \w+[^{;]*\{", text):
        body = text[m.end():close(text, m.end() - 1) - 1]
        for f in re.findall(r"^\s*(?:pub(?:\(crate\))? )?(\w+: bool),", body, re.M):
            put("1b a flag in a struct", path, text.count("\n", 0, m.start()) + 1, m.group(0).strip("{ ") + ": " + f)
lines("1b a flag that says what comes next", r"let mut \w+ = (?:true|false);")
lines("1c a number for a refusal", r"^.*(?:number\(\) (?:==|!=)|number\(\)\.saturating_add|\(refusal\.number\(\)|Ok\(\(\)\) => 0|(?:<|>=|==|:) 1000\b(?!;| &&)|, 1000\)|1_000_000_000_0|return Ok\(\d\)|number == \d|=> expected == 0).*$", re.M)
lines("1d a refusal handed on by hand", r"return Err\((?:e|refusal|why|e\.at\(0\))\)")
lines("1e taken apart by hand", r"else \{\s*return None;|Some\(_\) => true|Err\(_\) => false|Ok\(_\) => false|if let (?:Some\(_\)|None|Err\(_\)) =|Some\((\w+)\) => Ok\(\1\)|Some\(e\)\) => e")

# 2. twins
def plain(text, name):
    text = re.sub(r"\b" + name + r"\b", "SELF", text)
    text = re.sub(r"\b\d[\d_]*(?:u\d+|usize)?\b", "0", text)
    text = re.sub(r"\b[A-Z][A-Z0-9_]+\b", "CONST", text)
    text = re.sub(r"\b[A-Z]\w*\b", "Type", text)
    return re.sub(r"\s+", " ", text)


bodies = defaultdict(list)
for path, line, name, head, body in FUNCTIONS:
    text = plain(body, name)
    if body.count("\n") >= 3:
        bodies[text].append((path, line, name))
for text, places in bodies.items():
    if len(places) > 1:
        for path, line, name in places:
            put("2a a function whose body is another's but for types and numbers", path, line, name + "  ~ " + ", ".join(f"{str(q).replace('crates/', '')}:{n}" for q, n, m in places if (q, n) != (path, line))[:80])
shapes = defaultdict(list)
for path, text in FILES.items():
    for m in re.finditer(r"(?:struct|enum) (\w+)[^{;]*\{", text):
        body = text[m.end():close(text, m.end() - 1) - 1]
        shapes[re.sub(r"\s+|pub(\(crate\))?", "", body)].append((path, text.count("\n", 0, m.start()) + 1, m.group(1)))
for body, places in shapes.items():
    if len(places) > 1:
        for path, line, name in places:
            put("2b a type with the fields of another", path, line, name)
runs = defaultdict(set)
SIZE = 6
for path, text in FILES.items():
    rows = [(i + 1, plain(r, "\0").strip()) for i, r in enumerate(text.split("\n")) if r.strip() and not r.strip().startswith("use ")]
    for i in range(len(rows) - SIZE + 1):
        part = tuple(r for _, r in rows[i:i + SIZE])
        if sum(len(r) > 6 for r in part) >= SIZE - 1:
            runs[part].add((path, rows[i][0]))
seen = set()
for part, places in runs.items():
    if len(places) > 1:
        for path, line in places:
            if (path, line - 1) not in seen:
                pass
            seen.add((path, line))
starts = sorted(seen, key=lambda p: (str(p[0]), p[1]))
last = None
for path, line in starts:
    if last is None or last[0] != path or line > last[1] + SIZE:
        put("2c six lines that stand elsewhere too, but for types and numbers", path, line, "")
    last = (path, line)

# 3. loops
lines("3a while", r"^\s*while .*$", re.M)
for path, text in FILES.items():
    for m in re.finditer(r"^\s*for (\w+) in ([^\n{]*\.\.[^\n{]*)\{", text, re.M):
        body = text[m.end() - 1:close(text, m.end() - 1)]
        line = text.count("\n", 0, m.start()) + 1
        what = f"for {m.group(1)} in {m.group(2)}"
        if re.search(r"\[[^\]\n]*\b" + m.group(1) + r"\b[^\]\n]*\]", body) and not m.group(1).startswith("_"):
            put("3b a range that indexes", path, line, what)
        elif "return" in body and "?" not in body:
            put("3c a range that is searched", path, line, what)
        elif re.search(r"\+= 1;|saturating_add\(1\);|wrapping_add\(1\);|\+= |= \w+\.saturating_add", body):
            put("3d a range that is summed or counted", path, line, what)
        else:
            put("3e another loop over a range of numbers", path, line, what)
    for m in re.finditer(r"^\s*for ([^\n]+?) in ([^\n{]*)\{", text, re.M):
        if ".." in m.group(2):
            continue
        body = text[m.end() - 1:close(text, m.end() - 1)]
        line = text.count("\n", 0, m.start()) + 1
        if re.search(r"(\w+) = \1\.saturating_add\(1\)|(\w+) = \2\.wrapping_add\(1\)|= false;|= true;|return ", body):
            put("3f a loop over things that counts or searches", path, line, f"for {m.group(1)} in {m.group(2)}")
lines("3g a counter beside a loop", r"let mut (?:number|place|seen|count|n|sum|t|mark|left|room)(?:: \w+)? = 0")

# 4. by hand
for path, line, name, head, body in FUNCTIONS:
    h = re.sub(r"\s+", " ", head)
    if re.search(r"fn (alike|equal|same)\(", h) and "&self" not in h and "&mut self" not in h:
        put("4a a comparison", path, line, name)
    if "-> &'static str" in h and "match" in body:
        put("4b names of cases", path, line, name)
    if re.search(r"fn (print_\w*fault|tell)\b", h):
        put("4c printing", path, line, name)
    if re.search(r"fn (numbered|ran|found|entered|outcome|says|code|value|layout_of)\b", h) and "match" in body and "&self" not in h:
        put("4d a conversion", path, line, name)
    if re.search(r"\bmatch \*?self\b", body) and "-> u64" in h and "number" == name:
        put("4e the number of a refusal", path, line, name)

# 5. facts and parameters together
needs = defaultdict(list)
together = defaultdict(list)
alone = defaultdict(set)
for path, line, name, head, body in FUNCTIONS:
    for c in re.findall(r"requires (?:\w+ )?\{ (.*?) \}\s*(?=requires|ensures|$|\n)", head):
        needs[(str(path).split("/")[1], re.sub(r"\.(now|old)\b", "", c))].append((path, line, name))
    m = re.search(r"\((.*?)\)\s*(?:->|requires|ensures|$|\n|\{)", head.replace("\n", " "))
    if m:
        ps = [re.sub(r"\s+", " ", p).replace("&mut", "&").replace("mut ", "").strip() for p in re.split(r",\s*(?![^<\[(]*[>\])])", m.group(1)) if ":" in p]
        for p in ps:
            alone[(str(path).split("/")[1], p)].add((path, line, name))
        for i in range(len(ps)):
            for j in range(i + 1, len(ps)):
                together[(str(path).split("/")[1], ps[i], ps[j])].append((path, line, name))
for (crate, c), places in needs.items():
    if len(places) >= 3:
        for path, line, name in places:
            put("5a a premise of three functions or more", path, line, f"{name}: {c}")
for (crate, p, q), places in sorted(together.items(), key=lambda x: -len(x[1])):
    both = set(places)
    if len(both) >= 3 and both == alone[(crate, p)] == alone[(crate, q)]:
        put("5b two parameters that never come one without the other, in three functions or more", places[0][0], places[0][1], f"{p}, {q}: {len(places)} functions")
    elif len(both) >= 5:
        put("5c two parameters together in five functions or more", places[0][0], places[0][1], f"{p}, {q}: {len(places)} functions")

# 6. and 7.
lines("6a an array of fixed size in a body", r"let (?:mut )?\w+(?:: [^=]+)? = \[0(?:u64)?; \w+\]")
lines("6b slices beside one another", r"fn \w+(?:<[^>]*>)?\([^)]*&(?:mut )?\[[^)]*&(?:mut )?\[")
for path, line, name, head, body in FUNCTIONS:
    for p in re.findall(r"(\w+): bool", head):
        if re.search(r"\bif !?" + p + r"\b|== " + p + r"|!= " + p, body):
            put("7a a flag that picks what is done", path, line, f"{name}: {p}")
lines("7b a number that picks what is done", r"match (?:noise\.below|i % )[^{]*\{")

# 8. proofs
for p in sorted(Path("crates").glob("*/proofs/**/Answers.antt")):
    FOUND["8 answers"] += [(str(p).replace("crates/", ""), 0, a) for a in re.findall(r"^pub ([\w-]+) :", p.read_text(), re.M)]

for point in sorted(FOUND):
    if ONLY and not any(point.startswith(o) for o in ONLY):
        continue
    print(f"{len(FOUND[point]):5}  {point}")
    if LIST and not (point.startswith("8") and not ONLY):
        for path, line, what in FOUND[point]:
            print(f"           {path}:{line}  {what}")
