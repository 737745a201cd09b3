#!/usr/bin/env python3
"""Lists the places in crates/*/src that docs/DESIGN-PASS.md counts, point by point.

    python3 tools/design_count.py [POINT..] [--places]

Each row is a place to look at: the page says what became of it. Without --places only the numbers are printed.
"""
import collections
import pathlib
import re
import sys

ROOT = pathlib.Path(__file__).resolve().parent.parent
FILES = sorted((ROOT / "crates").glob("*/src/**/*.rt"))
HEAD = re.compile(r"^( *)((?:pub(?:\(crate\))? )?(?:extern \"C\" )?fn (\w+))")


def code(path):
    return re.sub(r"//[^\n]*", "", path.read_text())


def functions():
    """Each function as its file and its name, params, result, clauses and body."""
    for path in FILES:
        lines = code(path).split("\n")
        for start, line in enumerate(lines):
            m = HEAD.match(line)
            if not m:
                continue
            end = next(i for i in range(start, len(lines)) if lines[i] == m[1] + "}" or (i == start and lines[i].endswith("}")))
            opened = next((i for i in range(start, end + 1) if re.search(r"(^|\s)\{$", lines[i])), start)
            head = "\n".join(lines[start:opened + 1])
            sig, _, clauses = head.partition("\n" + m[1] + "    requires")
            clauses = "requires" + clauses if clauses else ""
            sig = sig.split("\n" + m[1] + "    ensures")[0]
            flat = " ".join(sig.split())
            params = flat[flat.index("(", flat.index(m[3])) + 1:flat.rindex(")")] if ")" in flat else ""
            result = flat.rsplit("->", 1)[1].strip(" {") if "->" in flat else ""
            yield path, {"name": m[3], "params": params, "result": result, "clauses": clauses, "body": "\n".join(lines[opened + 1:end])}


def crate(path):
    return path.relative_to(ROOT / "crates").parts[0]


def place(path, name):
    return f"{crate(path)}/{path.stem}:{name}"


def enums():
    for path in FILES:
        for m in re.finditer(r"^(?:pub(?:\(crate\))? )?enum (\w+)[^{]*\{\n(.*?)^\}", code(path), re.M | re.S):
            cases = re.findall(r"^    (\w+)( ?[({])?", m.group(2), re.M)
            yield path, m.group(1), [bool(value) for _, value in cases]


def point1():
    """enums of the shape of Option or Result; a flag or a fault beside a value; numbers for kinds, faults, flags, phases"""
    for path, name, cases in enums():
        if len(cases) == 2 and any(cases) or name in ("Form", "Fault"):
            yield place(path, "enum " + name)
    for path in FILES:
        for m in re.finditer(r"^(?:pub(?:\(crate\))? )?struct (\w+)[^{;]*\{\n(.*?)^\}", code(path), re.M | re.S):
            if re.search(r"^    (?:pub )?(?:ok|found|fault): (?:bool|u64)", m.group(2), re.M):
                yield place(path, "struct " + m.group(1))
    for path, m in functions():
        result = m["result"]
        if result in ("u64", "u8") and re.search(r"fault|rank|code|number|digit$|flag|phase", m["name"]) and not re.match(r"write|read", m["name"]):
            yield place(path, m["name"])
        elif re.search(r"\b(phase|flag): u(64|8)", m["params"]):
            yield place(path, m["name"])


def shape(body):
    body = re.sub(r"\bb?\"[^\"]*\"", "S", body)
    words = re.findall(r"\w+|[^\s\w]", body)
    keep = {"let", "mut", "if", "else", "match", "while", "for", "in", "return", "true", "false", "loop", "break", "as"}
    return " ".join(w if w in keep or not re.match(r"\w", w) else ("0" if w[0].isdigit() else "n") for w in words)


def point2():
    """functions of one crate whose bodies differ in names, numbers and texts alone, of two lines or more"""
    groups = collections.defaultdict(list)
    for path, m in functions():
        if m["body"].count("\n") >= 2:
            groups[crate(path), shape(m["body"])].append(place(path, m["name"]))
    for names in groups.values():
        if len(names) > 1:
            yield " ~ ".join(names)


def point3():
    """loops by `while` and `loop`"""
    for path in FILES:
        for n, line in enumerate(code(path).split("\n"), 1):
            if re.match(r"\s*(while|loop)\b", line):
                yield f"{crate(path)}/{path.stem}:{n}: {line.strip()}"


def point4():
    """minimum, maximum, difference, order, conversion and copying by hand; codes of characters"""
    for path in FILES:
        for n, line in enumerate(code(path).split("\n"), 1):
            if re.search(r"\b(smaller|larger|less|both|wide|copy_front|kind_number|is_earlier|goes_first)\(|[=<>] (48|57|10)\b", line):
                yield f"{crate(path)}/{path.stem}:{n}: {line.strip()}"


def point5():
    """facts that three or more functions require, and parameters that stand side by side in three or more"""
    facts = collections.defaultdict(set)
    pairs = collections.defaultdict(set)
    for path, m in functions():
        for fact in re.findall(r"requires (?:\w+ )?\{ \(?([A-Z]\w+)", m["clauses"]):
            facts[fact].add(place(path, m["name"]))
        params = [" ".join(p.split()) for p in re.split(r",(?![^<\[]*[>\]])", m["params"]) if p.strip()]
        for a, b in zip(params, params[1:]):
            pairs[f"{a}, {b}"].add(place(path, m["name"]))
    for table in (facts, pairs):
        for name, users in sorted(table.items(), key=lambda t: -len(t[1])):
            if len(users) >= 3:
                yield f"{len(users)} {name}"


def point6():
    """flat tables of numbers among parameters, fields and locals, and counts or places beside a buffer"""
    for path, m in functions():
        for p in re.findall(r"\w+: &(?:'\w+ )?(?:mut )?\[(?:u64|usize|u16|u8)\]", m["params"]):
            yield place(path, m["name"]) + " " + p
        for a in re.findall(r"let (?:mut )?\w+ = \[0\w*; \w[^\]]*\]", m["body"]):
            yield place(path, m["name"]) + " " + a


def point7():
    """a value that says which step to run"""
    for path in FILES:
        for n, line in enumerate(code(path).split("\n"), 1):
            if re.search(r"match (pass|phase)\b|\bphase == ", line):
                yield f"{crate(path)}/{path.stem}:{n}: {line.strip()}"


def point8():
    """answers in proof files"""
    for path in sorted((ROOT / "crates").glob("*/proofs/**/Answers.antt")):
        for name in re.findall(r"^pub (\S+) : goal\.", path.read_text(), re.M):
            yield f"{path.relative_to(ROOT / 'crates').parent}:{name}"


POINTS = {"1": point1, "2": point2, "3": point3, "4": point4, "5": point5, "6": point6, "7": point7, "8": point8}
wanted = [a for a in sys.argv[1:] if a in POINTS] or list(POINTS)
for number in wanted:
    found = list(POINTS[number]())
    print(f"{number}: {len(found)} {POINTS[number].__doc__}")
    if "--places" in sys.argv:
        for row in found:
            print("   ", row)
