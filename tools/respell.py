#!/usr/bin/env python3
"""Brings the repository's own definitions and lemmas to snake case: usage: python3 tools/respell.py, once, at the top, right after port.py.

port.py respells what the kit names; this respells what the repository names. A name of a value, a lemma, a field or a local of an .antt file that has
a dash or a capital inside is put in snake case: rectsOf, one-if and row-place become rects_of, one_if and row_place. Names of types and modules, of the
kit, and those that a check makes for a goal keep theirs. A lemma whose new name is a definition's gets _lem. It prints what falls together otherwise."""

import collections
import glob
import re
import sys

TOKEN = re.compile(r"[^\s(){}\[\],;.`\"|:]+")
IMPORT = re.compile(r"(?ms)^\s*(?:pub )?use ([^\s{]+)\.\{([^}]*)\}")
OWN = re.compile(r"Rattle\.(?!std\b|core\b|bytes\b)\w+\.")
SPECIAL = {
    "getD-zeros": "get_or-zeros",
    # fields beside a definition of that name
    "amounts-room": "has_amounts_room",
    "regions-room": "has_regions_room",
    "last-level": "last_level_in",
}
# lemmas that port.py gave a definition's name, and where they stand
LEMMAS = {"is_digit": "crates/spelling/proofs/", "passed_over": "crates/zoom/proofs/"}


def needs(name):
    if not re.match(r"[A-Za-z]", name) or "_spec" in name:
        return False
    body = name
    if name[0].isupper():
        # a type at the head keeps its dash: T-both
        return bool(re.search(r"-.*-|-[a-z]+[A-Z]", body)) and "-" in body
    return "-" in body or bool(re.search(r"[a-z][A-Z]", body))


def snake(name):
    if name in SPECIAL:
        return SPECIAL[name]
    head = ""
    if name[0].isupper():
        head, name = name.split("-", 1)
        head += "-"
    # a type's letter stays as it is: unless_T
    parts = re.split(r"[-]", name)
    parts = [p if len(p) == 1 or not re.search(r"[a-z][A-Z]", p) else re.sub(r"(?<=[a-z0-9])([A-Z])", lambda m: "_" + m[1].lower(), p) for p in parts]
    return head + "_".join(parts)


def declared(text):
    """The names that a file declares: at its top, in where and let, as fields and constructors, and as parameters."""
    found = set()
    for line in text.split("\n"):
        if line.lstrip().startswith("--"):
            continue
        m = re.match(r"\s*(?:(?:unfoldable|pub|abbrev|record|data|let|in|open|module|pattern)\s+)*([^\s:(){}\[\],;=]+)\s*(?:[({].*?)?\s:\s", line)
        if m:
            found.add(m[1])
        for group in re.findall(r"[({]([^(){}:]+?)\s:\s", line):
            found.update(group.split())
        for m in re.findall(r"λ\s*([^.]*)\.", line):
            found.update(TOKEN.findall(m))
        m = re.match(r"\s*let ([^\s:(){}\[\],;=]+)", line)
        if m:
            found.add(m[1])
        m = re.match(r"\s*([a-z][^\s:(){}\[\],;=]*)\s(?:[^=]*\s)?=\s", line)
        if m:
            found.add(m[1])
    return {n for n in found if TOKEN.fullmatch(n)}


def main():
    antt = sorted(set(glob.glob("crates/*/specs/**/*.antt", recursive=True) + glob.glob("crates/*/proofs/**/*.antt", recursive=True)))
    texts = {p: open(p, encoding="utf-8").read() for p in antt}
    for name, where in LEMMAS.items():
        for p in antt:
            if p.startswith(where):
                texts[p] = re.sub(rf"(?<![\w.'-]){name}(?![\w'-])", name + "_lem", texts[p])
    walked = {p for p in antt if p.endswith("/Proof.antt")}
    outer = {}
    own = {}
    for p, t in texts.items():
        outer[p], own[p] = set(), set()
        for m in IMPORT.finditer(t):
            names = {n.strip() for it in m[2].split(",") for n in it.strip().split(" as ") if n.strip()}
            (own if OWN.match(m[1] + ".") else outer)[p].update(names)
    specs, lemmas = set(), set()
    for p, t in texts.items():
        if p in walked:
            continue
        (specs if "/specs/" in p else lemmas).update(declared(t))
    kit = set().union(*outer.values())
    turned = {}
    taken = collections.defaultdict(set)
    for n in specs | lemmas:
        if needs(n) and n not in kit:
            turned[n] = snake(n)
    keep = (specs | lemmas) - set(turned)
    for n, to in sorted(turned.items()):
        if n in lemmas - specs and (to in keep & specs or any(snake(s) == to for s in specs if s != n and s in turned)):
            turned[n] = to = to + "_lem"
        taken[to].add(n)
        if to in keep or to in kit:
            print(f"falls together: {n} -> {to}, which is a name already")
    for to, ns in taken.items():
        if len(ns) > 1:
            print(f"falls together: {sorted(ns)} -> {to}")

    def turn(text, p):
        def one(m):
            w = m[0]
            if w not in turned or w in outer.get(p, ()):
                return w
            if p in walked and w not in own[p]:
                # a goal's name, or a local of a proof by hand: only what comes from elsewhere is turned
                before = text[: m.start()][-1:]
                return turned[w] if before == "." and "tie." not in text[max(0, m.start() - 4) : m.start()] and w in fields else w
            return turned[w]

        return TOKEN.sub(one, text)

    fields = set()
    for p, t in texts.items():
        if p not in walked:
            for block in re.finditer(r"(?m)^(?:pub )?record [^\n]*where\n((?:(?:\s+.*)?\n)+)", t):
                fields.update(re.findall(r"(?m)^\s+(?:pub )?([^\s:]+) :", block[1]))
    n = 0
    pages = glob.glob("crates/*/src/**/*.rt", recursive=True) + glob.glob("crates/*/must-fail/*.edit") + glob.glob("README.md") + glob.glob("docs/*.md") + glob.glob("comparison/**/*.rs", recursive=True) + glob.glob("reference/**/*.rs", recursive=True)
    for p in antt + sorted(pages):
        t = texts.get(p) or open(p, encoding="utf-8").read()
        if p.endswith(".md"):
            u = re.sub(r"`[^`\n]*`", lambda m: turn(m[0], p), t)
        elif p.endswith(".rs"):
            continue
        else:
            u = turn(t, p)
        if u != t or u != open(p, encoding="utf-8").read():
            n += 1
            open(p, "w", encoding="utf-8").write(u)
    print(f"{len(turned)} names, {n} files")
    if "--list" in sys.argv:
        for a, b in sorted(turned.items()):
            print(f"{a} {b}")


if __name__ == "__main__":
    main()
