#!/usr/bin/env python3
"""Brings the names of this repository's own definitions, lemmas, fields and variables to snake case, and those of its facts to camel case.

usage: tools/spell_names.py [--list] [FOLDER]      over FOLDER/crates and FOLDER/docs, once, after port.py

A name goes over where specs/ or proofs/ declares it, or where a file of .antt binds it: `wordBits` and `word-bits` become `word_bits`.
A dash beside a type's name stays (`Attempt-map`). Names that a file takes from the kit, goals' names, and names of src/ stay.
"""
import collections
import glob
import os
import re
import sys

LIST = "--list" in sys.argv
ARGS = [a for a in sys.argv[1:] if not a.startswith("--")]
ROOT = ARGS[0] if ARGS else "."
TOKEN = re.compile(r"(?:«[^»]*»|[^\s(){}.,;:«»λ\"`]+)")
DECL = re.compile(r"^( *)((?:abbrev |unfoldable |pub |private )*)(data |record |)((?:pub )?)([^\s:(){}.,;]+)((?: [({][^:]*:[^)}]*[)}])*)(?: \{[^}]*\})* *:(?!=) (.*)$", re.M)
# Facts whose names began small.
FACTS = {}
# Names that must not follow the rule, with what they become.
OWN = {
    "area-lines": "area_lines_same",
    "by-verdict": "by_verdict_lem",
    "exception-frame": "exception_frame_lem",
    "frame-lines": "frame_lines_same",
    "image-after": "image_after_lem",
    "inHex": "is_in_hex",
    "request-length": "request_length_lem",
    "request-lines": "request_lines_same",
    "run-data": "run_data_lem",
    "values-in": "values_in_lem",
}


def snake(name):
    """The name in snake case, or itself."""
    parts = name.split("-")
    if re.match(r"[A-Z]", name):
        # a fact or a type: a dash behind it stays, and what follows is in snake case
        return parts[0] if len(parts) == 1 else parts[0] + "-" + "_".join(camel(p) for p in parts[1:])
    out = camel(parts[0])
    for before, p in zip(parts, parts[1:]):
        # a dash stays behind the name of a definition in two words, and before a type's name in capitals
        two = re.match(r"[a-z]+[A-Z]", before)
        out += ("-" if two or re.fullmatch(r"[A-Z]{2,}", p) else "_") + camel(p)
    if len(parts) == 2 and re.match(r"[a-z]+[A-Z][a-z]", parts[1]):
        out = camel(parts[0]) + "-" + camel(parts[1])
    return out


def camel(p):
    if re.fullmatch(r"[A-Z]{2,}", p):
        return p
    if re.fullmatch(r"[0-9A-F]+", p):
        return p.lower()
    return re.sub(r"(?<=[a-z0-9])(?=[A-Z])|(?<=[A-Z])(?=[A-Z][a-z])", "_", p).lower()


def wants(name):
    return bool(re.fullmatch(r"[A-Za-z][A-Za-z0-9_'₀-₉-]*", name)) and (("-" in name) or bool(re.match(r"[a-z][A-Za-z0-9_]*[A-Z]", name)))


def files():
    antt = sorted(glob.glob(ROOT + "/crates/*/specs/*.antt") + glob.glob(ROOT + "/crates/*/proofs/**/*.antt", recursive=True))
    rt = sorted(glob.glob(ROOT + "/crates/*/src/**/*.rt", recursive=True))
    return antt, rt


def outside(text):
    """Names that a file takes from the kit."""
    names = set()
    for m in re.finditer(r"^(?:ghost )?use ([^\s{]+?)\.\{([^}]*)\}", text, re.M):
        top = m.group(1)
        own = re.match(r"Rattle\.(\w+)\.", top)
        if own and os.path.isdir(os.path.join(ROOT, "crates", own.group(1))) and ".declared." not in top:
            continue
        for n in m.group(2).split(","):
            n = n.strip()
            names.add(n.split(" as ")[0].strip())
    return names


def goals(path, text):
    if "/proofs/" not in path or os.path.basename(path) not in ("Proof.antt", "Answers.antt", "Invariants.antt"):
        return set()
    names = set(re.findall(r"\b(?:tie|goal)\.(?:Need-|Invariant-)?([^\s:(){}.,;]+)", text))
    names |= set(re.findall(r"^pub ([^\s:]+-spec) :", text, re.M))
    return names


def main():
    antt, rt = files()
    texts = {p: open(p, encoding="utf-8").read() for p in antt + rt}
    declared, ext, fields = set(), set(), set()
    for p in antt:
        t = texts[p]
        ext |= outside(t)
        g = goals(p, t)
        for m in DECL.finditer(t):
            n = m.group(5)
            if n not in g and wants(n):
                declared.add(n)
                fields.add(n)
        for m in re.finditer(r"λ ?\(?([^.:)]*?)(?: :|\.)|\blet ([^\s:=]+)|[({]((?:[^\s(){}:.,;]+ )+):", t):
            for n in (m.group(1) or m.group(2) or m.group(3) or "").split():
                n = n.strip("(),")
                if n not in g and wants(n) and "-" not in n:
                    declared.add(n)
        for m in re.finditer(r"^([a-z][^\s:(){}.,;]*)((?: [^\s:(){}.,;]+)*) =", t, re.M):
            for n in m.group(2).split():
                if wants(n) and "-" not in n and n not in g:
                    declared.add(n)
    used = collections.Counter()
    for t in texts.values():
        used.update(TOKEN.findall(t))
    names = {}
    for n in sorted(declared - ext):
        new = FACTS.get(n) or OWN.get(n) or snake(n)
        if new != n:
            names[n] = new
    back = collections.defaultdict(list)
    for n, new in names.items():
        back[new].append(n)
    for new, olds in sorted(back.items()):
        if len(olds) > 1:
            print("fall together:", new, olds)
        if used[new]:
            print("stands already:", new, "from", olds, used[new])
    if LIST:
        for n, new in names.items():
            print(n, "->", new)
        print(len(names))
        return
    kept = declared & ext
    for n in sorted(kept):
        print("also the kit's:", n)

    def turned(text, skip):
        def one(m):
            n = m.group(0)
            if n in skip:
                return n
            bare = n.strip("'") if n not in names else n
            return names.get(n, n)
        return TOKEN.sub(one, text)

    for p in antt + rt:
        t = texts[p]
        skip = outside(t) | goals(p, t)
        new = turned(t, skip)
        if p.endswith(".rt"):
            # In code only clauses and ghost lines cite such names; strings and comments outside them stay as they are unless they cite one.
            new = "\n".join(a if re.match(r'^\s*(?!//).*"', a) and "ensures" not in a and "requires" not in a else b for a, b in zip(t.split("\n"), new.split("\n")))
        if new != t:
            open(p, "w", encoding="utf-8").write(new)
    for p in sorted(glob.glob(ROOT + "/docs/*.md")) + [ROOT + "/README.md"]:
        if not os.path.exists(p) or os.path.basename(p) == "PORT.md":
            continue
        t = open(p, encoding="utf-8").read()
        new = re.sub(r"`[^`\n]*`", lambda m: turned(m.group(0), set()), t)
        if new != t:
            open(p, "w", encoding="utf-8").write(new)


main()
