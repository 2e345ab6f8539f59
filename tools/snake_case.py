#!/usr/bin/env python3
"""Brings the repository's own definitions and lemmas to snake case, after port.py, in every crate's .rt and .antt files.

usage: python3 tools/snake_case.py [--dry]      at the top of the repository

A word of the repository's own, as firstShort or build-length, becomes first_short, build_length; a type or a fact keeps its
capitals, and a dash beside one stays. What a file imports from another library keeps its spelling there. `--dry` prints the
names that fall together and the parameters that would hide one, and writes nothing.
"""
import collections
import glob
import os
import re
import sys

# lemmas and fields that port.py had given the name of a definition
FIRST = {
    "crates/rules/proofs/Entries.antt": [(r"\bgoes_on\b", "goes_on_lem")],
    "crates/rules/proofs/SellerGood.antt": [(r"\bgoes_on\b", "goes_on_lem")],
    "crates/seller/proofs/Laws.antt": [(r"\bgoes_on\b", "goes_on_lem")],
    "crates/rules/proofs/Passed.antt": [(r"\bis_open\b", "is_open_lem")],
    "crates/rules/proofs/Countered.antt": [(r"\bis_open\b", "is_open_lem")],
}
TOKEN = re.compile(r"[^\W\d][\w'\-]*[\w']|[^\W\d]", re.UNICODE)
HEAD = re.compile(r"^\s*(?:(?:abbrev|unfoldable|pub|ruleset|record|private|data|instance)\s+)*([^\s:({=]+)(?:\s*[({][^:]*:.*[)}])*\s*(?::|=|where)(?:\s|$)")


def crates():
    return {os.path.basename(c) for c in glob.glob("crates/*")}


def pieces(name):
    return [p for p in name.split("◌") if p]


def turned(name):
    """The name in snake case."""
    parts = name.split("-")
    out = parts[0]
    for left, right in zip(parts, parts[1:]):
        fact = any(re.match(r"^[A-Z]\w*[a-z]", p) for p in (left, right))
        out += ("-" if fact else "_") + right
    return "-".join(re.sub(r"(?<=[a-z0-9])([A-Z])", lambda m: "_" + m.group(1).lower(), p) if re.match(r"^[a-z]", p) else p for p in out.split("-"))


def own_names():
    names = set()
    for path in glob.glob("crates/*/specs/**/*.antt", recursive=True) + glob.glob("crates/*/proofs/**/*.antt", recursive=True):
        if os.path.basename(path) == "Proof.antt":
            continue
        for line in open(path, encoding="utf-8"):
            if line.lstrip().startswith(("--", "use ", "let ", "infix")):
                continue
            m = HEAD.match(line)
            if m:
                names.update(pieces(m.group(1)))
    return {n for n in names if TOKEN.fullmatch(n)}


def aliases():
    names = set()
    for path in glob.glob("crates/*/src/*.rt") + glob.glob("crates/*/*/**/*.antt", recursive=True):
        for line in open(path, encoding="utf-8"):
            if re.match(r"^(ghost |pub )?use ", line):
                names.update(re.findall(r" as ([a-z]\w*[A-Z]\w*)", line))
    return names


def lent(text, own):
    """The names that a file imports from other libraries."""
    out = set()
    for m in re.finditer(r"^(?:ghost )?(?:pub )?use\s+(?:Rattle\.(\w+)\.)?[\w.']+\.\{([^}]*)\}", text, re.MULTILINE):
        if m.group(1) not in own:
            for item in m.group(2).split(","):
                out.update(pieces(item.split(" as ")[0].strip()))
    return out


def main():
    dry = "--dry" in sys.argv
    own = crates()
    names = own_names() | aliases()
    back = collections.defaultdict(set)
    for n in names:
        back[turned(n)].add(n)
    # where a lemma would have its function's name, it gets _lem
    table = {n: turned(n) + ("_lem" if "-" in n and len(back[turned(n)]) > 1 else "") for n in names}
    table = {n: new for n, new in table.items() if n != new}
    for new, olds in sorted(back.items()):
        if len(olds) > 1:
            print("together:", new, sorted(olds))
    for path in sorted(glob.glob("crates/*/src/*.rt") + glob.glob("crates/*/specs/**/*.antt", recursive=True) + glob.glob("crates/*/proofs/**/*.antt", recursive=True)):
        text = open(path, encoding="utf-8").read()
        for old, new in FIRST.get(path, []):
            text = re.sub(old, new, text)
        keep = lent(text, own)
        had = set(TOKEN.findall(text))
        used = {}

        def swap(m):
            w = m.group(0)
            if w in table and w not in keep:
                used[w] = table[w]
                return table[w]
            return w

        new = TOKEN.sub(swap, text)
        if path.endswith("Proof.antt"):
            new = re.sub(r"(?<![\w.\-])([a-z][\w\-]*)-spec(?![\w\-])", lambda m: m.group(1).replace("-", "_") + "_spec", new)
        for old, n in sorted(used.items()):
            if n in had and path.endswith(".antt"):
                print("here too:", path, old, n)
        if path.endswith(".rt"):
            for fn in re.finditer(r"\bfn (\w+)\s*(?:<[^>]*>)?\(([^)]*)\)([^{;]*(?:\{[^{}]*\}[^{;]*)*?)\n\{", new):
                params = {p.split(":")[0].replace("mut ", "").strip() for p in fn.group(2).split(",") if ":" in p}
                for n in params & set(used.values()):
                    if re.search(rf"\b{n}\b", fn.group(3)):
                        print("hidden:", path, fn.group(1), n)
        if not dry:
            with open(path, "w", encoding="utf-8") as f:
                f.write(new)
    print(len(table), "names")


main()
