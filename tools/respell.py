#!/usr/bin/env python3
"""Spells the repository's own antt names as this Rattle does: a word in snake case, a dash only between two names, a prime as an apostrophe.

usage: python3 tools/respell.py [--list]      at the top, once, after port.py; --list only prints the names, old and new

A name of the library, of the code and of a proof's own goals keeps its spelling, and so does one that would fall together with another.
"""

import collections
import os
import re
import subprocess
import sys

NAME = r"[A-Za-z\u0370-\u03ff][\w'\u2032\u2080-\u2089\u1d40-\u1d6a-]*"
TOKEN = re.compile(r'--(?=[\s-]|$)[^\n]*|//[^\n]*|"(?:\\.|[^"\\\n])*"|(?<![\w\u25cc\u2080-\u2089-])' + NAME)
EDIT = re.compile(r"(?<![\w\u25cc\u2080-\u2089-])" + NAME)
DEF = re.compile(r"^[ \t]*((?:(?:abbrev|unfoldable|pub|private|record|data)[ \t]+)*)(" + NAME + r")((?:[ \t]+(?:\([^()]*(?:\([^()]*\)[^()]*)*\)|\{[^{}]*\}))*)[ \t]*(?:\n[ \t]+)?:(?=\s)", re.M)
# Files of a function's folder: their names are those of its goals.
OF_GOALS = re.compile(r"/proofs/.+/(Proof|Answers|Invariants)\.antt$")
# Constructors of one type, which share a line.
MANY = re.compile(r"^[ \t]+(?!let\b)(?:pub[ \t]+)?(" + NAME + r"(?:[ \t]+" + NAME + r")+)[ \t]*:(?=\s)", re.M)
WORDS = set("length take drop append set reverse map sum min max get_or add mul sub div mod and or not nil cons none some true false zero suc le lt eq replicate".split())


def files(root):
    for folder, dirs, names in os.walk(os.path.join(root, "crates")):
        dirs[:] = sorted(d for d in dirs if d != "out")
        for f in sorted(names):
            if f.endswith((".antt", ".rt")):
                yield os.path.join(folder, f)


def edits(root):
    for folder, dirs, names in os.walk(os.path.join(root, "crates")):
        for f in sorted(names):
            if f.endswith(".edit"):
                with open(os.path.join(folder, f), encoding="utf-8") as it:
                    yield os.path.join(folder, f), it.read()


def pages(root):
    """The pages that name definitions and lemmas, between backticks; the papers of the task stay."""
    for folder in (".", "docs", "docs/landings"):
        for f in sorted(os.listdir(os.path.join(root, folder))):
            if f.endswith(".md") and not f.startswith(("01-", "02-", "PORT")):
                with open(os.path.join(root, folder, f), encoding="utf-8") as it:
                    yield os.path.join(root, folder, f), it.read()


def write(path, old, new):
    if new == old:
        return 0
    with open(path, "w", encoding="utf-8") as f:
        f.write(new)
    return 1


def landed(root):
    """What each name was in the commit at hand: the definitions of a file keep their order, whatever spells them."""
    then, two = {}, set()
    for p in files(root):
        if not p.endswith(".antt") or OF_GOALS.search(p):
            continue
        old = subprocess.run(["git", "show", "HEAD:./" + os.path.relpath(p, root)], cwd=root, capture_output=True, text=True)
        with open(p, encoding="utf-8") as f:
            now = [m.group(2) for m in DEF.finditer(f.read())]
        was = [m.group(2) for m in DEF.finditer(old.stdout)]
        if len(was) != len(now):
            print(f"respell: look: {p}: {len(was)} names then, {len(now)} now")
            continue
        for a, z in zip(was, now):
            if a != z:
                two |= {a} if then.get(a, z) != z else set()
                then[a] = z
    for a in sorted(two):
        print(f"respell: look: {a} has two spellings, and pages and edits keep it")
        del then[a]
    return then


def own_import(line):
    return re.match(r"\s*(?:pub |ghost )*use (Rattle\.(?!std\b|bytes\b|io\b|libc\b|core\b)|Rattle\u00b7)", line)


def own_alias(text):
    return re.findall(r"\bas (" + NAME + r")", "\n".join(m.group(0) for m in re.finditer(r"^[ \t]*(?:pub |ghost )*use [^;\n{]*\{[^}]*\}", text, re.M)))


def read(root):
    """Each file's text, the names defined in files of their own (not in a Proof.antt), and the names that come from the library."""
    texts, defs, foreign, functions = {}, collections.Counter(), set(), set(WORDS)
    for p in files(root):
        with open(p, encoding="utf-8") as f:
            t = texts[p] = f.read()
        for m in re.finditer(r"^[ \t]*(?:pub |ghost )*use [^;\n{]*\{([^}]*)\}", t, re.M):
            if not own_import(m.group(0)):
                foreign |= {w for part in m.group(1).split(",") for w in part.split()[:1]}
        if own_alias(t):
            defs.update(own_alias(t))
        for m in re.finditer(r"^[ \t]*(?:pub |ghost )*use ([\w.\u00b7+-]+)", t, re.M):
            foreign |= set(m.group(1).split(".")[-1:]) if not own_import(m.group(0)) else set()
        if p.endswith(".antt") and not OF_GOALS.search(p):
            for m in MANY.finditer(t):
                defs.update(m.group(1).split())
            for m in DEF.finditer(t):
                defs[m.group(2)] += 1
                if m.group(1).strip().startswith(("abbrev", "unfoldable")):
                    functions.add(m.group(2))
    return texts, defs, foreign, functions


def snake(word):
    return re.sub(r"(?<=[a-z0-9])([A-Z])", lambda m: "_" + m.group(1).lower(), word) if re.match(r"[a-z]", word) else word


def respelled(name, functions):
    name = name.replace("\u2032", "'")
    parts = name.split("-")
    out = snake(parts[0])
    for a, z in zip(parts, parts[1:]):
        two = (a in functions or snake(a) in functions) and (z in functions or snake(z) in functions) and len(parts) == 2
        fact = z[:1].isupper() or a[:1].isupper()
        out += ("-" if two or fact else "_") + snake(z)
    return out


def table(texts, defs, foreign, functions):
    """The names to turn, old and new. Two names fall together where one file reads both, or where both are of this repository."""
    code, here = collections.defaultdict(set), collections.defaultdict(set)
    for p, t in texts.items():
        rust = set()
        if p.endswith(".rt"):
            rust |= set(re.findall(r"([a-z_]\w*)\s*:(?!:)", t)) | set(re.findall(r"let (?:mut )?(\w+)", t)) | set(re.findall(r"\bfor (\w+) in", t))
        for m in TOKEN.finditer(t):
            w = m.group(0)
            if w[0] in '-"/':
                continue
            here[w].add(p)
            path = t[m.start() - 1 : m.start()] == "." or t[m.end() : m.end() + 1] == "."
            if not path and (not p.endswith(".rt") or w in rust):
                code[w].add(p)
    turn, back = {}, {}
    for name in sorted(defs):
        if name in foreign:
            continue
        new = respelled(name, functions)
        if new == name:
            continue
        for new in (new, new + ("_lem" if "-" in name else "_of")):
            if not (new in defs or new in back or new in KEYWORDS or new in foreign or code[new] & here[name]):
                turn[name] = new
                back[new] = name
                break
    return turn


KEYWORDS = set("abbrev as data do elim else false fn for ghost if in let match mod module open pub record refl rw ruleset simp suc then true unfold unfoldable unfolding use where with zero".split())


def main(argv):
    root = "."
    texts, defs, foreign, functions = read(root)
    turn = table(texts, defs, foreign, functions)
    if "--list" in argv:
        for a, z in sorted(turn.items()):
            print(a, z)
        return 0
    def one(m):
        w = m.group(0)
        return w if w[0] in '-"/' else turn.get(w, w)

    n = 0
    for p, t in texts.items():
        n += write(p, t, TOKEN.sub(one, t))
    then = landed(root)
    for p, t in edits(root):
        n += write(p, t, re.sub(r"(?m)^(?:old|new):.*", lambda m: EDIT.sub(lambda w: then.get(w.group(0), w.group(0)), m.group(0)), t))
    for p, t in pages(root):
        n += write(p, t, re.sub(r"`[^`\n]+`", lambda m: EDIT.sub(lambda w: then.get(w.group(0), w.group(0)), m.group(0)), t))
    print(f"respell: {len(turn)} names, {n} files")
    return 0


if __name__ == "__main__":
    raise SystemExit(main(sys.argv[1:]))
