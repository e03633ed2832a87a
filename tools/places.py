#!/usr/bin/env python3
"""Counts, in a checkout, the places that docs/DESIGN-PASS.md speaks of: tools/places.py [CHECKOUT] [POINT] lists those of one point."""
import collections
import glob
import os
import re
import sys

ROOT = sys.argv[1] if len(sys.argv) > 1 else "."
ONLY = sys.argv[2] if len(sys.argv) > 2 else None

SOURCES = sorted(glob.glob(os.path.join(ROOT, "crates/*/src/**/*.rt"), recursive=True))
PROOFS = sorted(glob.glob(os.path.join(ROOT, "crates/*/proofs/**/*.antt"), recursive=True))
FN = re.compile(
    r"(?m)^(?P<indent> *)(?:pub(?:\(\w+\))? )?fn (?P<name>\w+)(?:<[^>]*>)?\((?P<params>[^)]*)\)"
)


def place(path):
    return os.path.relpath(path, os.path.join(ROOT, "crates"))


def functions():
    for path in SOURCES:
        text = open(path).read()
        for m in FN.finditer(text):
            end = re.compile(r"(?m)^" + m["indent"] + r"\}$").search(text, m.end())
            whole = text[m.end() : end.end() if end else len(text)]
            body = whole[whole.find("\n" + m["indent"] + "{\n") + 1 :] if "ensures" in whole else whole
            yield place(path), m["name"], re.sub(r"\s+", " ", m["params"]), body


def enums():
    for path in SOURCES:
        for m in re.finditer(r"(?ms)^\s*(?:pub )?enum (\w+) \{\n(.*?)^\s*\}", open(path).read()):
            body = re.sub(r"\{[^}]*\}", "{}", re.sub(r"//.*", "", m[2]))
            variants = [v.strip() for v in re.split(r",\s*\n", body) if v.strip()]
            yield place(path), m[1], variants


def point_1():
    """Own enums of two variants of which one holds nothing; enums with a number for a refusal; codes as constants; functions that give a number for a kind or refusal."""
    for path, name, variants in enums():
        bare = [v for v in variants if not re.search(r"[({]", v)]
        if len(variants) == 2 and len(bare) == 1:
            yield path, "enum " + name
        elif any(re.fullmatch(r"\w+\(u\d+\)", v) for v in variants):
            yield path, "enum " + name + " with a number"
    for path in SOURCES:
        for m in re.finditer(r"(?m)^    pub const (\w+): u8 = \d+;", open(path).read()):
            yield place(path), "code " + m[1]


def shape(body):
    body = re.sub(r"//.*", "", body)
    body = re.sub(r'b?"(?:[^"\\]|\\.)*"|b\'(?:[^\'\\]|\\.)+\'|\b0x[0-9A-Fa-f]+\b|\b\d\w*\b', "1", body)
    words = {"let", "mut", "if", "else", "while", "for", "in", "match", "return", "loop", "as", "true", "false"}
    return re.sub(r"[A-Za-z_]\w*", lambda m: m[0] if m[0] in words else "x", body)


def point_2():
    """Functions of five lines or more whose bodies differ only in names and literals from another's."""
    groups = collections.defaultdict(list)
    for path, name, params, body in functions():
        if body.count("\n") >= 6:
            groups[re.sub(r"\s+", " ", shape(body))].append((path, name))
    for group in groups.values():
        if len(group) > 1:
            for path, name in group:
                yield path, f"{name} ({len(group)} alike)"


def point_3():
    """Loops by `while` or `loop`."""
    for path in SOURCES:
        for i, line in enumerate(open(path), 1):
            if re.match(r"\s*(while|loop)\b", line):
                yield place(path), f"{i}: {line.strip()}"


def point_4():
    """Functions whose body is one conversion by `as`, one choice between two numbers, or a test of two truth values."""
    for path, name, params, body in functions():
        inner = re.sub(r"\s+", " ", body).strip("{} ")
        if re.fullmatch(r"\w+ as \w+", inner):
            yield path, name + ": conversion"
        elif re.fullmatch(r"if (\w+|\w+ <=? \w+) \{ [\w ]+ \} else \{ [\w ]+", inner):
            yield path, name + ": choice"
        elif re.fullmatch(r"if \w+ \{ return (\w+|!\w+(\.\w+)?); \} (true|false)", inner):
            yield path, name + ": truth values"


PAIRS = {
    "file and its sections": (r"file: &", r"\w+: Sections"),
    "sections, file and the table of solid bytes": (r"\w+: Sections", r"solids: &"),
    "window and buffer": (r"w: Window", r"out: &mut"),
    "count, desk and buffer": (r"at: usize", r"desk: &mut"),
    "tables of enders and gaps": (r"enders: &", r"gaps: &"),
    "writer and buffer": (r"w: Writer", r"buf: &"),
    "stack and what stands on it": (r"stack: &", r"\w+: (Tree|State)"),
}


def point_5():
    """Functions that take parameters which always travel together; functions that require the same fact of them."""
    for path, name, params, body in functions():
        for what, tests in PAIRS.items():
            if all(re.search(t, params) for t in tests):
                yield path, f"{name}: {what}"
    for path in SOURCES:
        for i, line in enumerate(open(path), 1):
            if re.match(r"\s*requires.*(Solids|Fits|TellsNext)", line):
                yield place(path), f"{i}: {line.strip()[:60]}"


def point_6():
    """Arrays, and slices with a place or a length beside them."""
    for path in SOURCES:
        for i, line in enumerate(open(path), 1):
            if re.search(r"\[(\w+); \w+\]", line) and not line.lstrip().startswith(("//", "ensures", "requires")):
                yield place(path), f"{i}: {line.strip()}"


def point_7():
    """Matches on an enum that only chooses which test to run or what to call."""
    names = r"test: (?:Test|Set)|seen: Seen|stop: Stop|asked: Asked|child: Child|role: Role"
    for path, name, params, body in functions():
        if re.search(names, params) and re.search(r"match (test|seen|stop|asked|child|role|set) \{", body):
            yield path, name


def point_8():
    """Answers of goals, lemmas and lines of proofs."""
    answers = lemmas = lines = 0
    for path in PROOFS:
        text = open(path).read()
        lines += text.count("\n")
        answers += len(re.findall(r"(?m)^\s*pub [^:\n]+ : goal\.", text))
        if "/Answers.antt" not in path and "/Invariants.antt" not in path:
            lemmas += len(re.findall(r"(?m)^ *(?:pub )?[^\s:(){}|]+ : ", text))
    yield "all", f"{answers} answers, {lemmas} lemmas, {lines} lines"


for n in range(1, 9):
    found = list(globals()[f"point_{n}"]())
    if ONLY is None:
        print(n, found[0][1] if n == 8 else len(found))
    elif ONLY == str(n):
        for path, what in found:
            print(f"{path}: {what}")
