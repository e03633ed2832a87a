"""Finished texts for comparing checkers: what the Rust serializer writes, and mutations of it."""
import pathlib, random, re, struct, subprocess

ROOT = pathlib.Path(__file__).resolve().parent.parent
TOOLS = ROOT / "oracle" / "target" / "release"
RUN = ROOT / "scripts" / "run"
LONGEST = 65536
MUTATIONS = 20
FEW = 1
CHUNK = 1000

TAG = re.compile(rb"<[^>]*>")
MILESTONE = re.compile(rb"<(?:chapter|verse)[^>]*>")
IDENTIFIER = re.compile(rb'[se]id="([^"]*)"')
ELEMENT = re.compile(rb"(?<=<)/?[a-z]+")
NAMES = b"usx book chapter verse para char note ms figure table row cell sidebar periph optbreak ref".split()
BYTES = b'<>&"= /;abc1\n\x00\xff'


def written(mode, seed, count):
    """The texts of `gen`'s tapes, a chunk at a time."""
    for first in range(0, count, CHUNK):
        size = min(CHUNK, count - first)
        tapes = subprocess.run([TOOLS / "gen", mode, str(seed), str(size), str(first)], stdout=subprocess.PIPE, check=True).stdout
        answers = subprocess.run([TOOLS / "oracle", "stream"], input=tapes, stdout=subprocess.PIPE, check=True).stdout
        at, texts = 0, []
        while at < len(answers):
            number, length = struct.unpack_from("<BI", answers, at)
            if number == 0:
                texts.append(answers[at + 5 : at + 5 + length])
            at += 5 + length
        yield texts


# ---- mutations: of a text, or None where the text has nothing of the kind


def places(pattern, text, rng, count=1):
    found = list(pattern.finditer(text))
    return sorted(rng.sample(found, count), key=lambda m: m.start()) if len(found) >= count else None


def byte_changed(text, rng):
    i = rng.randrange(len(text))
    return text[:i] + bytes([rng.choice(BYTES + bytes([rng.randrange(256)]))]) + text[i + 1 :]


def byte_put_in(text, rng):
    i = rng.randrange(len(text) + 1)
    return text[:i] + bytes([rng.choice(BYTES)]) + text[i:]


def bytes_gone(text, rng):
    i = rng.randrange(len(text))
    return text[:i] + text[i + rng.choice((1, 1, 2, 5, 20)) :]


def quote_gone(text, rng):
    at = places(re.compile(b'"'), text, rng)
    return at and text[: at[0].start()] + text[at[0].end() :]


def tag_gone(text, rng):
    at = places(TAG, text, rng)
    return at and text[: at[0].start()] + text[at[0].end() :]


def tag_twice(text, rng):
    at = places(TAG, text, rng)
    return at and text[: at[0].end()] + at[0][0] + text[at[0].end() :]


def tags_exchanged(text, rng):
    at = places(TAG, text, rng, 2)
    return at and text[: at[0].start()] + at[1][0] + text[at[0].end() : at[1].start()] + at[0][0] + text[at[1].end() :]


def milestone_copied(text, rng):
    at, to = places(MILESTONE, text, rng), places(TAG, text, rng)
    return at and to and text[: to[0].end()] + at[0][0] + text[to[0].end() :]


def milestone_gone(text, rng):
    at = places(MILESTONE, text, rng)
    return at and text[: at[0].start()] + text[at[0].end() :]


def milestone_reformed(text, rng):
    at = places(MILESTONE, text, rng)
    if not at:
        return None
    old = at[0][0]
    new = rng.choice((
        old.replace(b" />", b">"), old.replace(b" />", b' sid="x" />'), old.replace(b" />", b' eid="x" />'), old.replace(b" />", b' x="y" />'),
        old.replace(b"sid=", b"eid="), old.replace(b"eid=", b"sid="), old.replace(b"<verse", b"<chapter"), old.replace(b"<chapter", b"<verse"),
        old.replace(b" />", b"></" + old[1:].split(b" ")[0] + b">"),
    ))
    return text[: at[0].start()] + new + text[at[0].end() :]


def pair_put_in(text, rng):
    at = places(TAG, text, rng, 2)
    name = rng.choice((b"chapter", b"verse"))
    start, end = b"<" + name + b' sid="q" />', b"<" + name + b' eid="q" />'
    return at and text[: at[0].end()] + start + text[at[0].end() : at[1].end()] + end + text[at[1].end() :]


def identifiers_exchanged(text, rng):
    at = places(IDENTIFIER, text, rng, 2)
    if not at:
        return None
    (a, b), (c, d) = at[0].span(1), at[1].span(1)
    return text[:a] + text[c:d] + text[b:c] + text[a:b] + text[d:]


def element_renamed(text, rng):
    at = places(ELEMENT, text, rng)
    slash = b"/" if at and at[0][0].startswith(b"/") else b""
    return at and text[: at[0].start()] + slash + rng.choice(NAMES) + text[at[0].end() :]


def element_put_around(text, rng):
    at, name = places(TAG, text, rng, 2), rng.choice(NAMES)
    return at and text[: at[0].end()] + b"<" + name + b">" + text[at[0].end() : at[1].start()] + b"</" + name + b">" + text[at[1].start() :]


def cut_off(text, rng):
    return text[: rng.randrange(len(text))] + rng.choice((b"", b"</usx>", b"</usx>", b"\n</usx>"))


def joined(text, rng):
    inner = text[len(b'<usx version="3.0">') : -len(b"</usx>")]
    return rng.choice((text + text, text + b"\n" + text, text[: -len(b"</usx>")] + inner + b"</usx>", text[: -len(b"</usx>")] + text + b"</usx>"))


def nested_deep(text, rng):
    at = places(TAG, text, rng)
    if not at:
        return None
    end = at[0].end()
    height = sum(0 if t.endswith(b"/>") else -1 if t.startswith(b"</") else 1 for t in TAG.findall(text[:end]))
    n, name = 160 - height + rng.choice((-1, 0, 1, 1, 2)), rng.choice(NAMES[4:])
    return text[:end] + (b"<" + name + b">") * n + rng.choice((b"", b"x", b"<ref />")) + (b"</" + name + b">") * n + text[end:]


KINDS = [
    byte_changed, byte_put_in, bytes_gone, quote_gone, tag_gone, tag_twice, tags_exchanged, milestone_copied, milestone_gone, milestone_reformed,
    pair_put_in, identifiers_exchanged, element_renamed, element_put_around, cut_off, joined, nested_deep,
]


def mutated(text, rng, kinds):
    """One mutation, and sometimes more."""
    while True:
        kind = rng.choice(KINDS)
        new = kind(text, rng)
        if new:
            kinds[kind.__name__] += 1
            if rng.randrange(6):
                return new
            text = new


# ---- answers


def reports(out):
    """What is written of each text: a refusal has two lines."""
    return re.findall(rb"accepted \d+ \d+\n|refused \d+\nat byte \d+, line \d+\n|.+\n", out)


def answer(report):
    words = report.split()
    return (0, int(words[1]), int(words[2])) if words[0] == b"accepted" else (int(words[1]), 0, 0)


def stream(texts):
    return b"".join(struct.pack("<I", len(t)) + t for t in texts)


def ours(texts):
    """What the proved checker writes of each text."""
    return reports(subprocess.run([RUN, "test_check_replay"], input=stream(texts), stdout=subprocess.PIPE, check=True).stdout)


def rust(texts):
    """What the Rust of oracle/src/check.rs writes of each text."""
    return reports(subprocess.run([TOOLS / "oracle", "check"], input=stream(texts), stdout=subprocess.PIPE, check=True).stdout)


def sample(what, seed, count, kinds):
    """Lists of texts, each as it is and with mutations: of files, or of a mode of `gen`."""
    rng = random.Random(seed)
    files = [pathlib.Path(f).read_bytes() for f in what if pathlib.Path(f).is_file()]
    for texts in [files] * count if files else written(what[0], seed, count):
        tried = []
        for text, report in zip(texts, rust(texts)):
            often = FEW if report.startswith(b"refused 11") else MUTATIONS
            tried += [t for t in [text] + [mutated(text, rng, kinds) for _ in range(often)] if len(t) <= LONGEST]
        yield tried
