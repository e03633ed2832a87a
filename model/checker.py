"""The checker of finished text, by document 01.  check(text) -> (answer, chapters, verses)."""
import re

NAMES = b"usx|book|chapter|verse|para|char|note|ms|figure|table|row|cell|sidebar|periph|optbreak|ref"
KEY = rb'[^ ="<>&]+'
VALUE = rb'(?:[^"<>&]|&(?:lt|gt|amp|quot);)*'
ATTR = re.compile(rb' (' + KEY + rb')="(' + VALUE + rb')"', re.S)
TOKEN = re.compile(
    rb'(?P<text>(?:[^<>&]|&(?:lt|gt|amp);)+)'
    rb'|</(?P<close>' + NAMES + rb')>'
    rb'|<(?P<open>' + NAMES + rb')(?P<attrs>(?: ' + KEY + rb'="' + VALUE + rb'")*)(?P<end> />|>)', re.S)


def tokens(text):
    """None if not in tag form; else [('text', t) | ('close', n) | ('open'|'empty', n, attrs)]"""
    if not text.startswith(b'<usx version="3.0">') or not text.endswith(b"</usx>"):
        return None
    out, at = [], 0
    while at < len(text):
        m = TOKEN.match(text, at)
        if not m:
            return None
        if m["text"] is not None:
            out.append(("text", m["text"]))
        elif m["close"]:
            out.append(("close", m["close"]))
        else:
            out.append(("open" if m["end"] == b">" else "empty", m["open"], ATTR.findall(m["attrs"])))
        at = m.end()
    return out


def too_high(toks):
    h = 0
    for t in toks:
        h += (t[0] == "open") - (t[0] == "close")
        if h > 160:
            return True
    return False


def one_tree(toks):
    stack, closed = [], False
    for n, t in enumerate(toks):
        if closed:                      # something follows the close of usx
            return False
        if t[0] == "open":
            if t[1] == b"usx" and n > 0:
                return False
            stack.append(t[1])
        elif t[0] == "empty" and t[1] == b"usx":
            return False
        elif t[0] == "close":
            if not stack or stack.pop() != t[1]:
                return False
            closed = not stack
    return not stack


def milestones(toks):
    """None if against demand 3, else (chapters, verses)."""
    count = {b"chapter": 0, b"verse": 0}
    open_ = {b"chapter": None, b"verse": None}
    for t in toks:
        if t[0] == "text" or t[1] not in count:
            continue
        if t[0] != "empty":
            return None
        keys = [k for k, _ in t[2]]
        if t[1] == b"chapter" and open_[b"verse"] is not None:
            return None
        if keys == [b"eid"]:
            if open_[t[1]] != t[2][0][1]:
                return None
            open_[t[1]] = None
        elif keys.count(b"sid") == 1 and b"eid" not in keys:
            if open_[t[1]] is not None:
                return None
            open_[t[1]] = t[2][keys.index(b"sid")][1]
            count[t[1]] += 1
        else:
            return None
    return None if any(v is not None for v in open_.values()) else (count[b"chapter"], count[b"verse"])


def check(text):
    toks = tokens(text)
    if toks is None:
        return 11, 0, 0
    if too_high(toks):
        return 12, 0, 0
    if not one_tree(toks):
        return 13, 0, 0
    got = milestones(toks)
    if got is None:
        return 14, 0, 0
    return (0, *got)
