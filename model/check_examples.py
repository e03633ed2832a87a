"""Runs every example of document 01 on the model:  python3 model/check_examples.py"""
from build import *
import model, checker
sz = 1 << 40
good = bad = 0
OPENING, CLOSING = '<usx version="3.0">', "\n</usx>"


def eq(label, got, want):
    global good, bad
    if got != want:
        bad += 1
        print("WRONG", label, "\n  got ", got, "\n  want", want)
    else:
        good += 1


def usx(children, **k):
    no, n, text = model.serialize(tape(children, **k), sz)
    assert no == 0, no
    return text.decode()


def doc(inner): return OPENING + inner + CLOSING
def para(inner, style="p"): return '\n  <para style="%s">%s</para>' % (style, inner)
def P(*kids): return M(r"\p", "p", kids, "b")


rootalone = tape([])
eq("1 root", model.serialize(rootalone, 26), (0, 26, b'<usx version="3.0">\n</usx>'))
eq("1 short", model.serialize(rootalone, 25), (8, 26, None))
eq("1 checked", checker.check(b'<usx version="3.0">\n</usx>'), (0, 0, 0))
eq("2 empty", model.serialize(b"", sz), (1, 0, None))
eq("2 no nodes", model.serialize(raw([], [], b""), sz), (2, 0, None))


def deep(n):
    kid = []
    for _ in range(n):
        kid = [M("", None, kid, "c")]
    return tape(kid)


eq("3 64", model.serialize(deep(64), sz)[0], 0)
eq("3 65", model.serialize(deep(65), sz), (6, 0, None))
t4 = doc('\n  <para style="p"><verse number="3" style="v" sid=" 1:3" />x</para><verse eid=" 1:3" />')
eq("4", usx([V(r"\v 3"), T(" x")]), t4)
eq("4 checked", checker.check(t4.encode()), (0, 0, 1))
eq("5 para", usx([P(T("a // b "))]), doc(para("a<optbreak />b")))
eq("5 note", usx([P(M(r"\f", "f", [T("+ "), T("a // b ")]))]),
   doc(para('<note caller="+" style="f">a // b</note>')))
eq("6", usx([P(T("a~//b"))]), doc(para("a<optbreak />b")))
eq("7", usx([P(T('<"&>'), M(r"\w", "w", [A('|<"&>')]))]),
   doc(para('&lt;"&amp;&gt;<char style="w" lemma="&lt;&quot;&amp;&gt;"></char>')))


def w(a): return usx([P(M(r"\w", "w", [A(a)]))])
def ww(attrs): return doc(para('<char style="w"%s></char>' % attrs))


eq("8a", w('|lemma strong="l"'), ww(' strong="l"'))
eq("8b", w("|=v"), ww(""))
eq("9a", w(r'|k="x\"y"'), ww(' k="x&quot;y"'))
eq("9b", w('|k="x'), ww(' k="x"'))
eq("10", usx([P(V(r"\v 1"), M(r"\va", "va", [T(" 2")]), M(r"\va", "va", [T(" 3")]))]),
   doc(para('<verse number="1" style="v" altnumber="2" sid=" 1:1" /><char style="va">3</char>')
       + '<verse eid=" 1:1" />'))
t11 = usx([P(V('\\v 1"'))])
eq("11", t11, doc(para('<verse number="1&quot;" style="v" sid=" 1:1&quot;" />') + '<verse eid=" 1:1"" />'))
eq("11 checked", checker.check(t11.encode()), (11, 0, 0))
eq("12", usx([M(r"\tr", "tr", [M(r"\tcr2", "tcr", [T("a")]), M(r"\thc1", "thc", [T("b")]), M(r"\tc1", "tc", [T("c")])], "b")]),
   doc('\n  <table>\n    <row style="tr">\n      <cell style="tcr2" align="end">a</cell>'
       '\n      <cell style="thc1" align="center">b</cell>\n      <cell style="tc1" align="start">c</cell>'
       '\n    </row>\n  </table>'))
eq("13", usx([P(M(r"\f", "f", [M(r"\nd", "nd", [T("x")])]))]),
   doc(para('<note caller="+" style="f"><char style="nd">x</char></note>')))

listing = tape([M(r"\id", "id", [T(" GEN x")], "b"), C("", "c", 2), M(r"\p", "p", [V(r"\v 1"), T(" Sing")], "b")],
               entries=[("id", 0, 0), ("c", 1, 0), ("p", 3, 0), ("v", 2, 0)])
want = b'''<usx version="3.0">
  <book code="GEN" style="id">x</book>
  <chapter number="2" style="c" sid="GEN 2" />
  <para style="p"><verse number="1" style="v" sid="GEN 2:1" />Sing</para><verse eid="GEN 2:1" /><chapter eid="GEN 2" />
</usx>'''
eq("listing nodes", int.from_bytes(listing[4:8], "little"), 9)
eq("listing", model.printing_program(listing), want)
eq("listing checked", checker.check(want), (0, 1, 1))
eq("too long to print", model.printing_program(b"\0" * 65537), b"refused 2 0\n")
eq("refused line", model.printing_program(b""), b"refused 1 0\n")

# checker, both sides
U = lambda s: b'<usx version="3.0">' + s + b"</usx>"
n160 = lambda k: U(b"<para>" * (k - 1) + b"</para>" * (k - 1))
for label, text, ans in [
        ("h160", n160(160), 0), ("h161", n160(161), 12), ("tail", U(b"") + b"\n", 11), ("amp", U(b"&"), 11),
        ("quot text", U(b"&quot;"), 11), ("gt", U(b"a>b"), 11), ("name", U(b"<p />"), 11), ("cross", U(b"<para><char></para></char>"), 13),
        ("usx twice", U(b'<usx version="3.0"></usx>'), 13), ("usx empty", U(b"<usx />"), 13), ("stray", U(b"</para>"), 13),
        ("verse open", U(b'<verse sid="a">' + b"</verse>"), 14), ("no end", U(b'<verse sid="a" />'), 14),
        ("ok", U(b'<chapter sid="c" /><verse sid="a" /><verse eid="a" /><chapter eid="c" />'), 0),
        ("crossing", U(b'<chapter sid="c" /><verse sid="a" /><chapter eid="c" /><verse eid="a" />'), 14),
        ("differs", U(b'<verse sid="a" /><verse eid="b" />'), 14), ("two ends", U(b'<verse sid="a" /><verse eid="a" /><verse eid="a" />'), 14),
        ("both", U(b'<verse sid="a" eid="a" />'), 14), ("two sids", U(b'<verse sid="a" sid="a" /><verse eid="a" />'), 14),
        ("end+", U(b'<verse sid="a" /><verse eid="a" style="v" />'), 14), ("key /", U(b'<para /="x" />'), 0), ("no key", U(b'<para ="x" />'), 11),
        ("low first", U(b"</para>" * 3 + b"<para>" * 3), 13), ("two spaces", U(b'<para  a="x">'), 11),
        ("nothing inside", U(b""), 0), ("12 before 13", U(b"<para>" * 160), 12)]:
    eq("checker " + label, checker.check(text)[0], ans)
print(f"model: {good} examples of document 01 right, {bad} wrong")
raise SystemExit(bad > 0)
