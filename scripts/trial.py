"""What the tests of programs share: where things stand, the oracle's tools and streams, and the comparison that ends a test."""
import pathlib, struct, subprocess, sys

ROOT = pathlib.Path(__file__).resolve().parent.parent
TOOLS = ROOT / "oracle" / "target" / "release"
# The longest tape file: header, nodes, entries, names, source.
LONGEST = 36 + 16 * 262144 + 8 * 1024 + 16384 + 4194304


def same(what, found, meant):
    """Ends the test with a message where the two differ; of tuples by their first part that does."""
    if found == meant:
        return
    if isinstance(found, tuple) and isinstance(meant, tuple):
        for pair in zip(found, meant):
            same(what, *pair)
    found, meant = behind_difference(found, meant)
    sys.exit(f"{pathlib.Path(sys.argv[0]).name}: {what}: {found!r:.600} in place of {meant!r:.600}")


def behind_difference(found, meant):
    """Both from their first difference on, or from a little before it."""
    if type(found) is not type(meant) or not isinstance(found, (str, bytes, list)):
        return found, meant
    at = next((i for i, (one, other) in enumerate(zip(found, meant)) if one != other), min(len(found), len(meant)))
    at = at if isinstance(found, list) else max(at - 40, 0)
    return found[at:], meant[at:]


def tool(name, *words, given=b""):
    """What one of the oracle's programs writes."""
    return subprocess.run([TOOLS / name, *words], input=given, stdout=subprocess.PIPE, check=True).stdout


def items(stream, head):
    """The numbers and the bytes of each item of a stream, the last number being how many bytes there are."""
    at = 0
    while at < len(stream):
        numbers = struct.unpack_from(head, stream, at)
        at += struct.calcsize(head)
        yield numbers, stream[at : at + numbers[-1]]
        at += numbers[-1]


def stream_of(parts):
    """Tapes or texts as a stream."""
    return b"".join(struct.pack("<I", len(part)) + part for part in parts)


def rust_answers(stream):
    """The Rust's number and text of each tape of a stream."""
    return [(number, text) for (number, _), text in items(tool("oracle", "stream", given=stream), "<BI")]
