#!/usr/bin/env python3
"""Sheets for the programs `turn` and `turn-sheet`, with the answers an independent program gives.

usage: sheets.py make                         write tests/sheets/NAME.in and NAME.out afresh
       sheets.py check turn COMMAND..         run COMMAND on each NAME.in, as a file and through a pipe in small pieces
       sheets.py check turn-sheet COMMAND..   the same of the program with an exit status

The answers are computed here from document 01: the sheet is split into lines and fields, every word is copied to its new
coordinates. Nothing is moved in place and no code is shared with the library. `check` compares all bytes with NAME.out, tries
input that cannot be read and output that cannot be written, and ends with a line `N passed, M failed`.
"""
import array
import fcntl
import itertools
import os
import re
import subprocess
import sys
import termios
import time

HERE = os.path.dirname(os.path.abspath(__file__))
FOLDER = os.path.join(HERE, "sheets")
LARGEST = 4294967295


# ---- what document 01 says of a sheet ----

class Refused(Exception):
    def __init__(self, number, place=0):
        super().__init__(number, place)
        self.number, self.place = number, place


class Lines:
    """The sheet line by line, each closed by one LF."""

    def __init__(self, data):
        self.left, self.number = data, 0

    def record(self, word, count=None):
        """The numbers of the next line, which must be `word` and `count` numbers (any count where None)."""
        self.number += 1
        text, closed, rest = self.left.partition(b"\n")
        fields = text.split(b"\t")
        if not closed or fields[0] != word or (count is not None and len(fields) != count + 1):
            raise Refused(10, self.number)
        values = []
        for field in fields[1:]:
            if not re.fullmatch(rb"0|[1-9][0-9]*", field) or int(field) > LARGEST:
                raise Refused(10, self.number)
            values.append(int(field))
        self.left = rest
        return values

    def end(self):
        if self.left:
            raise Refused(10, self.number + 1)


def read(data):
    """Lengths, chain and words of a sheet, in the reading order of document 01."""
    if len(data) > 16384:
        raise Refused(9)
    lines = Lines(data)
    lens = lines.record(b"shape", 4)
    if any(d == 0 or d > 4096 for d in lens):
        raise Refused(1)
    size = lens[0] * lens[1] * lens[2] * lens[3]
    if size > 1024:
        raise Refused(11)
    chain = lines.record(b"chain")
    if len(chain) > 32:
        raise Refused(5)
    for place, swap in enumerate(chain):
        if swap > 2:
            raise Refused(6, place)
    words = []
    for _ in range(lens[0] * lens[1] * lens[2]):
        words += lines.record(b"row", lens[3])
    lines.end()
    return lens, chain, words


def line(word, values):
    return b"\t".join([word] + [b"%d" % v for v in values]) + b"\n"


def order_of(chain):
    order = [0, 1, 2, 3]
    for swap in chain:
        order[swap], order[swap + 1] = order[swap + 1], order[swap]
    return tuple(order)


def rows(lens, words):
    width = lens[3]
    return b"".join(line(b"row", words[at:at + width]) for at in range(0, len(words), width))


ORDERS = list(itertools.permutations(range(4)))


def answer(data):
    """What `turn` prints for these bytes."""
    try:
        lens, chain, words = read(data)
    except Refused as refused:
        return line(b"refused", [refused.number, refused.place])
    order = order_of(chain)
    new = [lens[axis] for axis in order]
    at = {}
    for word, x in zip(words, itertools.product(*(range(d) for d in lens))):
        at[tuple(x[axis] for axis in order)] = word
    copied = [at[y] for y in itertools.product(*(range(d) for d in new))]
    return line(b"shape", new) + line(b"order", [ORDERS.index(order)]) + rows(new, copied)


# ---- the sheets ----

def sheet(lens, chain, words=None):
    size = lens[0] * lens[1] * lens[2] * lens[3]
    if words is None:
        words = [(k * 2654435761 + 12345) % (LARGEST + 1) for k in range(size)]
    return line(b"shape", lens) + line(b"chain", chain) + rows(lens, words)


def plain(text):
    return text.encode("latin-1")


def shortest_chains():
    """A shortest chain for each of the 24 orders."""
    found = {(0, 1, 2, 3): []}
    ahead = [(0, 1, 2, 3)]
    for order in ahead:
        for swap in range(3):
            step = list(order)
            step[swap], step[swap + 1] = step[swap + 1], step[swap]
            if tuple(step) not in found:
                found[tuple(step)] = found[order] + [swap]
                ahead.append(tuple(step))
    return [found[order] for order in ORDERS]


EXAMPLE = "shape\t1\t1\t2\t3\nchain\t2\nrow\t1\t2\t3\nrow\t4\t5\t6\n"
HEAD = "shape\t1\t1\t2\t3\nchain\t2\n"
ROWS = "row\t1\t2\t3\nrow\t4\t5\t6\n"
ONE = "shape\t1\t1\t1\t1\nchain\nrow\t7\n"


def benches():
    yield "example", EXAMPLE
    yield "example-refused", EXAMPLE.replace("chain\t2", "chain\t3")
    yield "empty-sheet", ""
    yield "leading-zeros-in-a-row", EXAMPLE.replace("\t6\n", "\t007\n")
    yield "leading-zeros-in-the-shape", EXAMPLE.replace("\t3\nchain", "\t03\nchain")
    yield "leading-zeros-in-the-chain", EXAMPLE.replace("chain\t2", "chain\t02")
    yield "extra-lf", EXAMPLE + "\n"
    yield "one-word", ONE
    yield "zero-is-a-number", ONE.replace("7", "0")
    yield "two-zeros-are-none", ONE.replace("7", "00")
    yield "chain-of-none", EXAMPLE.replace("chain\t2", "chain")
    yield "chain-of-an-empty-field", EXAMPLE.replace("chain\t2", "chain\t")


def forms():
    yield "line-1-unclosed", "shape\t1\t1\t2\t3"
    yield "line-1-three-numbers", EXAMPLE.replace("shape\t1", "shape")
    yield "line-1-five-numbers", EXAMPLE.replace("shape", "shape\t1")
    yield "line-1-other-word", EXAMPLE.replace("shape", "Shape")
    yield "line-1-longer-word", EXAMPLE.replace("shape", "shapes")
    yield "line-1-shorter-word", EXAMPLE.replace("shape", "shap")
    yield "line-1-leading-tab", "\t" + EXAMPLE
    yield "line-1-leading-space", " " + EXAMPLE
    yield "line-1-spaces-for-tabs", EXAMPLE.replace("shape\t1\t1", "shape 1 1")
    yield "line-1-empty", "\n" + EXAMPLE
    yield "line-1-cut-in-its-word", "sha"
    yield "line-2-missing", "shape\t1\t1\t2\t3\n"
    yield "line-2-unclosed", "shape\t1\t1\t2\t3\nchain\t2"
    yield "line-2-other-word", EXAMPLE.replace("chain", "order")
    yield "line-2-is-a-row", "shape\t1\t1\t2\t3\n" + ROWS
    yield "line-2-longer-word", EXAMPLE.replace("chain", "chains")
    yield "line-2-trailing-tab", EXAMPLE.replace("chain\t2", "chain\t2\t")
    yield "line-2-doubled-tab", EXAMPLE.replace("chain\t2", "chain\t\t2")
    yield "lines-1-and-2-exchanged", "chain\t2\nshape\t1\t1\t2\t3\n" + ROWS
    yield "rows-missing", HEAD
    yield "last-row-missing", HEAD + "row\t1\t2\t3\n"
    yield "row-too-short", EXAMPLE.replace("row\t4\t5\t6", "row\t4\t5")
    yield "row-too-long", EXAMPLE.replace("row\t4\t5\t6", "row\t4\t5\t6\t7")
    yield "row-without-words", EXAMPLE.replace("row\t4\t5\t6", "row")
    yield "row-other-word", EXAMPLE.replace("row\t4", "rows\t4")
    yield "row-trailing-tab", EXAMPLE.replace("\t6\n", "\t6\t\n")
    yield "row-doubled-tab", EXAMPLE.replace("\t5", "\t\t5")
    yield "row-trailing-space", EXAMPLE.replace("\t6\n", "\t6 \n")
    yield "row-of-a-sign", EXAMPLE.replace("\t5", "\t+5")
    yield "row-of-a-minus", EXAMPLE.replace("\t5", "\t-5")
    yield "row-of-hex", EXAMPLE.replace("\t5", "\t0x5")
    yield "row-of-a-fraction", EXAMPLE.replace("\t5", "\t5.0")
    yield "row-left-over", EXAMPLE + "row\t7\t8\t9\n"
    yield "byte-left-over", EXAMPLE + "x"
    yield "tab-left-over", EXAMPLE + "\t"
    yield "last-line-unclosed", EXAMPLE[:-1]
    yield "line-feed-between-rows", HEAD + "row\t1\t2\t3\n\nrow\t4\t5\t6\n"


def bytes_of_all_kinds():
    yield "cr-lf-everywhere", EXAMPLE.replace("\n", "\r\n")
    yield "cr-lf-in-line-2", EXAMPLE.replace("chain\t2\n", "chain\t2\r\n")
    yield "cr-lf-in-the-last-row", EXAMPLE[:-1] + "\r\n"
    yield "cr-after-the-last-lf", EXAMPLE + "\r"
    yield "nul-in-a-row", EXAMPLE.replace("\t5", "\t\x005")
    yield "nul-for-a-tab", EXAMPLE.replace("\t5", "\x005")
    yield "nul-after-a-number", EXAMPLE.replace("\t5", "\t5\x00")
    yield "nul-left-over", EXAMPLE + "\x00"
    yield "nul-alone", "\x00"
    yield "byte-177-in-a-row", EXAMPLE.replace("\t5", "\t\xb1")
    yield "byte-255-in-the-word", "\xffhape" + EXAMPLE[5:]
    yield "byte-178-after-a-digit", EXAMPLE.replace("chain\t2", "chain\t2\xb2")
    yield "digits-of-another-script", EXAMPLE.replace("\t5", "\t\xd9\xa5")
    yield "byte-order-mark", "\xef\xbb\xbf" + EXAMPLE
    yield "byte-above-9", EXAMPLE.replace("\t5", "\t:")
    yield "byte-below-0", EXAMPLE.replace("\t5", "\t/")
    yield "word-4294967295", ONE.replace("7", "4294967295")
    yield "word-4294967296", ONE.replace("7", "4294967296")
    yield "word-of-twenty-digits", ONE.replace("7", "18446744073709551616")
    yield "word-of-twenty-digits-that-wraps", ONE.replace("7", "18446744073709551623")
    yield "word-of-two-hundred-digits", ONE.replace("7", "1" * 200)
    yield "length-4294967295", ONE.replace("shape\t1", "shape\t4294967295")
    yield "length-4294967296", ONE.replace("shape\t1", "shape\t4294967296")
    yield "length-4294967297", ONE.replace("shape\t1", "shape\t4294967297")
    yield "swap-4294967295", EXAMPLE.replace("chain\t2", "chain\t4294967295")
    yield "swap-4294967296", EXAMPLE.replace("chain\t2", "chain\t4294967296")
    yield "swap-256", EXAMPLE.replace("chain\t2", "chain\t2\t256")
    yield "swap-65536", EXAMPLE.replace("chain\t2", "chain\t2\t2\t65536")


def refusals():
    yield "length-0", ONE.replace("shape\t1", "shape\t0")
    yield "last-length-0", ONE.replace("1\nchain", "0\nchain")
    yield "length-4096-is-too-big-a-sheet", "shape\t4096\t1\t1\t1\nchain\n"
    yield "length-4097", "shape\t1\t4097\t1\t1\nchain\n"
    yield "words-1025", "shape\t1025\t1\t1\t1\nchain\n"
    yield "words-1025-in-two-axes", "shape\t1\t25\t1\t41\nchain\n"
    yield "words-two-to-the-48", "shape\t4096\t4096\t4096\t4096\nchain\n"
    yield "swap-3-at-the-first-place", EXAMPLE.replace("chain\t2", "chain\t3\t3\t2")
    yield "swap-3-at-the-third-place", EXAMPLE.replace("chain\t2", "chain\t0\t2\t3\t9")
    yield "chain-of-32", sheet([2, 3, 2, 5], [k * 7 % 3 for k in range(32)])
    yield "chain-of-32-that-goes-home", sheet([2, 3, 2, 5], [0, 1, 2, 2, 1, 0] * 5 + [1, 1])
    yield "chain-of-32-with-a-swap-3-last", line(b"shape", [1, 1, 2, 3]) + line(b"chain", [1] * 31 + [3]) + plain(ROWS)
    yield "chain-of-33", sheet([2, 3, 2, 5], [0] * 33)


def two_faults():
    yield "faults-9-and-10", "shape\tx\n" + "y" * 16377
    yield "faults-10-line-1-and-1", "shape\t0\t1\t1\tx\nchain\n"
    yield "faults-unclosed-line-1-and-1", "shape\t0\t1\t1\t1"
    yield "faults-1-and-11", "shape\t4097\t1\t1\t1\nchain\n"
    yield "faults-1-and-11-a-zero-among-giants", "shape\t4096\t4096\t4096\t0\nchain\n"
    yield "faults-1-and-10-line-2", "shape\t0\t1\t1\t1\nchian\n"
    yield "faults-11-and-10-line-2", "shape\t1025\t1\t1\t1\nchian\n"
    yield "faults-11-and-unclosed-line-2", "shape\t33\t1\t1\t32\nchain\t2"
    yield "faults-10-line-2-and-5", line(b"shape", [1, 1, 2, 3]) + line(b"chain", [0] * 33)[:-1] + b"\tx\n" + plain(ROWS)
    yield "faults-unclosed-line-2-and-5", line(b"shape", [1, 1, 2, 3]) + line(b"chain", [0] * 33)[:-1]
    yield "faults-10-line-2-and-6", EXAMPLE.replace("chain\t2", "chain\t3\t02")
    yield "faults-5-and-6", line(b"shape", [1, 1, 2, 3]) + line(b"chain", [3] + [0] * 32) + plain(ROWS)
    yield "faults-6-and-10-line-3", "shape\t1\t1\t2\t3\nchain\t2\t5\nrow\t1\t2\n" + "row\t4\t5\t6\n"
    yield "faults-6-and-no-rows", "shape\t1\t1\t2\t3\nchain\t2\t5\n"
    yield "faults-5-and-10-line-3", line(b"shape", [1, 1, 2, 3]) + line(b"chain", [0] * 33) + b"row\n"
    yield "faults-10-lines-3-and-4", HEAD + "row\t1\t2\nrow\t4\t5\n"
    yield "faults-10-line-4-and-left-over", HEAD + "row\t1\t2\t3\nrow\t4\t5\t6\t7\nrow\t8\n"
    yield "faults-row-cut-and-left-over", HEAD + "row\t1\t2\t3\nrow\t4\t5"


def sizes():
    great = [LARGEST] * 1024
    full = sheet([1024, 1, 1, 1], [0, 1] * 16, great)
    yield "longest-right-sheet", full
    yield "longest-result-sheet", sheet([1024, 1, 1, 1], [0, 1, 2, 0, 1, 0, 2], great)
    yield "bytes-16384-left-over", full + b"x" * (16384 - len(full))
    yield "bytes-16384-of-lf-left-over", full + b"\n" * (16384 - len(full))
    yield "bytes-16385-left-over", full + b"x" * (16385 - len(full))
    yield "bytes-16384-of-one-line", b"x" * 16384
    yield "bytes-16385-of-one-line", b"x" * 16385
    yield "bytes-16386-of-zeros", b"\x00" * 16386
    yield "bytes-100000", full * 6 + b"x" * (100000 - 6 * len(full))
    yield "words-1024-in-one-row", sheet([1, 1, 1, 1024], [2])
    yield "words-1024-in-one-column", sheet([1024, 1, 1, 1], [0, 1, 2])
    yield "words-1024-square", sheet([1, 1, 32, 32], [2, 1])
    yield "words-1024-of-four-axes", sheet([4, 8, 2, 16], [1, 0, 2, 1])
    yield "words-1023", sheet([3, 11, 31, 1], [0, 2, 1])
    yield "rows-1024-and-one-left-over", full + b"row\t1\n"
    yield "rows-1024-and-the-last-missing", full[:-15]
    yield "rows-1024-and-the-last-unclosed", full[:-1]
    yield "rows-1024-and-the-last-too-big", full[:-3] + b"6\n"


def orders():
    for number, chain in enumerate(shortest_chains()):
        yield "order-%02d" % number, sheet([2, 3, 4, 5], chain)
    yield "equal-lengths-one-swap", sheet([2, 2, 2, 2], [1], list(range(16)))
    yield "equal-lengths-order-9", sheet([2, 2, 2, 2], [0, 1, 2], list(range(16)))
    yield "equal-lengths-order-18", sheet([2, 2, 2, 2], [2, 1, 0], list(range(16)))
    yield "shared-factor", sheet([1, 6, 4, 3], [1], list(range(72)))
    yield "axes-of-length-1", sheet([1, 5, 1, 3], [0, 1, 2, 0, 1], list(range(15)))


GROUPS = [benches, forms, bytes_of_all_kinds, refusals, two_faults, sizes, orders]


def make():
    os.makedirs(FOLDER, exist_ok=True)
    for name in os.listdir(FOLDER):
        if name.endswith((".in", ".out")):
            os.remove(os.path.join(FOLDER, name))
    names = set()
    for group in GROUPS:
        for name, data in group():
            data = plain(data) if isinstance(data, str) else data
            if name in names:
                sys.exit("two sheets are named " + name)
            names.add(name)
            for ending, content in ((".in", data), (".out", answer(data))):
                with open(os.path.join(FOLDER, name + ending), "wb") as out:
                    out.write(content)
    print(len(names), "sheets")


# ---- the program run on them ----

def run_on_file(words, path):
    with open(path, "rb") as given:
        done = subprocess.run(words, stdin=given, stdout=subprocess.PIPE, stderr=subprocess.PIPE, timeout=60)
    return done.returncode, done.stdout, done.stderr


def run_in_pieces(words, path):
    """Each piece goes into the pipe only when the one before it has been taken out."""
    with open(path, "rb") as given:
        data = given.read()
    size = 1 if len(data) < 100 else max(7, len(data) // 50)
    taken, given = os.pipe()
    child = subprocess.Popen(words, stdin=taken, stdout=subprocess.PIPE, stderr=subprocess.PIPE)
    waiting = array.array("i", [0])
    for at in range(0, len(data), size):
        os.write(given, data[at:at + size])
        while child.poll() is None:
            fcntl.ioctl(taken, termios.FIONREAD, waiting)
            if waiting[0] == 0:
                break
            time.sleep(0.0002)
        if child.poll() is not None:
            break
    os.close(given)
    os.close(taken)
    out, err = child.communicate(timeout=60)
    return child.returncode, out, err


# Of each program what a right run leaves beside its output, as (status, standard error), for a sheet that is done, one that is refused, and the two faults. `turn` has
# no status, and tells of a fault alone.
PROGRAMS = {
    "turn": {"done": (0, b""), "refused": (0, b""), "unread": (0, rb"read: [^\n]+\n"), "unwritten": (0, rb"write: [^\n]+\n")},
    "turn-sheet": {
        "done": (0, b""),
        "refused": (1, rb"turn-sheet: standard input: [^\n]+ \(number \d+, place \d+\)\n(turn-sheet: the [^\n]+\n)*"),
        "unread": (2, rb"turn-sheet: standard input: [^\n]+\n"),
        "unwritten": (2, rb"turn-sheet: standard output: [^\n]+\n"),
    },
}


def faults(words):
    """Input that cannot be read and output that cannot be written: nothing is printed but a line on standard error."""
    with open(os.path.join(FOLDER, "example.in"), "rb") as given, open("/dev/full", "wb") as full:
        folder = os.open(FOLDER, os.O_RDONLY)
        unread = subprocess.run(words, stdin=folder, stdout=subprocess.PIPE, stderr=subprocess.PIPE, timeout=60)
        os.close(folder)
        unwritten = subprocess.run(words, stdin=given, stdout=full, stderr=subprocess.PIPE, timeout=60)
    yield "unread", unread.returncode, unread.stdout, unread.stderr
    yield "unwritten", unwritten.returncode, b"", unwritten.stderr


def check(program, words):
    passed = failed = 0

    def expect(what, kind, expected, status, out, err):
        nonlocal passed, failed
        wanted, says = PROGRAMS[program][kind]
        if (status, out) == (wanted, expected) and re.fullmatch(says, err):
            passed += 1
        else:
            failed += 1
            print("%s: status %d for %d, %d bytes for %d, %r for %r, %r" % (what, status, wanted, len(out), len(expected), out[:60], expected[:60], err[:200]))

    names = sorted(name[:-3] for name in os.listdir(FOLDER) if name.endswith(".in"))
    for name in names:
        path = os.path.join(FOLDER, name)
        with open(path + ".out", "rb") as out:
            expected = out.read()
        kind = "refused" if expected.startswith(b"refused") else "done"
        for way, run in (("as a file", run_on_file), ("in pieces", run_in_pieces)):
            expect("%s, %s" % (name, way), kind, expected, *run(words, path + ".in"))
    for kind, status, out, err in faults(words):
        expect(kind, kind, b"", status, out, err)
    print("%s: %d sheets, each as a file and in pieces" % (program, len(names)))
    print("%d passed, %d failed" % (passed, failed))
    return 0 if passed and not failed else 1


if __name__ == "__main__":
    if sys.argv[1:] == ["make"]:
        make()
    elif len(sys.argv) > 3 and sys.argv[1] == "check" and sys.argv[2] in PROGRAMS:
        sys.exit(check(sys.argv[2], sys.argv[3:]))
    else:
        sys.exit(__doc__)
