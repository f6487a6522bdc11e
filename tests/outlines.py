"""Files whose boxes are to be seen, and the outline of each.

A file that is made for this has the text that the documents give for it, told from how it was made and not read from its bytes;
for files of the other tests it is worked out from the bytes alone. The answers worked out apart from these cases must agree."""
import re

import answers
import dumps
import files
import forms
import salvages
from files import LONGEST, REAL, Box, h, w

# what opens, wherever it stands
SEVEN = ["moov", "trak", "mdia", "minf", "dinf", "stbl", "udta"]
# a container this deep isn't opened
DEEP = 16


def lay(*parts):
    return files.lay(parts, 0, 0)


def free(length=0, **form):
    return Box("free", bytes(length), **form)


# ---- The text of a file, as it was made


def named(code):
    return code if code.isascii() and code.isprintable() else "0x" + "".join("%02X" % ord(letter) for letter in code)


def text(*lines):
    """(code, place, size, depth) of each box in turn, and the place alone of what is broken."""
    said = ""
    for line in lines:
        said += "broken place %d\n" % line if isinstance(line, int) else "box %s place %d size %d depth %d\n" % (named(line[0]), *line[1:])
    return said.encode()


def lines_of(body, at=0, depth=1):
    """The lines of what was made: loose bytes, and a box with another size than its own, are broken and end their list."""
    for part in body:
        if not isinstance(part, Box) or part.size is not None:
            yield at
            return
        size = len(lay(part))
        yield part.code, at, size, depth
        if part.code in SEVEN and depth < DEEP:
            yield from lines_of(part.body, at + part.head, depth + 1)
        at += size


def made(name, *parts):
    return name, lay(*parts), text(*lines_of(parts))


# ---- What opens, and where


def alone():
    """Each container at the top: empty, with a box, with two, and with loose bytes; with a box behind it."""
    for code in SEVEN:
        yield made("empty-" + code, Box(code))
        yield made("empty-%s-between" % code, free(), Box(code), free(1))
        yield made("%s-with-free" % code, Box(code, free(3)), free())
        yield made("%s-with-two" % code, Box(code, free(), Box("skip", b"1")))
        yield made("%s-with-loose" % code, Box(code, b"123"), free())


def pairs():
    """Each container in each, also where no file has it."""
    for outer in SEVEN:
        for inner in SEVEN:
            yield made("%s-in-%s" % (inner, outer), Box(outer, free(), Box(inner, free(2)), free()), free(1))
    yield made("each-in-each", *[Box(outer, *[Box(inner, free()) for inner in SEVEN]) for outer in SEVEN])


OTHERS = ["free", "mdat", "stsd", "dref", "edts", "meta", "ilst", "moof", "mvex", "tref", "MOOV", "Udta", "udtA", "tdua", "    "]


def closed():
    """What doesn't open, though it holds boxes; and none of the seven opens inside it."""
    for code in OTHERS:
        yield made("%s-with-moov" % code, Box(code, Box("moov", free())), Box("moov", Box(code, Box("udta", b"1")), free()))
    for code in SEVEN:
        bent = [Box(code[:at] + chr(ord(code[at]) ^ bits) + code[at + 1 :], free()) for at in range(4) for bits in (1, 32, 128)]
        yield made("%s-bent" % code, *bent, Box("moov", *bent), Box(code, free()))
    entry = Box("samr", bytes(6), h(1), Box("moov", free()))
    table = files.listed("stsd", entry, Box("trak", free()))
    yield made("stsd-with-entries", Box("stbl", table, free()), table)
    yield made("dref-with-entries", Box("dinf", files.listed("dref", files.url(), Box("dinf", free())), free()))
    yield made("mdat-of-loose-bytes", Box("mdat", b"123"), Box("moov", Box("mdat", b"1234567")))


def user_data():
    """`udta` in a `trak`, in a `moov` and by itself, with boxes, a text that is none, and zeros at the end as some write them."""
    notes = [("empty", []), ("boxes", [Box("cprt", b"anybody"), Box("titl", b"")]), ("text", [b"a text that is no box at all"])]
    notes += [("short-text", [b"1234567"]), ("four-zeros", [Box("cprt", b"x"), w(0)]), ("eight-zeros", [Box("cprt", b"x"), w(0, 0)])]
    notes += [("udta", [Box("udta", Box("cprt"))]), ("moov", [Box("moov", Box("trak", Box("udta")))]), ("meta", [Box("meta", w(0), free())])]
    notes += [("sign", [Box("\xa9nam", b"name"), Box("\xa9day")])]
    for name, body in notes:
        yield made("udta-of-%s-at-top" % name, Box("udta", *body), free())
        f = files.movie()
        files.get(f, "moov").body.append(Box("udta", *body))
        files.get(f, "trak").body.insert(1, Box("udta", *body))
        yield "udta-of-%s-in-movie" % name, files.build(f), text(*lines_of(f))


# ---- Depth


def nest(codes, *inside, behind=(), wide=False):
    """A container in a container, as many as there are codes; behind each, but the outermost, what stands there."""
    body = list(inside)
    for code in codes[::-1]:
        body = [Box(code, *body, wide=wide), *behind]
    return body[0]


def cycle(n, first=0):
    return [SEVEN[(first + k) % 7] for k in range(n)]


LEAVES = [("nothing", []), ("free", [free()]), ("trak", [Box("trak"), free()]), ("udta-of-free", [Box("udta", free())]), ("loose", [b"12345"])]
LEAVES += [("past", [free(), free(size=9)]), ("wide-moov", [Box("moov", free(), wide=True)])]


def depths():
    """Nests around the deepest that is opened and the first that isn't, with something in the innermost."""
    for n in (14, 15, 16, 17):
        for what, inside in LEAVES:
            yield made("nest-moov-%d-%s" % (n, what), nest(["moov"] * n, *inside), free())
            yield made("nest-all-%d-%s" % (n, what), nest(cycle(n, n), *inside), free())
    for n in (1, 2, 3, 13, 18, 19, 40):
        yield made("nest-udta-%d" % n, nest(["udta"] * n, free()), free())
    for n in (15, 16, 17, 30):
        yield made("nest-behind-%d" % n, nest(cycle(n), free(), behind=[free(), Box("skip", b"12")]), free())
        yield made("nest-broken-behind-%d" % n, nest(cycle(n, 3), free(), behind=[free(), b"123"]), free())
        yield made("nest-moov-behind-%d" % n, nest(cycle(n, 5), free(), behind=[Box("moov", free()), free()]), free())
        yield made("nest-wide-%d" % n, nest(cycle(n), free(), wide=True), free())
    for code in SEVEN:
        yield made("%s-at-15-and-16" % code, nest(["moov"] * 14, Box(code, Box(code, Box(code)), free()), free()), free())
        yield made("udta-at-15-%s-at-16" % code, nest(["udta"] * 15, Box(code, b"1"), Box(code, free(), wide=True), free()))
    many = [Box(code, free(), b"12") for code in ("moov", "free", "trak", "mdat", "udta")]
    for n in (13, 14, 15):
        yield made("several-in-nest-%d" % n, nest(["minf"] * n, *many), free())
    yield made("nests-of-16-side-by-side", nest(["moov"] * 16, free()), nest(["udta"] * 17, free()), nest(["stbl"] * 15, free()))
    yield made("nests-of-16-in-nest", nest(["dinf"] * 8, nest(["moov"] * 8, free()), nest(["udta"] * 9, free()), free()), free())


# ---- Codes


EDGES = (0x00, 0x09, 0x0A, 0x1F, 0x20, 0x21, 0x7E, 0x7F, 0x80, 0xA9, 0xFE, 0xFF)
STRANGE = ["    ", "~~~~", "\0\0\0\0", "\xff\xff\xff\xff", "0x20", "0x4A", "box ", " a b", "%s%d", "\\n\"'", "\x01\x23\x45\x67", "\x89\xab\xcd\xef"]
STRANGE += ["moo\n", "\nbox", "\xa9nam", "fre\xe9", "\x7f~ \x1f", "A\0BC", "\x1f\x1f\x1f\x1f", "\x7f\x7f\x7f\x7f"]


def codes():
    """Each edge of what is printed in each of the four places, at the top and below; codes that look like something else."""
    for edge in EDGES:
        four = [Box("free"[:at] + chr(edge) + "free"[at + 1 :], b"1") for at in range(4)]
        yield made("code-byte-%02x" % edge, *four, Box("moov", *four), *[Box(box.code, wide=True) for box in four])
    for at in range(4):
        yield made("code-bytes-at-%d" % at, *[Box("abcd"[:at] + chr(byte) + "abcd"[at + 1 :]) for byte in range(256)])
    for code in STRANGE:
        yield made("code-%s" % code.encode("latin-1").hex(), Box(code), Box("udta", Box(code, free())))
    yield made("all-strange-codes", *[Box(code) for code in STRANGE], nest(["moov"] * 15, *[Box(code) for code in STRANGE]))


# ---- What doesn't fit


def around(bad):
    """What is bad first, later, and in lists whose parents go on; boxes behind it are not looked at."""
    yield "first", [*bad, free(), Box("moov")]
    yield "second", [Box("moov", free()), *bad, free()]
    yield "in-moov", [Box("moov", *bad, free()), free()]
    yield "in-all", [Box("moov", Box("trak", free(), Box("mdia", free(), *bad, free()), free(1)), free(2)), free(3), Box("udta", free())]
    yield "at-16", [nest(cycle(15), free(), *bad, free(), behind=[free()]), free()]


def short_sizes():
    """Size fields under a header's length; 0 only below the top, and 1 is that of a wide box."""
    for size in range(2, 8):
        for where, parts in around([free(size=size)]):
            yield made("size-%d-%s" % (size, where), *parts)
    for where, parts in list(around([free(size=0)]))[2:]:
        yield made("size-0-" + where, *parts)
    for code in SEVEN:
        yield made("size-0-last-in-" + code, Box(code, free(), Box(code, free(), size=0)), Box(code, Box("moov", size=0)), free())
        yield made("size-7-" + code, Box(code, free(), Box(code, free(), size=7)), Box(code, free(), size=7))


def past():
    """A box that ends past its parent, by a byte, at the end of what holds that, and far off; a container is then not opened."""
    for code in ("free", "trak"):
        # from the box at 40 its `mdia` goes on for 32 bytes, `trak` for 40, `moov` for 56, the file for 64; with 2^32 - 40 its end is 2^32
        for size in (33, 39, 40, 41, 56, 57, 64, 65, 2**31 - 1, 2**31, 2**32 - 41, 2**32 - 40, 2**32 - 1):
            bad = Box(code, free(8), free(), size=size)
            parts = [free(), Box("moov", Box("trak", Box("mdia", free(), bad), free()), free(), free()), free()]
            yield made("%s-past-%d" % (code, size), *parts)
        for depth in (2, 3, 15, 16):
            for more in (1, 8, 9):
                bad = Box(code, free(), size=16 + more)
                yield made("%s-past-by-%d-at-%d" % (code, more, depth), nest(cycle(depth - 1), free(), bad, behind=[free()]), free())
        for size in (17, 24, 2**31, 2**32 - 8, 2**32 - 1):
            yield made("%s-past-%d-at-top" % (code, size), free(), Box(code, free(), size=size))
            yield made("%s-past-%d-alone" % (code, size), Box(code, free(), size=size))
    for code in SEVEN:
        yield made("%s-past-in-%s" % (code, code), Box(code, Box(code, free(), size=17)), Box(code, free(), size=99))


def rests():
    """1 to 7 bytes at the end of a list: zeros, and the start of a header; at the top, in containers, and in the deepest list."""
    for n in range(1, 8):
        for what, rest in (("zeros", bytes(n)), ("header", lay(free())[:n]), ("moov", lay(Box("moov", size=1))[:n])):
            yield made("rest-%d-of-%s" % (n, what), free(), rest)
            yield made("rest-%d-of-%s-in-moov" % (n, what), Box("moov", free(), rest), free())
        inner = Box("stbl", free(), bytes(n))
        yield made("rest-%d-in-stbl" % n, Box("moov", Box("trak", inner, free(), b"z" * n), free()), free(), b"1" * (8 - n))
        yield made("rest-%d-at-16" % n, nest(cycle(15, n), free(), b"a" * n, behind=[Box("skip", b"1")]), free())
        yield made("rest-%d-at-17" % n, nest(cycle(16, n), b"a" * n, behind=[Box("skip", b"1")]), free())


def levels():
    """Lists of four depths, each broken or whole: every choice."""
    ends = [free(size=7), b"12345", free(size=99), Box("trak", wide=True, size=15)]
    for choice in range(16):
        body = []
        for depth in (4, 3, 2, 1):
            end = [ends[depth - 1], free()] if choice >> (depth - 1) & 1 else [free(1)]
            body = [free(), *([Box(SEVEN[depth - 1], *body), free()] if body else []), *end]
        yield made("broken-levels-%d" % choice, *body)
    torn = [Box(code, free(), b"123") for code in SEVEN]
    yield made("every-list-torn", *torn, Box("moov", *torn, b"1"), b"1234567")
    yield made("nest-torn-behind-each", nest(cycle(20), b"12", behind=[b"123"]), b"1")


# ---- Sizes of 64 bits


HUGE = (2**32, 2**32 + 24, 2**63, 2**63 + 24, 2**64 - 24, 2**64 - 8, 2**64 - 1)


def wide_sizes():
    """A size of 64 bits is at least 16, at every depth, and ends in what holds the box."""
    for size in (0, 1, 7, 8, 14, 15, *HUGE):
        for where, parts in list(around([Box("free", free(), wide=True, size=size)]))[::2]:
            yield made("wide-%d-%s" % (size, where), *parts)
    for size in (0, 8, 15, 25, 26, 2**32 + 24, 2**64 - 1):
        bad = Box("udta", free(), wide=True, size=size)
        yield made("wide-%d-last" % size, free(), bad)
        yield made("wide-%d-last-in-moov" % size, Box("moov", free(), bad), free(), free())
        yield made("wide-%d-last-at-16" % size, nest(cycle(15), bad, behind=[free(40)]), free())
    for where, parts in around([Box("free", wide=True), Box("free", b"1", wide=True), Box("trak", free(), wide=True), Box("udta", wide=True)]):
        yield made("wide-whole-" + where, *parts)
    # over the boxes behind its header: none of them, a byte, one, one and its next's header, both
    for size, lines in (
        (16, [("udta", 8, 16, 1), ("free", 24, 8, 1), ("skip", 32, 9, 1)]),
        (17, [("udta", 8, 17, 1), 24, 25]),
        (24, [("udta", 8, 24, 1), ("free", 24, 8, 2), ("skip", 32, 9, 1)]),
        (32, [("udta", 8, 32, 1), ("free", 24, 8, 2), 32, 40]),
        (33, [("udta", 8, 33, 1), ("free", 24, 8, 2), ("skip", 32, 9, 2)]),
    ):
        file = lay(free(), Box("udta", free(), wide=True, size=size), Box("skip", b"1"))
        yield "wide-%d-over-boxes" % size, file, text(("free", 0, 8, 1), *lines)


def wide_headers():
    """A header of 16 bytes that is cut: by the file's end, by a container's, and at the deepest."""
    header = lay(Box("moov", wide=True))
    for n in range(8, 16):
        yield made("wide-first-%d" % n, header[:n])
        yield made("wide-first-%d-behind" % n, free(), header[:n])
        yield made("wide-first-%d-in-moov" % n, Box("moov", free(), header[:n]), free(16))
        yield made("wide-first-%d-at-16" % n, nest(cycle(15), header[:n], behind=[free(16)]))


def wide_containers():
    """What a wide container holds starts behind 16 bytes; wide and plain ones in each other."""
    for code in SEVEN:
        yield made("wide-" + code, Box(code, wide=True), Box(code, free(), Box(code, free(2), wide=True), free(), wide=True), free())
        yield made("wide-%s-in-plain" % code, Box(code, Box(code, Box(code, b"1"), wide=True), Box(code, wide=True)), free())
        yield made("wide-%s-torn" % code, Box(code, free(), b"1234567", wide=True), free())
    inner = Box("trak", Box("mdia", free(wide=True), wide=True), Box("minf", free()), b"1", wide=True)
    yield made("wide-in-turns", Box("moov", inner, free(), wide=True), Box("moov", inner), free(3, wide=True))
    both = forms.all_wide(files.movie(files.trak(1), files.trak(2)))
    yield "wide-movie", files.build(both), text(*lines_of(both))


# ---- Open ends


def open_ends():
    """Size 0 at the top reaches the end of the file, and a container is opened that far; whatever follows is in it."""
    for code in SEVEN:
        parts = [free(), Box(code, free(1), Box("trak", free()), size=0)]
        yield "open-" + code, lay(*parts), text(("free", 0, 8, 1), (code, 8, 33, 1), ("free", 16, 9, 2), ("trak", 25, 16, 2), ("free", 33, 8, 3))
        yield "open-%s-alone" % code, lay(Box(code, size=0)), text((code, 0, 8, 1))
        yield "open-%s-of-8-last" % code, lay(free(), Box(code, size=0)), text(("free", 0, 8, 1), (code, 8, 8, 1))
        yield "open-%s-torn" % code, lay(Box(code, b"123", size=0)), text((code, 0, 11, 1), 8)
        inner = [(code, 0, 24, 1), ("trak", 8, 8, 2), 16]
        yield "open-%s-over-open" % code, lay(Box(code, Box("trak"), free(size=0), size=0)), text(*inner)
    for n in (0, 1, 7, 8, 100):
        yield "open-free-of-%d" % n, lay(Box("moov"), free(n, size=0)), text(("moov", 0, 8, 1), ("free", 8, 8 + n, 1))
    over = lay(free(size=0), Box("moov", free()), b"12")
    yield "open-free-over-moov", over, text(("free", 0, 26, 1))
    over = lay(Box("moov", size=0), Box("moov", free()), Box("udta", size=7), free())
    yield "open-moov-over-moov", over, text(("moov", 0, 40, 1), ("moov", 8, 16, 2), ("free", 16, 8, 3), 24)
    over = lay(Box("udta", size=0), Box("mdat", b"12", size=0))
    yield "open-udta-over-open-mdat", over, text(("udta", 0, 18, 1), 8)
    over = lay(Box("moov", size=0), Box("trak", Box("mdia", size=0), wide=True), free())
    yield "open-moov-over-wide", over, text(("moov", 0, 40, 1), ("trak", 8, 24, 2), 24, ("free", 32, 8, 2))
    lines = list(lines_of([nest(cycle(17), free(), behind=[free()])]))
    yield "open-nest-17", w(0) + lay(nest(cycle(17), free(), behind=[free()]))[4:], text(*lines)
    for n in (8, 9, 15, 16, 17, 40):
        yield "zeros-%d" % n, bytes(n), text(("\0\0\0\0", 0, n, 1))
        yield "zeros-%d-behind" % n, lay(free()) + bytes(n), text(("free", 0, 8, 1), ("\0\0\0\0", 8, n, 1))
        yield made("zeros-%d-in-moov" % n, Box("moov", free(), bytes(n)), free())
    f = forms.moov_last()
    forms.opened(f)
    whole = files.build(f)
    f[-1].size = None
    yield "open-movie", whole, text(*lines_of(f))


# ---- Lengths


def lengths():
    """Under 8 bytes there is no outline; 8 bytes are a box, or are broken."""
    for n in range(8):
        yield "1-first-%d" % n, lay(Box("moov"))[:n], None
    for code, size, lines in (("free", 8, None), ("moov", 8, None), ("moov", 9, [0]), ("moov", 7, [0]), ("moov", 1, [0]), ("mdat", 2**32 - 1, [0])):
        yield "eight-%s-%d" % (code, size), lay(Box(code, size=size)), text(*(lines or [(code, 0, 8, 1)]))
    yield "eight-bits", b"\xff" * 8, text(0)
    yield made("nine", free(1))
    yield made("fifteen", free(), b"1234567")


def many():
    """Many boxes, in one list and in every list of the deepest nest."""
    for n in (10, 100, 2000, 8000):
        yield made("many-%d" % n, Box("moov", *[free()] * n))
    yield made("many-at-top", *[free(k % 3) for k in range(2000)])
    yield made("many-empty-moov", *[Box("moov")] * 3000)
    yield made("many-moov-in-moov", Box("moov", *[Box("moov", free())] * 1500))
    yield made("many-broken", Box("moov", *[Box("udta", b"1")] * 3000))
    for n in (3, 60):
        several = [Box("free"), Box("skip", b"1"), Box("mdat", b"12", wide=True)] * (n // 3)
        body = several
        for code in cycle(16)[::-1]:
            body = [*several, Box(code, *body), *several]
        yield made("nest-16-with-%d-each" % n, *body)


# ---- Bytes that are changed and cut


def sample():
    """A short file of all kinds of boxes: plain, wide and open, printed and not, opened and not, and a list that is torn."""
    trak = Box("trak", Box("mdia", free(), wide=True), Box("udta", Box("\xa9nam", b"1"), b"12"), free())
    return lay(Box("ftyp", b"3gp6"), Box("moov", trak, Box("free", b"3", wide=True)), Box("stbl", Box("dinf"), size=0))


def cuts():
    """The file cut at every place."""
    for n in range(8, len(sample()) + 1):
        yield "cut-to-%d" % n, sample()[:n], None


def bends():
    """Each byte changed, to what may mean something in a size or a code."""
    file = sample()
    for at in range(len(file)):
        for byte in sorted({0, 1, file[at] ^ 1, file[at] ^ 128, 255} - {file[at]})[at % 4 :: 4]:
            yield "byte-%d-to-%d" % (at, byte), file[:at] + bytes([byte]) + file[at + 1 :], None


# ---- Files of the other tests


def some(cases, step):
    """Of the files of each number the first and every so many, of rule 2 more."""
    seen = {}
    for name, parts, _ in cases:
        number = name.split("-")[0]
        seen[number] = seen.get(number, 0) + 1
        if seen[number] % (3 if number == "2" else step) == 1:
            yield name, files.build(parts)


def judged():
    """Files that are accepted, and those that are refused by each rule; only those of rule 1 have no outline."""
    for name, file in [*some(files.cases(), 23), *some(forms.cases(), 7)]:
        yield ("1-" if name.startswith("1-") else "judged-") + name, file, None


def strangers():
    """Files that are none of these: real ones, dumps, and what a recorder leaves."""
    for path in sorted([*REAL.glob("*.3gp"), *REAL.glob("*.amr"), *REAL.glob("*.awb")]):
        yield path.stem, path.read_bytes(), None
    for name, dump, _ in list(dumps.cases())[::48]:
        yield ("1-dump-" if len(dump) < 8 else "dump-") + name, dump, None
    for name, told, file, _ in list(salvages.cases())[::24]:
        yield ("1-left-" if len(file) < 8 else "left-") + name + "-%d" % told, file, None


def cases():
    """(name, file, its text); a name that starts with 1 is that of a file that is refused."""
    for group in (alone, pairs, closed, user_data, depths, codes, short_sizes, past, rests, levels, wide_sizes, wide_headers, wide_containers):
        yield from group()
    for group in (open_ends, lengths, many, cuts, bends, judged, strangers):
        yield from group()


def long_outlines():
    """(name, start, length, its text): a start, and zeros behind it."""
    most = LONGEST
    yield "longest-free", lay(free(size=most)), most, text(("free", 0, most, 1))
    yield "longest-open", lay(free(size=0)), most, text(("free", 0, most, 1))
    yield "longest-zeros", b"", most, text(("\0\0\0\0", 0, most, 1))
    yield "longest-past", lay(Box("moov", size=most + 1)), most, text(0)
    yield "longest-short", lay(free(size=most - 1)), most, text(("free", 0, most - 1, 1), most - 1)
    yield "longest-short-by-8", lay(free(size=most - 8)), most, text(("free", 0, most - 8, 1), ("\0\0\0\0", most - 8, 8, 1))
    yield "longest-moov", lay(Box("moov", free(size=most - 8), size=most)), most, text(("moov", 0, most, 1), ("free", 8, most - 8, 2))
    yield "longest-moov-short", lay(Box("moov", free(size=most - 16), size=most)), most, text(("moov", 0, most, 1), ("free", 8, most - 16, 2), most - 8)
    yield "longest-moov-of-zeros", lay(Box("moov", size=0)), most, text(("moov", 0, most, 1), 8)
    wide = lay(Box("moov", free(size=most - 16, wide=True), size=most, wide=True))
    yield "longest-wide", wide, most, text(("moov", 0, most, 1), ("free", 16, most - 16, 2))
    wide = lay(Box("moov", free(size=2**32 + most - 16, wide=True), size=most, wide=True))
    yield "longest-wide-past", wide, most, text(("moov", 0, most, 1), 16)
    nested, lines = b"", []
    for depth in range(1, 18):
        nested += w(most - 8 * (depth - 1)) + b"udta"
        lines += [("udta", 8 * (depth - 1), most - 8 * (depth - 1), depth)] if depth <= DEEP else []
    yield "longest-nest", nested, most, text(*lines)
    yield "longest-but-one", lay(free(size=most - 1)), most - 1, text(("free", 0, most - 1, 1))
    for what, start in (("free", lay(free(size=most + 1))), ("open", lay(Box("moov", size=0))), ("zeros", b""), ("nest", nested)):
        yield "1-over-" + what, start, most + 1, None
    yield "1-over-far", lay(Box("moov", size=0)), most + 1000, None


# ---- The cases hold


LINE = re.compile(rb"box (0x[0-9A-F]{8}|[ -~]{4}) place (\d+) size (\d+) depth (\d+)\n|broken place (\d+)\n")


def refusal(file):
    try:
        answers.outline(file)
    except answers.Refusal as refusal:
        return refusal.number, refusal.place
    return 0, 0


def check_lines(name, file):
    """Every line is one of the two, and places rise; a box has the code that stands there, and lies in opened ones, one a depth; rule 2's place is broken."""
    said, at, last, holds, broken = answers.outline(file), 0, -1, [], []
    while at < len(said):
        line = LINE.match(said, at)
        at, place = line.end(), int(line[5] or line[2])
        assert last < place < len(file), name
        last = place
        if line[5]:
            broken.append(place)
            continue
        end, depth = place + int(line[3]), int(line[4])
        assert 1 <= depth <= DEEP and depth <= len(holds) + 1, name
        assert line[1].decode() == named(file[place + 4 : place + 8].decode("latin-1")), name
        del holds[depth - 1 :]
        assert all(code in SEVEN and end <= its_end for code, its_end in holds), name
        holds.append((line[1].decode(), end))
    number, place = files.judge(file)
    assert number != 2 or place in broken, name


EXAMPLE = b"""box ftyp place 0 size 24 depth 1
box moov place 24 size 522 depth 1
box mvhd place 32 size 108 depth 2
box trak place 140 size 406 depth 2
box tkhd place 148 size 92 depth 3
box mdia place 240 size 306 depth 3
box mdhd place 248 size 32 depth 4
box hdlr place 280 size 33 depth 4
box minf place 313 size 233 depth 4
box smhd place 321 size 16 depth 5
box dinf place 337 size 36 depth 5
box dref place 345 size 28 depth 6
box stbl place 373 size 173 depth 5
box stsd place 381 size 69 depth 6
box stts place 450 size 24 depth 6
box stsc place 474 size 28 depth 6
box stsz place 502 size 24 depth 6
box stco place 526 size 20 depth 6
box mdat place 546 size 40 depth 1
"""


def all_outlines():
    for name, file, said in cases():
        yield name, file, len(file), said
    yield from long_outlines()


def check():
    """Each answer is what was told from how the file was made."""
    assert answers.outline(files.build(files.movie())) == EXAMPLE
    for name, start, length, said in all_outlines():
        file = start.ljust(length, b"\0")
        assert refusal(file) == ((1, 0) if name.startswith("1-") else (0, 0)), name
        if said is not None:
            assert answers.outline(file) == said, (name, answers.outline(file), said)
        if not name.startswith("1-"):
            check_lines(name, file)
