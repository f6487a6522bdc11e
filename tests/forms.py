"""Files with boxes of the 64-bit size (wide) or of size 0, to the end of the file (open), and what is said of each.

As in tests/files.py, every file is made with the answer that the documents give for it."""
from files import BREAKS, LONGEST, NAMED, Box, Offset, audio, bitr, build, d263, damr, esds, flat, ftyp, get, lay, movie
from files import samr, stco, stsc, stsz, stts, tabled, trak, url, visual, visual_track, w

CONTAINERS = ["moov", "trak", "mdia", "minf", "dinf", "stbl"]
TABLES = ["stts", "stsc", "stsz", "stco"]
NAMES = ["ftyp", "mdat", "mvhd", "tkhd", "mdhd", "hdlr", "dref", "stsd", *TABLES, *CONTAINERS]


def widened(file, name, track=0):
    get(file, name, track).wide = True
    return file


def all_wide(body):
    """The same boxes, all wide, those in containers too."""
    for box in body:
        if isinstance(box, Box):
            box.wide = True
            if box.code in CONTAINERS:
                all_wide(box.body)
    return body


def formed(box, form):
    """The box wide, or open."""
    box.wide, box.size = form == "wide", 0 if form == "open" else None
    return box


def opened(file):
    """The file with its last box open."""
    formed(file[-1], "open")
    return file


def moov_last(*tracks):
    f = movie(*tracks)
    return [f[0], f[2], f[1]]


def wide_files():
    """What a box holds starts where its header ends, in every rule."""
    for name in NAMES:
        yield "0-wide-" + name, widened(movie(), name), None
    for name in ("trak", "tkhd", "stbl", "stsd", "stco"):
        yield "0-wide-%s-of-track-2" % name, widened(movie(trak(1), trak(2)), name, 1), None
    both = (trak(1), visual_track(visual("avc1", Box("avcC")), number=2))
    yield "0-wide-all", all_wide(movie(*both)), None
    yield "0-wide-all-moov-last", all_wide(moov_last(*both)), None
    for name in CONTAINERS:
        f = movie()
        get(f, name).body.insert(1, Box("free", b"any", wide=True))
        yield "0-wide-free-in-" + name, f, None
    for at in (1, 2, 3):
        f = movie()
        f.insert(at, Box("free", wide=True))
        yield "0-wide-free-at-top-%d" % at, f, None
    yield "3-wide-free-first", [Box("free", wide=True), *movie()], 0
    yield "3-wide-ftyp-alone", [Box("ftyp", wide=True)], 0
    for number, change in BREAKS.items():
        f = all_wide(movie(trak(1), trak(2)))
        named = get(f, NAMED[number], 1)
        change(f, 1)
        yield "%d-wide-all" % number, f, named


def wide_lengths():
    """The length of what a wide box holds is eight less than that of a plain box of the same size."""
    numbers = {"ftyp": 4, "mvhd": 4, "tkhd": 4, "mdhd": 4, "hdlr": 4, "stsd": 5, "dref": 5, **dict.fromkeys(TABLES, 6)}
    for name, number in numbers.items():
        f = widened(movie(), name)
        box = get(f, name)
        box.body = [flat(box)[:-8] if name != "hdlr" else flat(box)[:16]]
        yield "%d-wide-%s-eight-less" % (number, name), f, box
    for n in (23, 24):
        f = widened(movie(), "hdlr")
        get(f, "hdlr").body = [flat(get(f, "hdlr"))[:n]]
        yield "%d-wide-hdlr-%d" % (0 if n == 24 else 4, n), f, get(f, "hdlr") if n == 23 else None
    for n in (16, 17):
        f = [ftyp(*["isom"] * n), *movie()[1:]]
        yield "%d-wide-brands-%d" % (0 if n == 16 else 4, n), widened(f, "ftyp"), None
    for name in ("stsd", "dref"):
        for n in (0, 7):
            f = widened(movie(), name)
            box = get(f, name)
            box.body = [flat(box)[:n]]
            yield "5-wide-%s-of-%d" % (name, n), f, box


def free(size, length=8):
    return Box("free", bytes(length), wide=True, size=size)


def wide_sizes():
    """Headers that don't fit, and sizes under 16 or past the parent."""
    header, end = lay([free(16, 0)], 0, 0), len(build(movie()))
    for n in range(4, 16):
        yield "2-wide-first-%d-at-top" % n, [*movie(), header[:n]], end
    for name in CONTAINERS:
        f = movie()
        box = get(f, name)
        build(f)
        rest = box.place + 8 + len(lay(box.body, 0, 0))
        box.body.append(header[:15])
        yield "2-wide-first-15-in-" + name, f, rest
    for size in range(0, 16):
        yield "2-wide-size-%d" % size, [*movie(), free(size), Box("free")], end
    yield "0-wide-size-16", [*movie(), free(16, 0), Box("free")], None
    for size in (0, 8, 15):
        for name in ("moov", "stbl"):
            f = movie()
            bad = free(size)
            get(f, name).body.insert(1, bad)
            yield "2-wide-size-%d-in-%s" % (size, name), f, bad
    for name in ["", *CONTAINERS]:
        f = movie()
        bad = (get(f, name).body if name else f)[-1]
        bad.wide, bad.size = True, 16 + len(lay(bad.body, 0, 0)) + 1
        yield "2-wide-last-of-%s-past" % (name or "file"), f, bad
    for size in (2**32, 2**32 + 24, 2**63, 2**63 + 24, 2**64 - 24, 2**64 - 8, 2**64 - 1):
        yield "2-wide-size-%d-at-top" % size, [*movie(), free(size)], end
        f = movie()
        bad = free(size)
        get(f, "stbl").body.append(bad)
        yield "2-wide-size-%d-in-stbl" % size, f, bad
    yield "2-wide-size-back-to-0", [*movie(), free(2**64 - end)], end
    f = widened(moov_last(), "moov")
    f[2].size = 2**32 + len(lay([f[2]], 0, 0))
    yield "2-wide-moov-cut-to-32-bits", f, f[2]


def open_files():
    """Size 0 in the file itself: the box reaches the end of the file, whatever follows."""
    yield "3-open-eight-bytes", opened([Box("moov")]), 0
    yield "3-open-ftyp", [Box("ftyp", *movie()[0].body, size=0), *movie()[1:]], 0
    yield "0-open-moov", opened(moov_last()), None
    yield "0-open-mdat", opened(movie()), None
    yield "0-open-free", opened([*movie(), Box("free", b"any")]), None
    yield "0-open-wide", opened(all_wide(moov_last())), None
    yield "0-open-trak-at-top", opened([*movie(), Box("trak", b"torn")]), None
    for n in (8, 9, 15, 16, 40):
        yield "0-open-zeros-%d" % n, [*movie(), bytes(n)], None
    yield "0-open-free-and-3", [*movie(), Box("free", size=0), b"abc"], None
    yield "0-open-free-over-open-free", [*movie(), Box("free", size=0), Box("free", size=0)], None
    yield "3-open-second-ftyp", opened([*movie(), Box("ftyp")]), 0
    yield "3-open-second-moov", opened([*movie(), Box("moov")]), 0
    f = opened([*movie(), Box("moov", b"abc")])
    build(f)
    yield "2-open-second-moov-torn", f, f[3].place + 8
    f = movie()
    yield "3-open-free-over-moov", [f[0], Box("free", size=0), f[1], f[2]], 0
    yield "3-open-mdat-over-moov", [f[0], formed(f[2], "open"), f[1]], 0
    f = movie()
    formed(f[1], "open")
    yield "8-open-moov-over-mdat", f, get(f, "stco")
    f = movie(trak(tables=[stts(), stsc(), stsz(), stco()]))
    formed(f[1], "open")
    yield "0-open-moov-over-mdat-without-chunks", f, None
    yield "0-open-moov-over-moov", [*opened(moov_last()), Box("moov", b"torn"), Box("free")], None
    f = opened(moov_last())
    yield "3-open-moov-over-mvhd", [*f, Box("mvhd")], f[2]
    for rest in (b"abc", bytes(8)):
        f = opened(moov_last())
        yield "2-open-moov-and-%d" % len(rest), [*f, rest], len(build(f))


def open_inside():
    """Size 0 in a container, at the container's end and at the file's end too."""
    for name in CONTAINERS:
        f = moov_last()
        yield "2-open-last-of-" + name, f, formed(get(f, name).body[-1], "open")
    f = opened(moov_last())
    get(f, "trak").size = 0
    yield "2-open-last-of-open-moov", f, get(f, "trak")
    f = opened(all_wide(moov_last()))
    bad = Box("free", size=0)
    f[2].body.append(bad)
    yield "2-open-free-in-open-moov", f, bad


def plain_only():
    """In `stsd` and `dref` the size fields 0 and 1 have no meaning of their own."""
    for form, before in (("wide", 0), ("wide", 1), ("open", 1)):
        entries, references = [*[samr()] * before, formed(samr(), form)], [*[url()] * before, formed(url(), form)]
        for name, track in (("stsd", trak(2, entries)), ("dref", trak(2, drefs=references))):
            f = movie(trak(1), track)
            yield "5-%s-entry-%d-of-%s" % (form, before + 1, name), f, get(f, name, 1)
            yield "5-%s-entry-%d-of-wide-%s" % (form, before + 1, name), widened(f, name, 1), get(f, name, 1)


def entry_cases():
    """(what, entry, handler, scale) of entries in which a box is wide or has size 0."""
    for code, record in (("samr", damr()), ("sawb", damr()), ("mp4a", esds())):
        yield code + "-wide-" + record.code, audio(code, formed(record, "wide")), b"soun", 8000
    yield "mp4v-wide-esds", visual("mp4v", formed(esds(), "wide")), b"vide", 15
    for form in ("wide", "open"):
        yield "s263-%s-d263" % form, visual("s263", formed(d263(), form)), b"vide", 15
        yield "s263-%s-bitr" % form, visual("s263", d263(formed(bitr(), form))), b"vide", 15
        yield "avc1-%s-avcC" % form, visual("avc1", formed(Box("avcC"), form)), b"vide", 15
    yield "avc1-wide-btrt", visual("avc1", Box("avcC"), Box("btrt", bytes(12), wide=True)), b"vide", 15


def entry_files():
    for what, entry, handler, scale in entry_cases():
        yield "10-" + what, movie(trak(1, [entry], handler, scale)), entry


def one_chunk(offset, size):
    return trak(tables=[stts((1, 160)), stsc((1, 1, 1)), stsz(size), stco(offset)])


def chunk_files():
    """Chunks at the edges of what a wide or an open `mdat` holds."""
    for form in ("wide", "open"):
        for size, offset, right in (
            *((32, -16, 0), (32, -8, 0), (32, -1, 0), (32, 1, 0), (40, -8, 0), (31, 1, 1), (33, 0, 0)),
            *((0, -8, 0), (0, -1, 0), (0, 0, 1), (0, 32, 1), (0, 33, 0)),
        ):
            f = movie(one_chunk(offset, size))
            formed(f[2], form)
            yield "%d-%s-mdat-%d-at-%d" % (0 if right else 8, form, size, offset), f, None if right else get(f, "stco")
        for offset in (-8, 0, 1):
            f = movie(one_chunk(offset, 0), data=0)
            formed(f[2], form)
            yield "%d-%s-mdat-empty-at-%d" % (8 if offset else 0, form, offset), f, get(f, "stco") if offset else None
    f = movie(one_chunk(0, 40))
    formed(f[2], "open")
    yield "0-open-mdat-over-free", [*f, Box("free")], None
    f = movie(one_chunk(0, 41))
    formed(f[2], "open")
    yield "8-open-mdat-over-free", [*f, Box("free")], get(f, "stco")
    f = opened([*movie(one_chunk(40, 4)), Box("free", bytes(32))])
    yield "8-open-free-for-mdat", f, get(f, "stco")


def chopped_files():
    """Many mdats, plain and wide in turn, the last one open."""
    for mdats in (3, 18, 40):
        for more, number in ((0, 0), (1, 8), (-1, 8)):
            f = movie(tabled([(mdats, 1)], [(1, 1, 1)], [24] * mdats, [0] * mdats))[:2]
            f += [Box("mdat", bytes([m]) * 24, wide=m % 2 == 0) for m in range(mdats)]
            build(opened(f))
            chunks = [f[2 + 7 * m % mdats] for m in range(mdats)]
            late = chunks[mdats // 2]
            get(f, "stco").body = [w(0, mdats, *[b.place + b.head + (more if b is late else 0) for b in chunks])]
            yield "%d-forms-chopped-%d-%d" % (number, mdats, more), f, get(f, "stco") if number else None


def cases():
    for group in (wide_files, wide_lengths, wide_sizes, open_files, open_inside, plain_only, entry_files, chunk_files, chopped_files):
        yield from group()


def long_files():
    """(name, start, length): a start with zeros behind it."""
    end = len(build(movie()))
    for more, number in ((0, 0), (1, 2), (-1, 2), (2**32, 2)):
        yield "%d-wide-long-free-%d" % (number, more), build([*movie(), free(LONGEST - end + more, 0)]), LONGEST
    for length, number in ((LONGEST, 0), (LONGEST + 1, 1)):
        yield "%d-open-long-free-%d" % (number, length), build([*movie(), Box("free", size=0)]), length
    for offset in (0, 1):
        f = movie(data=0)
        end = len(build(opened(f)))
        get(f, "stco").body[1] = Offset(LONGEST - end - 32 + offset)
        yield "%d-open-long-last-chunk-%d" % (8 if offset else 0, offset), build(f), LONGEST
