"""Files to be judged, and what is said of each.

Every file is made with the answer that the documents give for it: the number in its name (0: accepted) and the box
whose place is named (of several, the first). A judge written here from the documents alone, apart from the library's
code, must agree."""
import pathlib

REAL = pathlib.Path(__file__).resolve().parent.parent / "crates" / "test_parts" / "data"
LONGEST = 1048576
# the most sample entries
MOST = 32


# ---- The judge: a function for each rule; it answers the place where the rule is broken, or None.

WAYS = {"": ["moov"], "moov": ["trak"], "moov/trak": ["mdia"], "moov/trak/mdia": ["minf"]}
WAYS["moov/trak/mdia/minf"] = ["dinf", "stbl"]
NEEDS = {"moov": ["mvhd"], "moov/trak": ["tkhd", "mdia"], "moov/trak/mdia": ["mdhd", "hdlr", "minf"]}
NEEDS["moov/trak/mdia/minf"] = ["dinf", "stbl"]
NEEDS["moov/trak/mdia/minf/dinf"] = ["dref"]
NEEDS["moov/trak/mdia/minf/stbl"] = ["stsd", "stts", "stsc", "stsz", "stco"]
TABLES = {"stts": 8, "stsc": 12, "stco": 4}


class Broken(Exception):
    pass


class Found:
    """A box that the walk found: where it is and where its payload starts, its code, its payload, and the path it stands on."""

    def __init__(self, at, start, code, payload, path):
        self.at, self.start, self.code, self.payload, self.path, self.inside = at, start, code, payload, path, []

    @property
    def end(self):
        return self.start + len(self.payload)

    def all(self, code):
        return [b for b in self.inside if b.code == code]

    def one(self, way):
        box = self
        for code in way.split("/"):
            box = box.all(code)[0]
        return box


def num(data, at, width=4):
    return int.from_bytes(data[at : at + width], "big")


# The forms of a header besides the plain one, by the size field: to the end, and a 64-bit size behind the code.
OPEN, WIDE = 0, 1


def header(data, at, forms):
    """The length of the header at a place and the size that it says, where these forms are read besides the plain one."""
    field = num(data, at)
    if field == OPEN and OPEN in forms:
        return 8, len(data) - at
    if field == WIDE and WIDE in forms:
        return 16, num(data, at + 8, 8)
    return 8, field


def tiles(data, *forms):
    """(place, header's length, code, payload) of each box, and where the tiling breaks, or None."""
    boxes, at = [], 0
    while at < len(data):
        head, size = header(data, at, forms)
        # a header that is cut fails too: what is read of its size is under its length or over what is left
        if not head <= size <= len(data) - at:
            return boxes, at
        boxes.append((at, head, data[at + 4 : at + 8].decode("latin-1"), data[at + head : at + size]))
        at += size
    return boxes, None


def tree(parent):
    """Puts the boxes into their container, and theirs into them. Only a box of the file itself may be open."""
    boxes, torn = tiles(parent.payload, WIDE, *([OPEN] if parent.path == "" else []))
    for at, head, code, payload in boxes:
        place = parent.start + at
        box = Found(place, place + head, code, payload, (parent.path + "/" + code).strip("/"))
        parent.inside.append(box)
        if code in WAYS.get(parent.path, []):
            tree(box)
    if torn is not None:
        raise Broken(parent.start + torn)


def whole_file(file):
    return Found(0, 0, "", file, "")


def in_order(box):
    for b in box.inside:
        yield b
        yield from in_order(b)


def on(top, *paths):
    return [b for b in in_order(top) if b.path in ["moov/trak/" + p for p in paths]]


def rule3(top):
    codes = [b.code for b in top.inside]
    if codes[0] != "ftyp" or codes.count("ftyp") != 1 or codes.count("moov") != 1:
        return 0
    for b in in_order(top):
        needs = NEEDS.get(b.path, [])
        if any(len(b.all(code)) != 1 for code in needs):
            return b.at
        if b.path == "moov" and not 1 <= len(b.all("trak")) <= 4:
            return b.at


def rule4(top):
    seen = []
    for b in in_order(top):
        p, size = b.payload, len(b.payload)
        if b.path == "ftyp":
            bad = size % 4 != 0 or not 1 <= (size - 8) // 4 <= 16
        elif b.path == "moov/mvhd":
            bad = size != 100 or p[0] != 0 or num(p, 12) == 0
        elif b.path == "moov/trak/tkhd":
            bad = size != 84 or p[0] != 0 or num(p, 12) == 0 or num(p, 12) in seen
            seen.append(num(p, 12))
        elif b.path == "moov/trak/mdia/mdhd":
            bad = size != 24 or p[0] != 0 or num(p, 12) == 0
        elif b.path == "moov/trak/mdia/hdlr":
            bad = size < 24
        else:
            bad = False
        if bad:
            return b.at


def rule5(top):
    entries = 0
    for b in on(top, "mdia/minf/dinf/dref", "mdia/minf/stbl/stsd"):
        if len(b.payload) < 8 or num(b.payload, 0) != 0:
            return b.at
        boxes, torn = tiles(b.payload[8:])
        if torn is not None or len(boxes) < 1 or len(boxes) != num(b.payload, 4):
            return b.at
        if b.code == "stsd":
            entries += len(boxes)
            if entries > MOST:
                return b.at


def table_fits(b):
    size = len(b.payload)
    if b.code == "stsz":
        more = 4 * num(b.payload, 8) if num(b.payload, 4) == 0 else 0
        return size >= 12 and b.payload[0] == 0 and size == 12 + more
    return size >= 8 and b.payload[0] == 0 and size == 8 + TABLES[b.code] * num(b.payload, 4)


def rule6(top):
    for b in on(top, *["mdia/minf/stbl/" + code for code in ("stts", "stsc", "stsz", "stco")]):
        if not table_fits(b):
            return b.at


def rows(payload, width):
    """The rows of a table after its count, as numbers."""
    return [[num(payload, at + 4 * k) for k in range(width)] for at in range(8, len(payload), 4 * width)]


def per_chunk(stbl):
    """How many samples each chunk has."""
    chunks, runs = num(stbl.one("stco").payload, 4), rows(stbl.one("stsc").payload, 3)
    ends = [run[0] for run in runs[1:]] + [chunks + 1]
    return [run[1] for run, end in zip(runs, ends) for _ in range(run[0], end)]


def runs_right(stbl, samples):
    chunks, runs = num(stbl.one("stco").payload, 4), rows(stbl.one("stsc").payload, 3)
    if chunks == 0:
        return runs == [] and samples == 0
    firsts = [run[0] for run in runs]
    if runs == [] or firsts[0] != 1 or firsts[-1] > chunks:
        return False
    if any(a >= b for a, b in zip(firsts, firsts[1:])):
        return False
    if any(run[1] < 1 or not 1 <= run[2] <= num(stbl.one("stsd").payload, 4) for run in runs):
        return False
    return sum(per_chunk(stbl)) == samples


def rule7(top):
    for stbl in on(top, "mdia/minf/stbl"):
        samples = num(stbl.one("stsz").payload, 8)
        times = sum(run[0] for run in rows(stbl.one("stts").payload, 2))
        if samples > 65536 or times != samples or not runs_right(stbl, samples):
            return stbl.at


def sizes(stsz):
    count, common = num(stsz, 8), num(stsz, 4)
    return [common] * count if common else [num(stsz, 12 + 4 * k) for k in range(count)]


def rule8(top):
    rooms = [(b.start, b.end) for b in top.all("mdat")]
    for stbl in on(top, "mdia/minf/stbl"):
        left = sizes(stbl.one("stsz").payload)
        for (offset,), count in zip(rows(stbl.one("stco").payload, 1), per_chunk(stbl)):
            end = offset + sum(left[:count])
            left = left[count:]
            if not any(a <= offset and end <= b for a, b in rooms):
                return stbl.one("stco").at


def rule9(top):
    for b in on(top, "mdia/minf/dinf/dref"):
        for at, _, code, payload in tiles(b.payload[8:])[0]:
            if code != "url " or payload != b"\0\0\0\1":
                return b.start + 8 + at


def zero(data, at, to):
    return not any(data[at:to])


def damr_fits(code, rest, most):
    if len(rest) != 17 or num(rest, 0) != 17 or rest[4:8] != b"damr":
        return False
    mode_set, period, frames = num(rest, 13, 2), rest[15], rest[16]
    if mode_set & ~(0x81FF if code == "samr" else 0x83FF) or not 1 <= frames <= most:
        return False
    return period == 0 or period % frames == 0 or frames % period == 0


def d263_fits(rest):
    if len(rest) not in (15, 31) or num(rest, 0) != len(rest) or rest[4:8] != b"d263":
        return False
    return len(rest) == 15 or (num(rest, 15) == 16 and rest[19:23] == b"bitr")


def esds_fits(rest):
    return len(rest) >= 12 and num(rest, 0) == len(rest) and rest[4:8] == b"esds" and zero(rest, 8, 12)


def avcc_fits(rest):
    boxes, torn = tiles(rest)
    return torn is None and [code for _, _, code, _ in boxes].count("avcC") == 1


def audio_fits(p, scale):
    if len(p) < 28 or not zero(p, 8, 16) or num(p, 16, 2) != 2 or num(p, 18, 2) != 16:
        return False
    return zero(p, 20, 24) and num(p, 24, 2) == scale and zero(p, 26, 28)


def visual_fits(p, code):
    if len(p) < 78 or not zero(p, 8, 24) or num(p, 28) != 0x480000 or num(p, 32) != 0x480000:
        return False
    if not zero(p, 36, 40) or num(p, 40, 2) != 1 or not (code == "avc1" or zero(p, 42, 74)):
        return False
    return num(p, 74, 2) == 24 and num(p, 76, 2) == 0xFFFF


def entry_fits(code, p, handler, scale, references, most):
    if len(p) < 8 or not zero(p, 0, 6) or not 1 <= num(p, 6, 2) <= references:
        return False
    if code in ("mp4a", "samr", "sawb"):
        rest = p[28:]
        inner = esds_fits(rest) if code == "mp4a" else damr_fits(code, rest, most)
        return handler == b"soun" and audio_fits(p, scale) and inner
    if code in ("mp4v", "s263", "avc1"):
        inner = {"mp4v": esds_fits, "s263": d263_fits, "avc1": avcc_fits}[code]
        return handler == b"vide" and visual_fits(p, code) and inner(p[78:])
    return True


FRAMES = {4: 255, 6: 15}


def brands_in(top):
    ftyp = top.inside[0].payload
    return [ftyp[at : at + 4].decode("latin-1") for at in range(8, len(ftyp), 4)]


def release_of(top):
    """The release of a file whose first box is an `ftyp`."""
    listed = brands_in(top)
    return 4 if "3gp4" in listed and not {"3gp5", "3gp6", "3gr6"} & set(listed) else 6


def rule10(top):
    most = FRAMES[release_of(top)]
    for mdia in on(top, "mdia"):
        handler = mdia.one("hdlr").payload[8:12]
        scale = num(mdia.one("mdhd").payload, 12)
        references = num(mdia.one("minf/dinf/dref").payload, 4)
        stsd = mdia.one("minf/stbl/stsd")
        for at, _, code, payload in tiles(stsd.payload[8:])[0]:
            if not entry_fits(code, payload, handler, scale, references, most):
                return stsd.start + 8 + at


def judge(file):
    """The number and the place; (0, 0) where the file is accepted."""
    if not 8 <= len(file) <= LONGEST:
        return 1, 0
    top = whole_file(file)
    try:
        tree(top)
    except Broken as broken:
        return 2, broken.args[0]
    for number, rule in enumerate((rule3, rule4, rule5, rule6, rule7, rule8, rule9, rule10), 3):
        place = rule(top)
        if place is not None:
            return number, place
    return 0, 0


# ---- The builder. A body is a list of bytes, boxes, and chunk offsets counted from the first top-level mdat's payload.


class Box:
    """A box to be written; `wide` for the 64-bit size, `size` for another size than the true one, 0 for an open end."""

    def __init__(self, code, *body, size=None, wide=False):
        self.code, self.body, self.size, self.wide, self.place = code, list(body), size, wide, None

    @property
    def head(self):
        return 16 if self.wide else 8

    def header(self, length):
        size = self.head + length if self.size is None else self.size
        code = self.code.encode("latin-1")
        return w(1) + code + size.to_bytes(8, "big") if self.wide else w(size) + code


class Offset:
    def __init__(self, n):
        self.n = n


def w(*numbers):
    return b"".join((n % 2**32).to_bytes(4, "big") for n in numbers)


def h(*numbers):
    return b"".join(n.to_bytes(2, "big") for n in numbers)


def lay(body, at, base):
    out = b""
    for part in body:
        if isinstance(part, Box):
            part.place = at + len(out)
            inner = lay(part.body, part.place + part.head, base)
            out += part.header(len(inner)) + inner
        else:
            out += w(base + part.n) if isinstance(part, Offset) else part
    return out


def build(file):
    lay(file, 0, 0)
    base = [b.place + b.head for b in file if isinstance(b, Box) and b.code == "mdat"] + [0]
    return lay(file, 0, base[0])


def boxes_of(body, code):
    return [b for b in body if isinstance(b, Box) and b.code == code]


SHORT = {"mdia": "moov/trak/mdia", "minf": "moov/trak/mdia/minf"}
SHORT["dinf"] = SHORT["minf"] + "/dinf"
SHORT["stbl"] = SHORT["minf"] + "/stbl"
SHORT.update({code: SHORT["stbl"] + "/" + code for code in NEEDS[SHORT["stbl"]]})
SHORT.update({"dref": SHORT["dinf"] + "/dref", "mdhd": SHORT["mdia"] + "/mdhd", "hdlr": SHORT["mdia"] + "/hdlr"})
SHORT.update({"mvhd": "moov/mvhd", "trak": "moov/trak", "tkhd": "moov/trak/tkhd"})


def get(file, name, track=0):
    """The box of that code on its path, in that track; of an stsd or dref entry with `stsd/CODE`."""
    way = SHORT.get(name.split("/")[0], name.split("/")[0]) + name[len(name.split("/")[0]) :]
    body = file
    for code in way.split("/"):
        box = boxes_of(body, code)[track if code == "trak" else 0]
        body = box.body
    return box


def flat(box):
    """The payload of a box, from now on as plain bytes."""
    box.body = [lay(box.body, 0, 0)]
    return box.body[0]


def patch(box, at, data):
    p = flat(box)
    box.body = [p[:at] + data + p[at + len(data) :]]


def ftyp(*brands, major="3gp6"):
    return Box("ftyp", major.encode(), w(0), *[b.encode() for b in brands])


def mvhd(scale=1000):
    return Box("mvhd", w(0, 5, 6, scale, 20), bytes(80))


def tkhd(number):
    return Box("tkhd", w(7, 5, 6, number, 0, 20), bytes(60))


def mdhd(scale):
    return Box("mdhd", w(0, 5, 6, scale, 160), bytes(4))


def hdlr(handler):
    return Box("hdlr", w(0, 0), handler, bytes(13))


def url(code="url ", payload=w(1)):
    return Box(code, payload)


def listed(code, *entries):
    return Box(code, w(0, len(entries)), *entries)


def damr(mode_set=0x81FF, period=0, frames=1):
    return Box("damr", b"VXYZ\0", h(mode_set), bytes([period, frames]))


def audio(code, *rest, reference=1, scale=8000):
    return Box(code, bytes(6), h(reference), bytes(8), h(2, 16, 0, 0, scale, 0), *rest)


def visual(code, *rest, reference=1, name=bytes(32)):
    start = bytes(6) + h(reference) + bytes(16) + h(176, 144) + w(0x480000, 0x480000, 0) + h(1)
    return Box(code, start, name, h(24, 0xFFFF), *rest)


def samr(**fields):
    return audio("samr", damr(**fields))


def esds(body=b"any"):
    return Box("esds", w(0), body)


def d263(*rest):
    return Box("d263", b"VXYZ\0", bytes([10, 0]), *rest)


def bitr():
    return Box("bitr", w(1000, 2000))


def stts(*runs):
    return Box("stts", w(0, len(runs)), *[w(*run) for run in runs])


def stsc(*runs):
    return Box("stsc", w(0, len(runs)), *[w(*run) for run in runs])


def stsz(*samples):
    return Box("stsz", w(0, 0, len(samples)), w(*samples))


def stco(*offsets):
    return Box("stco", w(0, len(offsets)), *[Offset(n) for n in offsets])


def trak(number=1, entries=None, handler=b"soun", scale=8000, tables=None, drefs=None):
    tables = tables or [stts((1, 160)), stsc((1, 1, 1)), stsz(32), stco(0)]
    stbl = Box("stbl", listed("stsd", *(entries or [samr()])), *tables)
    dinf = Box("dinf", listed("dref", *(drefs or [url()])))
    minf = Box("minf", Box("smhd", bytes(8)), dinf, stbl)
    return Box("trak", tkhd(number), Box("mdia", mdhd(scale), hdlr(handler), minf))


def movie(*tracks, data=32):
    return [ftyp("3gp6", "isom"), Box("moov", mvhd(), *(tracks or [trak()])), Box("mdat", bytes(data))]


def shares(count, tracks):
    """So many sample entries over so many tracks, the first tracks having one more where they don't come out even."""
    return [count // tracks + (n < count % tracks) for n in range(tracks)]


def described(*counts):
    """A file whose tracks have so many sample entries."""
    return movie(*[trak(number, [samr()] * count) for number, count in enumerate(counts, 1)])


def visual_track(*entries, number=1, handler=b"vide"):
    return trak(number, list(entries), handler, 15)


# ---- The cases: (name, file, the box or place that is named); a name starts with its number.


def whole():
    yield "0-example", movie(), None
    yield "0-s263", movie(visual_track(visual("s263", d263()))), None
    yield "0-s263-bitr", movie(visual_track(visual("s263", d263(bitr())))), None
    yield "0-mp4v", movie(visual_track(visual("mp4v", esds()))), None
    yield "0-mp4v-empty-esds", movie(visual_track(visual("mp4v", esds(b"")))), None
    yield "0-mp4a", movie(trak(entries=[audio("mp4a", esds())])), None
    wide = audio("sawb", damr(0x83FF), scale=16000)
    yield "0-sawb", movie(trak(entries=[wide], scale=16000)), None
    yield "0-avc1", movie(visual_track(visual("avc1", Box("avcC", b"any"), name=b"n" * 32))), None
    more = visual("avc1", Box("btrt", bytes(12)), Box("avcC"), Box("m4ds"), name=b"\xff" * 32)
    yield "0-avc1-more", movie(visual_track(more)), None
    for handler in (b"soun", b"vide", b"text", b"hint", bytes(4)):
        yield "0-other-" + handler.hex(), movie(trak(entries=[Box("tx3g", bytes(6), h(1))], handler=handler)), None
    yield "0-other-rest", movie(trak(entries=[Box("SAMR", bytes(6), h(1), b"\xff" * 40)])), None
    yield "0-other-zero-code", movie(trak(entries=[Box("\0\0\0\0", bytes(6), h(1), b"x")])), None
    four = [trak(9), visual_track(visual("avc1", Box("avcC")), number=2), trak(2**32 - 1), trak(4)]
    yield "0-four-tracks", movie(*four), None
    eight = [trak(1, [samr()] * 3), trak(2, [samr()] * 5)]
    yield "0-eight-entries", movie(*eight), None
    for count in (1, 8, 9, 31, 32):
        for tracks in (1, 4):
            if tracks <= count:
                yield "0-entries-%d-over-%d" % (count, tracks), described(*shares(count, tracks)), None
    two = [samr(), Box("text", bytes(6), h(2))]
    runs = [stts((3, 160)), stsc((1, 1, 2), (2, 2, 1)), stsz(8, 9, 10), stco(0, 8)]
    yield "0-two-entries", movie(trak(entries=two, tables=runs, drefs=[url(), url()])), None
    yield "0-one-brand", [ftyp("isom")] + movie()[1:], None
    yield "0-sixteen-brands", [ftyp(*["isom"] * 16)] + movie()[1:], None
    f = movie()
    yield "0-moov-last", [f[0], f[2], f[1]], None
    yield "0-mdat-twice", movie() + [Box("mdat", bytes(3))], None
    none = [stts(), stsc(), stsz(), stco()]
    yield "0-no-chunks", movie(trak(tables=none)), None
    yield "0-no-mdat", movie(trak(tables=none))[:2], None
    yield "0-empty-mdat", movie(trak(tables=none), data=0), None
    yield "0-no-chunks-with-size", movie(trak(tables=[stts(), stsc(), Box("stsz", w(0, 7, 0)), stco()])), None


def loose():
    """Boxes that no rule is about, everywhere."""
    junk = [Box("free"), Box("udta", b"any bytes"), Box("meta", w(1, 2, 3)), Box("\0\xff\0\xff", b"x")]
    for name in ("moov", "trak", "mdia", "minf", "dinf", "stbl"):
        for at in (0, 1, 9):
            f = movie()
            box = get(f, name)
            box.body[at:at] = junk
            yield "0-junk-in-%s-%d" % (name, at), f, None
    yield "0-junk-top", movie()[:1] + junk + movie()[1:] + junk, None
    for code in ("trak", "mvhd", "tkhd", "stbl", "stsd", "stco", "dref", "mdia"):
        yield "0-%s-at-top" % code, movie() + [Box(code, b"\0\0\0\7torn")], None
    for name, codes in (("moov", ["moov", "ftyp", "mdat", "stbl", "mdia", "tkhd"]), ("trak", ["trak", "mvhd", "moov"])):
        for code in codes:
            f = movie()
            get(f, name).body.append(Box(code, b"\0\0\0\7torn"))
            yield "0-%s-in-%s" % (code, name), f, None
    strays = [("mdia", "stbl"), ("mdia", "dinf"), ("minf", "minf"), ("stbl", "stbl"), ("dinf", "stsd"), ("stbl", "dref")]
    for name, code in strays:
        f = movie()
        get(f, name).body.append(Box(code, b"torn"))
        yield "0-%s-in-%s" % (code, name), f, None
    f = movie()
    f.append(Box("udta", Box("moov", b"torn")))
    yield "0-moov-in-udta", f, None
    f = movie()
    get(f, "mvhd").body[0] = w(0xFFFFFF, 0, 0, 1, 0)
    get(f, "mdhd").body[0] = w(0xFFFFFF, 0, 0, 8000, 0)
    get(f, "hdlr").body[0] = w(0xFFFFFFFF, 9)
    for code in ("stts", "stsc", "stsz", "stco"):
        get(f, code).body[0] = w(0xFFFFFF) + get(f, code).body[0][4:]
    yield "0-flags-free", f, None


def rule1_files():
    yield "1-length-0", [], 0
    for n in range(1, 8):
        yield "1-length-%d" % n, [w(n, 0)[:n]], 0
    yield "1-cut-example", [build(movie())[:7]], 0
    yield "3-length-8-size-0", [bytes(8)], 0
    yield "3-length-8-ftyp", [Box("ftyp")], 0
    yield "3-length-8-free", [Box("free")], 0


def rule2_files():
    for size in (1, 7, 9, 2**31, 2**32 - 1):
        yield "2-eight-bytes-size-%d" % size, [Box("moov", size=size)], 0
    for code in ("ftyp", "moov", "mdat"):
        for size in (1, 2, 7):
            f = movie()
            box = get(f, code)
            box.size = size
            yield "2-%s-size-%d" % (code, size), f, box
    f = movie()
    f[2].size = 41
    yield "2-mdat-past-the-end", f, f[2]
    f = movie()[:2]
    f[1].size = len(build(f)) - 24 + 1
    yield "2-moov-past-the-end", f, f[1]
    f = movie()[:2]
    f[1].size = len(build(f)) - 24 + 1
    get(f, "trak").size = 3
    yield "2-moov-past-not-entered", f, f[1]
    for rest in (1, 3, 7):
        yield "2-rest-%d-at-top" % rest, movie() + [bytes(rest)], len(build(movie()))
    names = ("moov", "trak", "mdia", "minf", "dinf", "stbl")
    for name in names:
        for rest in (b"\0\0\0", b"\0\0\0\x08abc"):
            f = movie()
            box = get(f, name)
            whole_size = len(lay(box.body, 0, 0))
            box.body.append(rest)
            build(f)
            yield "2-rest-%d-in-%s" % (len(rest), name), f, box.place + 8 + whole_size
        for size in (0, 1, 7):
            f = movie()
            bad = Box("free", size=size)
            get(f, name).body.insert(1, bad)
            yield "2-size-%d-in-%s" % (size, name), f, bad
        f = movie()
        bad = get(f, name).body[-1]
        bad.size = 8 + len(lay(bad.body, 0, 0)) + 1
        yield "2-last-of-%s-past" % name, f, bad
    f = movie() + [Box("moov", b"abc")]
    build(f)
    yield "2-second-moov-torn", f, f[3].place + 8
    f = movie()
    get(f, "moov").body += [Box("trak", b"ab") for _ in range(4)]
    build(f)
    yield "2-second-trak-torn", f, get(f, "trak", 1).place + 8
    for name in ("mdia", "minf", "stbl", "dinf"):
        f = movie()
        bad = Box(name, Box("free"), b"abcde")
        get(f, {"mdia": "trak", "minf": "mdia"}.get(name, "minf")).body.append(bad)
        build(f)
        yield "2-second-%s-torn" % name, f, bad.place + 16
    f = movie()
    get(f, "stbl").body.append(b"abc")
    f[2].size = 5
    build(f)
    yield "2-inner-before-later", f, get(f, "stco").place + 20
    f = movie() + [b"ab"]
    f[0].size = 2
    yield "2-first-of-two", f, 0


def rule3_files():
    f = movie()
    yield "3-ftyp-second", [f[1], f[0], f[2]], 0
    yield "3-free-first", [Box("free")] + movie(), 0
    yield "3-no-ftyp", movie()[1:], 0
    yield "3-two-ftyp", movie() + [ftyp("isom")], 0
    yield "3-two-ftyp-in-front", [ftyp("isom")] + movie(), 0
    yield "3-no-moov", [movie()[0], movie()[2]], 0
    yield "3-two-moov", movie() + [movie()[1]], 0
    yield "3-second-moov-empty", movie() + [Box("moov")], 0
    yield "3-ftyp-of-other-case", [Box("FTYP")] + movie()[1:], 0
    for path in NEEDS:
        name = path.split("/")[-1]
        for code in NEEDS[path]:
            f = movie()
            box = get(f, name)
            box.body = [b for b in box.body if b.code != code]
            yield "3-%s-without-%s" % (name, code), f, box
            for twin in ("same", "empty"):
                f = movie()
                box = get(f, name)
                box.body.append(get(f, name + "/" + code) if twin == "same" else Box(code))
                yield "3-%s-with-%s-%s" % (name, twin, code), f, box
        f = movie()
        get(f, name).body = []
        yield "3-%s-empty" % name, f, get(f, name)
        f = movie(trak(1), trak(2))
        if name != "moov":
            get(f, name, 1).body = [Box("free")]
            yield "3-%s-bare-in-track-2" % name, f, get(f, name, 1)
    f = movie()
    f[1].body = f[1].body[:1]
    yield "3-no-trak", f, f[1]
    f = movie(*[trak(n) for n in range(1, 6)])
    yield "3-five-trak", f, f[1]
    f = movie(*[trak(n) for n in range(1, 5)])
    f[1].body.append(Box("trak"))
    yield "3-fifth-trak-empty", f, f[1]
    f = movie(trak(1), trak(2))
    get(f, "trak", 1).body.pop()
    get(f, "stbl").body.pop()
    yield "3-first-in-file-order", f, get(f, "stbl")
    f = movie()
    get(f, "trak").body.append(tkhd(3))
    get(f, "stbl").body.pop()
    yield "3-parent-before-child", f, get(f, "trak")
    f = movie()
    get(f, "moov").code = "MOOV"
    yield "3-moov-of-other-case", f, 0


def rule4_files():
    for n in (0, 4, 8, 11, 13, 75, 76):
        f = movie()
        f[0].body = [bytes(n)]
        yield "4-ftyp-%d" % n, f, 0
    f = movie()
    f[0] = ftyp(*["isom"] * 17)
    yield "4-seventeen-brands", f, 0
    for name, length in (("mvhd", 100), ("tkhd", 84), ("mdhd", 24)):
        for track in (0, 1) if name != "mvhd" else (0,):
            for n in (0, 12, 15, 16, length - 1, length + 1, length + 12):
                f = movie(trak(1), trak(2))
                box = get(f, name, track)
                box.body = [(flat(box) + bytes(12))[:n]]
                yield "4-%s-%d-of-track-%d" % (name, n, track + 1), f, box
            for at, data, what in ((0, b"\1", "version-1"), (0, b"\x80", "version-128"), (12, bytes(4), "zero")):
                f = movie(trak(1), trak(2))
                box = get(f, name, track)
                patch(box, at, data)
                yield "4-%s-%s-of-track-%d" % (name, what, track + 1), f, box
    for n in (0, 8, 12, 23):
        f = movie(trak(1), trak(2))
        box = get(f, "hdlr", n % 2)
        box.body = [flat(box)[:n]]
        yield "4-hdlr-%d" % n, f, box
    f = movie()
    get(f, "hdlr").body = [flat(get(f, "hdlr"))[:24]]
    yield "0-hdlr-24", f, None
    f = movie(trak(5), trak(7), trak(5), trak(7))
    yield "4-ids-5-7-5-7", f, get(f, "tkhd", 2)
    f = movie(trak(5), trak(5))
    yield "4-ids-5-5", f, get(f, "tkhd", 1)
    f = movie(trak(1), trak(2), trak(3), trak(1))
    yield "4-ids-1-2-3-1", f, get(f, "tkhd", 3)
    f = movie(trak(1), trak(2), trak(3), trak(2))
    yield "4-ids-1-2-3-2", f, get(f, "tkhd", 3)
    f = movie(trak(0), trak(0))
    yield "4-ids-0-0", f, get(f, "tkhd")
    f = movie(trak(1), trak(1))
    patch(get(f, "mdhd"), 12, w(0))
    yield "4-mdhd-before-equal-id", f, get(f, "mdhd")
    f = movie(trak(1), trak(1))
    patch(get(f, "mdhd", 1), 12, w(0))
    yield "4-equal-id-before-mdhd", f, get(f, "tkhd", 1)
    f = movie(trak(1), trak(257), trak(1 << 24), trak(65537))
    yield "0-ids-apart", f, None
    f = movie()
    patch(get(f, "mvhd"), 12, w(0))
    yield "4-mvhd-behind-mdat", [f[0], f[2], f[1]], get(f, "mvhd")


def rule5_files():
    for name, track in (("dref", 0), ("dref", 1), ("stsd", 0), ("stsd", 1)):
        edits = {"empty": lambda p: b"", "7": lambda p: p[:7], "no-entry": lambda p: w(0, 0)}
        edits["count-0"] = lambda p: w(0, 0) + p[8:]
        edits["count-2"] = lambda p: w(0, 2) + p[8:]
        edits["count-1-of-none"] = lambda p: w(0, 1)
        edits["count-huge"] = lambda p: w(0, 2**32 - 1) + p[8:]
        edits["version"] = lambda p: b"\1" + p[1:]
        edits["flags"] = lambda p: w(1) + p[4:]
        edits["rest"] = lambda p: p + b"abc"
        edits["loose-box"] = lambda p: p + w(8) + b"free"
        edits["entry-size-0"] = lambda p: p[:8] + w(0) + p[12:]
        edits["entry-size-7"] = lambda p: p[:8] + w(7) + p[12:]
        edits["entry-past"] = lambda p: p[:8] + w(len(p) - 7) + p[12:]
        edits["entry-short"] = lambda p: p[:8] + w(len(p) - 9) + p[12:]
        edits["counted-rest"] = lambda p: w(0, 2) + p[8:] + b"\0\0\0\x08abc"
        for what in edits:
            f = movie(trak(1), trak(2))
            box = get(f, name, track)
            box.body = [edits[what](flat(box))]
            yield "5-%s-%s-of-track-%d" % (name, what, track + 1), f, box
    # the 33rd entry, and the track whose `stsd` passes 32 with it
    for counts, track in (
        ((33,), 0), ((1, 32), 1), ((32, 1), 1), ((16, 17), 1), ((33, 33), 0), ((9, 8, 8, 8), 3), ((10, 10, 12, 1), 3), ((11, 11, 11, 1), 2),
        ((1, 33, 1, 1), 1), ((255,), 0), ((29, 1, 1, 2), 3),
    ):
        f = described(*counts)
        yield "5-entries-" + "-".join(map(str, counts)), f, get(f, "stsd", track)
    f = described(16, 17, 1)
    patch(get(f, "dref", 2), 0, w(1))
    yield "5-entries-33-before-dref", f, get(f, "stsd", 1)
    f = described(16, 17)
    patch(get(f, "dref", 1), 0, w(1))
    yield "5-dref-before-entries-33", f, get(f, "dref", 1)
    yield "0-nine-references", movie(trak(drefs=[url()] * 9)), None


def rule6_files():
    for code in ("stts", "stsc", "stsz", "stco"):
        for track in (0, 1):
            edits = {"empty": lambda p: b"", "7": lambda p: p[:7]}
            edits["one-less"] = lambda p: p[:-1]
            edits["one-more"] = lambda p: p + b"\0"
            edits["11"] = lambda p: p[:11]
            edits["four-more"] = lambda p: p + bytes(4)
            edits["version"] = lambda p: b"\1" + p[1:]
            at = 8 if code == "stsz" else 4
            for n in (0, 2, 2**32 - 1):
                edits["count-%d" % n] = lambda p, n=n: p[:at] + w(n) + p[at + 4 :]
            wrap = {"stts": 2**29, "stsc": 2**30, "stsz": 2**30, "stco": 2**30}[code]
            edits["wrap"] = lambda p: p[:at] + w(wrap + 1) + p[at + 4 :]
            edits["wrap-empty"] = lambda p: p[:at] + w(wrap)
            for what in edits:
                f = movie(trak(1), trak(2))
                box = get(f, code, track)
                box.body = [edits[what](flat(box))]
                yield "6-%s-%s-of-track-%d" % (code, what, track + 1), f, box
    f = movie()
    get(f, "stsc").body = [w(0, 0x55555556), bytes(8)]
    yield "6-stsc-wrap-by-three", f, get(f, "stsc")
    for rest in (1, 4):
        f = movie()
        get(f, "stsz").body = [w(0, 32, 1), bytes(rest)]
        yield "6-stsz-common-and-%d" % rest, f, get(f, "stsz")
    f = movie()
    get(f, "stsz").body = [w(0, 32, 1)]
    yield "0-stsz-common", f, None
    f = movie()
    get(f, "stsz").body = [w(0, 32, 2**30)]
    yield "7-stsz-common-many", f, get(f, "stbl")


def tabled(times, runs, samples, chunks, entries=1, number=1):
    return trak(number, [samr()] * entries, tables=[stts(*times), stsc(*runs), stsz(*samples), stco(*chunks)])


def rule7_files():
    one, two = [(1, 1, 1)], [4, 4]
    bad = {
        "stts-short": tabled([(1, 1)], [(1, 2, 1)], two, [0]),
        "stts-long": tabled([(1, 1), (2, 1)], [(1, 2, 1)], two, [0]),
        "stts-empty": tabled([], one, [4], [0]),
        "stts-wraps": tabled([(2**32 - 1, 1), (3, 1)], [(1, 2, 1)], two, [0]),
        "stsc-from-2": tabled([(1, 1)], [(2, 1, 1)], [4], [0, 0]),
        "stsc-from-0": tabled([(1, 1)], [(0, 1, 1)], [4], [0]),
        "stsc-same": tabled([(2, 1)], [(1, 1, 1), (1, 1, 1)], two, [0, 0]),
        "stsc-falls": tabled([(3, 1)], [(1, 1, 1), (3, 1, 1), (2, 1, 1)], [4] * 3, [0] * 3),
        "stsc-past-chunks": tabled([(2, 1)], [(1, 1, 1), (3, 1, 1)], two, [0, 0]),
        "stsc-huge-first": tabled([(2, 1)], [(1, 1, 1), (2**32 - 1, 1, 1)], two, [0, 0]),
        "stsc-no-samples": tabled([(1, 1)], [(1, 1, 1), (2, 0, 1)], [4], [0, 0]),
        "stsc-all-zero": tabled([], [(1, 0, 1)], [], [0]),
        "index-0": tabled([(1, 1)], [(1, 1, 0)], [4], [0]),
        "index-2-of-1": tabled([(1, 1)], [(1, 1, 2)], [4], [0]),
        "index-3-of-2": tabled([(2, 1)], [(1, 1, 2), (2, 1, 3)], two, [0, 0], 2),
        "too-few": tabled([(2, 1)], [(1, 1, 1)], two, [0]),
        "too-many": tabled([(2, 1)], [(1, 3, 1)], two, [0]),
        "product-wraps": tabled([(2, 1)], [(1, 2**31 + 1, 1)], two, [0, 0]),
        "sum-wraps": tabled([(2, 1)], [(1, 2**32 - 1, 1), (2, 3, 1)], two, [0, 0]),
        "no-chunks-samples": tabled([(1, 1)], [], [4], []),
        "no-chunks-stsc": tabled([], one, [], []),
        "no-chunks-all": tabled([(1, 1)], one, [4], []),
        "chunks-no-stsc": tabled([], [], [], [0]),
        "chunks-no-stsc-samples": tabled([(1, 1)], [], [4], [0]),
    }
    for what, track in bad.items():
        f = movie(track)
        yield "7-" + what, f, get(f, "stbl")
        track.body[0] = tkhd(2)
        f = movie(trak(1), track)
        yield "7-%s-of-track-2" % what, f, get(f, "stbl", 1)
    for n in (65536, 65537, 2**32 - 1):
        f = movie(tabled([(n, 1)], [(1, n, 1)], [4], [0]))
        get(f, "stsz").body = [w(0, 1, n)]
        yield "%d-samples-%d" % (8 if n == 65536 else 7, n), f, get(f, "stco" if n == 65536 else "stbl")
    f = movie(tabled([(0, 1), (2, 0), (0, 0), (1, 7)], [(1, 1, 2), (2, 1, 1), (3, 1, 2)], [4, 0, 9], [0, 4, 4], 2))
    yield "0-runs-of-0", f, None
    yield "0-stsc-last-run-longer", movie(tabled([(7, 1)], [(1, 3, 1), (2, 1, 1)], [1] * 7, [0, 3, 4, 5, 6])), None


def rule8_files():
    for offset, right in ((-1, 0), (0, 1), (1, 0), (-8, 0), (32, 0), (31, 0), (2**31, 0), (-2**31, 0)):
        f = movie(trak(tables=[stts((1, 160)), stsc((1, 1, 1)), stsz(32), stco(offset)]))
        yield ("0-chunk-%d" if right else "8-chunk-%d") % offset, f, None if right else get(f, "stco")
    for offset, right in ((-1, 0), (0, 1), (16, 1), (32, 1), (33, 0)):
        f = movie(trak(tables=[stts((1, 160)), stsc((1, 1, 1)), stsz(0), stco(offset)]))
        yield ("0-nothing-%d" if right else "8-nothing-%d") % offset, f, None if right else get(f, "stco")
    nothing = [stts((1, 160)), stsc((1, 1, 1)), stsz(0), stco(0)]
    yield "0-nothing-in-empty-mdat", movie(trak(tables=nothing), data=0), None
    f = movie(trak(tables=nothing))[:2]
    yield "8-nothing-and-no-mdat", f, get(f, "stco")
    f = movie()[:2]
    yield "8-no-mdat", f, get(f, "stco")
    f = movie(data=31)
    yield "8-mdat-short", f, get(f, "stco")
    f = movie(data=0) + [Box("mdat", bytes(32))]
    yield "8-first-of-two-mdat", f, get(f, "stco")
    f = movie(trak(tables=[stts((1, 160)), stsc((1, 1, 1)), stsz(32), stco(8)]), data=0) + [Box("mdat", bytes(32))]
    yield "0-second-of-two-mdat", f, None
    f = movie(trak(tables=[stts((1, 160)), stsc((1, 1, 1)), stsz(40), stco(0)])) + [Box("mdat", bytes(32))]
    yield "8-over-two-mdat", f, get(f, "stco")
    for name in ("moov", "trak", "stbl"):
        f = movie()[:2]
        inner = Box("mdat", bytes(32))
        get(f, name).body.append(inner)
        build(f)
        get(f, "stco").body = [w(0, 1, inner.place + 8)]
        yield "8-mdat-in-" + name, f, get(f, "stco")
    f = movie()
    f[2].code = "free"
    build(f)
    get(f, "stco").body = [w(0, 1, f[2].place + 8)]
    yield "8-free-for-mdat", f, get(f, "stco")
    f = movie(trak(1), trak(2))
    get(f, "stco", 1).body[1] = Offset(1)
    yield "8-of-track-2", f, get(f, "stco", 1)
    f = movie(trak(1), trak(2))
    get(f, "stco").body[1] = Offset(-1)
    get(f, "stco", 1).body[1] = Offset(1)
    yield "8-first-of-two", f, get(f, "stco")
    yield "0-overlap", movie(tabled([(4, 1)], [(1, 2, 1)], [16, 16, 10, 20], [0, 1])), None
    yield "0-chunks-fall", movie(tabled([(3, 1)], [(1, 1, 1)], [2, 3, 32], [30, 29, 0])), None
    yield "0-three-30-2-0", movie(tabled([(3, 1)], [(1, 3, 1)], [30, 2, 0], [0])), None
    yield "0-three-32-0-0", movie(tabled([(3, 1)], [(1, 3, 1)], [32, 0, 0], [0])), None
    f = movie(tabled([(3, 1)], [(1, 3, 1)], [30, 2, 1], [0]))
    yield "8-three-30-2-1", f, get(f, "stco")
    f = movie(tabled([(2, 1)], [(1, 1, 1)], [16, 16], [0, 17]))
    yield "8-second-chunk", f, get(f, "stco")
    f = movie(tabled([(3, 1)], [(1, 2, 1), (2, 1, 1)], [8, 8, 17], [0, 16]))
    yield "8-second-run", f, get(f, "stco")
    for size in (2**32 - 1, 2**32 - 400):
        f = movie(tabled([(1, 1)], [(1, 1, 1)], [size], [1]))
        yield "8-size-%d" % size, f, get(f, "stco")
    f = movie(tabled([(2, 1)], [(1, 2, 1)], [2**31, 2**31], [0]))
    yield "8-sum-wraps-to-0", f, get(f, "stco")
    f = movie(tabled([(3, 1)], [(1, 3, 1)], [2**31, 2**31, 32], [0]))
    yield "8-sum-wraps-to-32", f, get(f, "stco")
    f = movie()
    get(f, "stco").body = [w(0, 1, 2**32 - 1)]
    yield "8-offset-and-size-over", f, get(f, "stco")
    f = movie()
    get(f, "stco").body = [w(0, 1, 2**32 - 32)]
    yield "8-offset-and-size-to-0", f, get(f, "stco")
    f = movie(trak(tables=nothing))
    get(f, "stco").body = [w(0, 1, 2**32 - 1)]
    yield "8-offset-high-nothing", f, get(f, "stco")
    f = movie()
    get(f, "stsz").body = [w(0, 33, 1)]
    yield "8-common-33", f, get(f, "stco")
    common = [stts((4, 1)), stsc((1, 2, 1)), Box("stsz", w(0, 8, 4)), stco(0, 16)]
    yield "0-common-8-by-4", movie(trak(tables=common)), None
    common = [stts((4, 1)), stsc((1, 2, 1)), Box("stsz", w(0, 8, 4)), stco(0, 17)]
    f = movie(trak(tables=common))
    yield "8-common-8-by-4", f, get(f, "stco")
    common = [stts((2, 1)), stsc((1, 2, 1)), Box("stsz", w(0, 2**31, 2)), stco(0)]
    f = movie(trak(tables=common))
    yield "8-common-wraps", f, get(f, "stco")
    f = movie()
    yield "0-mdat-before-moov-only", [f[0], Box("mdat", bytes(32)), f[1]], None


def chopped(mdats, chunks, data=24, runs=((1, 1, 1),), number=1):
    """A movie of many mdats, and a track of chunks of one sample: (which mdat, how far into it, how many bytes)."""
    offsets = [(8 + data) * m + o for m, o, _ in chunks]
    track = tabled([(len(chunks), 1)], runs, [n for _, _, n in chunks], offsets)
    track.body[0] = tkhd(number)
    return movie(track, data=data) + [Box("mdat", bytes([m % 256]) * data) for m in range(1, mdats)]


def chopped_files():
    """Chunks that are looked up among many mdats, in every order: with boxes that start at and around multiples of 256."""
    for mdats in (2, 15, 16, 17, 18, 40, 300):
        rising = list(range(mdats))
        ways = {"rising": rising, "falling": rising[::-1], "jumping": [7 * m % mdats for m in rising], "last-first": [mdats - 1, *rising]}
        ways["back-and-forth"] = [m for pair in zip(rising, rising[::-1]) for m in pair]
        for way, order in ways.items():
            yield "0-chopped-%d-%s" % (mdats, way), chopped(mdats, [(m, m % 3, 20) for m in order]), None
        f = chopped(mdats, [(m, 24, 0) for m in rising[::-1]])
        yield "0-chopped-%d-nothing-at-ends" % mdats, f, None
        f = chopped(mdats, [(m, 24, 0) for m in rising[::-1]] + [(mdats - 1, 25, 0)])
        yield "8-chopped-%d-nothing-past-the-end" % mdats, f, get(f, "stco")
        for way in ("rising", "falling", "jumping"):
            f = chopped(mdats, [(m, int(m == mdats // 2), 24) for m in ways[way]])
            yield "8-chopped-%d-%s-a-byte-late" % (mdats, way), f, get(f, "stco")
            f = chopped(mdats, [(m, -int(m == mdats // 2), 24) for m in ways[way]])
            yield "8-chopped-%d-%s-a-byte-early" % (mdats, way), f, get(f, "stco")
        f = chopped(mdats, [(m, 0, 24) for m in rising[::2]])
        f[1].body += chopped(mdats, [(m, 0, 24) for m in rising[1::2][::-1]], number=2)[1].body[1:]
        yield "0-chopped-%d-two-tracks" % mdats, f, None
        runs = [(k + 1, 1, 1) for k in rising]
        yield "0-chopped-%d-runs" % mdats, chopped(mdats, [(m, 0, 24) for m in rising[::-1]], runs=runs), None
        f = chopped(mdats, [(0, 0, 24)])
        f[1:1] = [Box("free")] * mdats
        yield "0-chopped-%d-behind-boxes" % mdats, f, None
        f = chopped(mdats, [(m, 0, 24) for m in rising[::-1]])
        yield "0-chopped-%d-moov-last" % mdats, [f[0], *f[2:], f[1]], None
        for offset in (0, 1, 8, 2**32 - 1):
            f = [f[0], *movie()[1:2], *[Box("free")] * mdats]
            get(f, "stco").body = [w(0, 1, offset)]
            yield "8-no-mdat-of-%d-at-%d" % (mdats, offset), f, get(f, "stco")
        f = movie()[:2]
        f[1:1] = [Box("free")] * mdats
        inner = Box("mdat", bytes(32))
        f[-1].body.append(inner)
        build(f)
        get(f, "stco").body = [w(0, 1, inner.place + 8)]
        yield "8-mdat-in-moov-behind-%d" % mdats, f, get(f, "stco")


def rule9_files():
    bad = {"flags-0": url(payload=w(0)), "version-1": url(payload=w(0x1000001)), "payload-5": url(payload=w(1) + b"\0")}
    bad.update({"payload-3": url(payload=bytes(3)), "empty": url(payload=b""), "urn": url("urn "), "code": url("url\0")})
    bad.update({"flags-3": url(payload=w(3)), "flags-257": url(payload=w(257)), "alis": url("alis")})
    for what, entry in bad.items():
        f = movie(trak(drefs=[entry]))
        yield "9-" + what, f, entry
        f = movie(trak(1), trak(2, drefs=[url(), entry]))
        yield "9-%s-second" % what, f, entry
    one, two = url(payload=w(0)), url("urn ")
    yield "9-first-of-two", movie(trak(drefs=[url(), one, two])), one
    yield "9-unused", movie(trak(drefs=[url(), url(), two, url()])), two


def entry_cases():
    """(what, entry, handler, scale) of entries that break rule 10."""
    for code, handler in (("samr", b"vide"), ("samr", b"text"), ("samr", b"Soun"), ("samr", bytes(4))):
        yield "samr-for-" + handler.hex(), samr(), handler, 8000
    yield "mp4a-for-vide", audio("mp4a", esds()), b"vide", 8000
    yield "sawb-for-hint", audio("sawb", damr()), b"hint", 8000
    for entry in (visual("mp4v", esds()), visual("s263", d263()), visual("avc1", Box("avcC"))):
        yield entry.code + "-for-soun", entry, b"soun", 8000
    yield "scale-8001", samr(), b"soun", 8001
    yield "scale-8000-and-65536", samr(), b"soun", 8000 + 65536
    yield "scale-0", audio("samr", damr(), scale=0), b"soun", 65536
    for what, fields in {
        "mode-83ff": {"mode_set": 0x83FF},
        "mode-0200": {"mode_set": 0x200},
        "mode-4000": {"mode_set": 0x4000},
        "frames-16": {"frames": 16},
        "frames-0": {"frames": 0},
        "frames-255": {"frames": 255},
        "period-4-6": {"period": 4, "frames": 6},
        "period-7-15": {"period": 7, "frames": 15},
        "period-255-14": {"period": 255, "frames": 14},
        "period-2-0": {"period": 2, "frames": 0},
    }.items():
        yield "samr-" + what, samr(**fields), b"soun", 8000
    yield "sawb-mode-0400", audio("sawb", damr(0x400)), b"soun", 8000
    yield "sawb-mode-c3ff", audio("sawb", damr(0xC3FF)), b"soun", 8000
    record = damr().body
    inner = {
        "none": [],
        "two": [damr(), damr()],
        "rest": [damr(), b"\0"],
        "free-before": [Box("free"), damr()],
        "free-after": [damr(), Box("free")],
        "code": [Box("DAMR", *record)],
        "d263": [Box("d263", *record)],
        "size-16": [Box("damr", *record, size=16)],
        "size-18": [Box("damr", *record, size=18)],
        "size-0": [Box("damr", *record, size=0)],
        "size-wide": [Box("damr", *record, size=0x1000011)],
        "18-bytes": [Box("damr", *record, b"\0")],
        "16-bytes": [Box("damr", b"VXYZ\0\0\0\1")],
    }
    for code in ("samr", "sawb"):
        for what, rest in inner.items():
            yield "%s-damr-%s" % (code, what), audio(code, *rest), b"soun", 8000
    rate = lay([bitr()], 0, 0)
    inner = {
        "none": [],
        "two": [d263(), d263()],
        "rest": [d263(), b"\0"],
        "bitr-outside": [d263(), bitr()],
        "bitr-two": [d263(bitr(), bitr())],
        "bitr-code": [d263(Box("BITR", w(1, 2)))],
        "bitr-size-15": [d263(w(15) + rate[4:])],
        "bitr-size-17": [d263(w(17) + rate[4:])],
        "bitr-15": [d263(Box("bitr", bytes(7)))],
        "bitr-17": [d263(Box("bitr", bytes(9)))],
        "one-more": [d263(b"\0")],
        "one-less": [Box("d263", bytes(6))],
        "code": [Box("damr", bytes(7))],
        "size-14": [Box("d263", bytes(7), size=14)],
        "size-15-of-31": [Box("d263", bytes(7), rate, size=15)],
        "size-31-of-15": [Box("d263", bytes(7), size=31)],
    }
    for what, rest in inner.items():
        yield "s263-d263-" + what, visual("s263", *rest), b"vide", 15
    inner = {
        "none": [],
        "two": [esds(), esds()],
        "rest": [esds(), b"\0"],
        "free-after": [esds(), Box("free")],
        "free-before": [Box("free"), esds()],
        "payload-3": [Box("esds", bytes(3))],
        "empty": [Box("esds")],
        "version": [Box("esds", w(0x1000000))],
        "flags": [Box("esds", w(1), b"abc")],
        "code": [Box("avcC", w(0))],
        "size-0": [Box("esds", w(0), size=0)],
        "size-less": [Box("esds", w(0, 0), size=15)],
        "size-more": [Box("esds", w(0, 0), size=17)],
    }
    for what, rest in inner.items():
        yield "mp4v-esds-" + what, visual("mp4v", *rest), b"vide", 15
        yield "mp4a-esds-" + what, audio("mp4a", *rest), b"soun", 8000
    inner = {
        "none": [],
        "free-only": [Box("free")],
        "twice": [Box("avcC"), Box("avcC")],
        "twice-apart": [Box("avcC"), Box("free"), Box("avcC")],
        "rest": [Box("avcC"), b"\0\0\0"],
        "size-0": [Box("avcC"), Box("free", size=0)],
        "size-more": [Box("avcC", size=9)],
        "inside": [Box("btrt", Box("avcC"))],
        "code": [Box("avcc")],
    }
    for what, rest in inner.items():
        yield "avc1-avcC-" + what, visual("avc1", *rest), b"vide", 15
    for code, rest in (("samr", damr()), ("mp4a", esds())):
        for at, data in [(k, b"\1") for k in (*range(0, 6), *range(8, 16), *range(16, 24), *range(24, 28))]:
            entry = audio(code, rest)
            if flat(entry)[at : at + 1] != data:
                patch(entry, at, data)
                if code == "samr" or at % 5 == 0:
                    yield "%s-byte-%d" % (code, at), entry, b"soun", 8000
    for code, rest in (("s263", d263()), ("mp4v", esds()), ("avc1", Box("avcC"))):
        for at in (0, 5, 8, 15, 23, 28, 29, 30, 31, 32, 35, 36, 39, 40, 41, 42, 57, 73, 74, 75, 76, 77):
            if code != "s263" and at % 3 != 0 or code == "avc1" and 42 <= at < 74:
                continue
            entry = visual(code, rest)
            patch(entry, at, b"\2")
            yield "%s-byte-%d" % (code, at), entry, b"vide", 15
    handlers = {"samr": b"soun", "mp4a": b"soun", "mp4v": b"vide", "s263": b"vide", "avc1": b"vide", "text": b"text"}
    for code, handler in handlers.items():
        for n in (0, 6, 7, 8, 27, 28, 77, 78):
            if code != "text" or n < 8:
                yield "%s-of-%d" % (code, n), Box(code, (bytes(6) + h(1) + bytes(70))[:n]), handler, 8000
    yield "text-byte-0", Box("text", b"\1" + bytes(5) + h(1)), b"text", 8000
    yield "text-byte-5", Box("text", bytes(5) + b"\1" + h(1)), b"text", 8000
    for reference in (0, 2, 256, 65535):
        yield "text-reference-%d" % reference, Box("text", bytes(6) + h(reference)), b"text", 8000
        yield "samr-reference-%d" % reference, audio("samr", damr(), reference=reference), b"soun", 8000
        yield "avc1-reference-%d" % reference, visual("avc1", Box("avcC"), reference=reference), b"vide", 15


def rule10_files():
    for what, entry, handler, scale in entry_cases():
        yield "10-" + what, movie(trak(1, [entry], handler, scale)), entry
    for what in ("samr-mode-83ff", "scale-8001", "avc1-avcC-twice", "s263-d263-rest", "mp4a-esds-two", "text-of-7"):
        found = [case for case in entry_cases() if case[0] == what]
        for _, entry, handler, scale in found:
            good = Box("tx3g", bytes(6), h(1))
            again = Box(entry.code, *entry.body)
            yield "10-second-" + what, movie(trak(1, [good, entry, again], handler, scale)), entry
    right = [(0x8000, 0, 1), (0, 0, 15), (0x81FF, 2, 6), (0x81FF, 6, 2), (1, 30, 15), (1, 255, 15), (1, 1, 15), (1, 15, 15)]
    for good in right:
        yield "0-damr-%d-%d-%d" % good, movie(trak(1, [samr(mode_set=good[0], period=good[1], frames=good[2])])), None
    yield "0-sawb-mode-0200", movie(trak(1, [audio("sawb", damr(0x200))])), None
    third = trak(1, [audio("samr", damr(), reference=3)], drefs=[url()] * 3)
    yield "0-reference-3-of-3", movie(third), None
    fourth = audio("samr", damr(), reference=4)
    yield "10-reference-4-of-3", movie(trak(1, [samr(), fourth], drefs=[url()] * 3)), fourth
    top = audio("samr", damr(), scale=65535)
    yield "0-scale-65535", movie(trak(1, [top], scale=65535)), None
    one, two = samr(frames=0), samr(frames=16)
    yield "10-first-of-two-tracks", movie(trak(1), trak(2, [samr(), one]), trak(3, [two])), one


# Lists that make a file one of Release 4, and lists that don't; the major brand says nothing of it.
OLD = (("3gp4",), ("3gp4", "isom"), ("isom", "avc1", "3gp4"), ("3gp7", "3gp4", "mp41"))
NEW = (("3gp6", "isom"), ("3gp4", "3gp5"), ("3gp6", "3gp4"), ("3gp4", "3gr6"), ("isom",), ("3gp5", "isom"), ("3GP4",), ("isom", "4pg3"))


def frames_and_periods():
    """(period, frames, whether Release 4 takes them, whether Release 6 does)."""
    for frames in (0, 1, 2, 15, 16, 17, 254, 255):
        for period in (0, 1, 2, 3, 5, 15, 16, 17, 30, 32, 51, 85, 127, 254, 255):
            fits = frames and (period == 0 or period % frames == 0 or frames % period == 0)
            yield period, frames, bool(fits), bool(fits and frames <= 15)


def release_files():
    for brands in OLD + NEW:
        for major in ("3gp4", "3gp6"):
            for frames in (0, 1, 15, 16, 255):
                entry = samr(frames=frames)
                number = 0 if 1 <= frames <= (255 if brands in OLD else 15) else 10
                name = "%d-%s-of-%s-frames-%d" % (number, "+".join(brands), major, frames)
                yield name, [ftyp(*brands, major=major), *movie(trak(1, [entry]))[1:]], entry if number else None
    for period, frames, old, new in frames_and_periods():
        for release, fits in ((4, old), (6, new)):
            entry = audio("sawb", damr(0x83FF, period, frames))
            name = "%d-sawb-of-release-%d-period-%d-frames-%d" % (0 if fits else 10, release, period, frames)
            brands = ftyp("3gp4") if release == 4 else ftyp("3gp4", "3gp5")
            yield name, [brands, *movie(trak(1, [entry]))[1:]], None if fits else entry
    first, second = samr(frames=16), samr(frames=255)
    yield "0-two-tracks-of-release-4", [ftyp("3gp4"), *movie(trak(1, [first]), trak(2, [samr(), second]))[1:]], None
    first, second = samr(frames=15), samr(frames=16)
    yield "10-two-tracks-of-release-6", [ftyp("3gp4", "3gp6"), *movie(trak(1, [first]), trak(2, [samr(), second]))[1:]], second
    late = samr(frames=255)
    wide = Box("ftyp", b"3gp4", w(0), *[b"isom"] * 15, b"3gp4")
    yield "0-last-of-sixteen-brands", [wide, *movie(trak(1, [late]))[1:]], None
    minor = samr(frames=16)
    yield "10-release-4-in-the-minor-version", [Box("ftyp", b"3gp4", b"3gp4", b"isom"), *movie(trak(1, [minor]))[1:]], minor


BREAKS = {
    2: lambda f, t: setattr(get(f, "stbl", t).body[-1], "size", 2**31),
    3: lambda f, t: get(f, "trak", t).body.append(Box("mdia")),
    4: lambda f, t: patch(get(f, "mdhd", t), 0, b"\1"),
    5: lambda f, t: patch(get(f, "dref", t), 3, b"\1"),
    6: lambda f, t: patch(get(f, "stts", t), 0, b"\1"),
    7: lambda f, t: patch(get(f, "stts", t), 11, b"\2"),
    8: lambda f, t: patch(get(f, "stsz", t), 15, b"\x21"),
    9: lambda f, t: patch(get(f, "dref/url ", t), 3, b"\0"),
    10: lambda f, t: patch(get(f, "stsd/samr", t), 0, b"\1"),
}
NAMED = {2: "stco", 3: "trak", 4: "mdhd", 5: "dref", 6: "stts", 7: "stbl", 8: "stco", 9: "dref/url ", 10: "stsd/samr"}


def pairs():
    """Two breaks in one file: the lower number wins, wherever it stands; of one number the first in file order."""
    for low in BREAKS:
        for high in BREAKS:
            if low > high:
                continue
            for first, second in ((0, 1), (1, 0)):
                if low == high and first == 1:
                    continue
                f = movie(trak(1), trak(2))
                named = get(f, NAMED[low], first)
                if high in (9, 10):
                    BREAKS[high](f, second)
                    BREAKS[low](f, first)
                else:
                    BREAKS[low](f, first)
                    BREAKS[high](f, second)
                yield "%d-and-%d-%s" % (low, high, "first" if first == 0 else "later"), f, named


def turned(body):
    """The same boxes, those of each container in the other order."""
    for box in body:
        if box.code in ("moov", "trak", "mdia", "minf", "dinf", "stbl"):
            turned(box.body)
    body.reverse()


TWICE = [("mvhd", "tkhd"), ("tkhd", "mdhd"), ("mdhd", "hdlr"), ("tkhd", "hdlr"), ("dref", "stsd")]
TWICE += [("stts", "stsc"), ("stsc", "stsz"), ("stsz", "stco"), ("stts", "stco")]
CUT = {"stbl": 6, "stsd": 5, "dref": 5, "mvhd": 4, "tkhd": 4, "mdhd": 4, "hdlr": 4}


def orders():
    """The order of the boxes of a container is free, and only the place that is named follows it."""
    for back in (False, True):
        way = "backward" if back else "forward"
        f = movie(trak(1), visual_track(visual("avc1", Box("avcC")), number=2))
        if back:
            turned(f[1].body)
        yield "0-order-" + way, f, None
        for number, change in BREAKS.items():
            f = movie(trak(1), trak(2))
            if back:
                turned(f[1].body)
            named = get(f, "stsd" if number == 2 and back else NAMED[number], 1)
            change(f, 1)
            yield "%d-order-%s" % (number, way), f, named
        for a, b in TWICE:
            f = movie(trak(1), trak(2))
            if back:
                turned(f[1].body)
            both = [get(f, a), get(f, b)]
            for box in both:
                box.body = [flat(box)[:7]]
            yield "%d-order-%s-%s-%s" % (CUT.get(a, 6), way, a, b), f, both
    beside = {"moov": ["mvex", "meta"], "trak": ["meta", "edts"], "stbl": ["co64", "saio", "stss", "stz2"]}
    for name, codes in beside.items():
        for code in codes:
            f = movie()
            get(f, name).body.insert(1, Box(code, bytes(3)))
            yield "0-%s-beside-in-%s" % (code, name), f, None
    for code in ("moof", "mfra", "sidx", "meta"):
        yield "0-%s-beside-at-top" % code, movie() + [Box(code, bytes(3))], None


def long_files():
    """(name, start, length): a start with zeros behind it."""
    f = movie()
    at = len(build(f))
    for less, number in ((0, "0"), (1, "2"), (-1, "2")):
        yield "%s-long-free-less-%d" % (number, less), build(f + [Box("free", size=LONGEST - at - less)]), LONGEST
    for offset in (0, 1):
        f = movie(data=0)
        at = len(build(f)) - 8
        f[2].size = LONGEST - at
        last = LONGEST - at - 8 - 32 + offset
        get(f, "stco").body[1] = Offset(last)
        yield "%d-long-last-chunk-%d" % (8 if offset else 0, offset), build(f), LONGEST
    for n in (65536, 65537):
        f = movie(tabled([(n, 1)], [(1, n // 8, 1), (8, n // 8 + n % 8, 1)], [4], [7 * k for k in range(8)]), data=0)
        get(f, "stsz").body = [w(0, 16 - n % 2, n)]
        at = len(build(f)) - 8
        f[2].size = LONGEST - at
        yield "%d-long-samples-%d" % (0 if n == 65536 else 7, n), build(f), LONGEST
    start = build(movie())
    filled, over = [start + w(n - len(start)) + b"free" for n in (LONGEST, LONGEST + 1)]
    yield "2-filled-1048575", filled, LONGEST - 1
    yield "2-filled-8", filled[:8], 8
    yield "1-filled-7", filled[:7], 7
    yield "1-over-1048577", over, LONGEST + 1
    yield "2-over-1048576", over, LONGEST


def check_builder():
    f = movie()
    file = build(f)
    assert judge(file) == (0, 0) and get(f, "stsd/samr").place == 397 and file[397:401] == w(53), "the example"
    real = {"c05_faststart_cut": (2, 602), "f04_amrwb": (10, 13763), "g01_amrnb": (10, 7473)}
    for path in sorted(REAL.glob("*.3gp")):
        assert judge(path.read_bytes()) == real.get(path.stem, (0, 0)), path.name


def wanted(name, place):
    number = int(name.split("-")[0])
    if isinstance(place, list):
        return number, min(box.place for box in place)
    return number, 0 if place is None else place.place if isinstance(place, Box) else place


def cases():
    for group in (whole, loose, rule1_files, rule2_files, rule3_files, rule4_files, rule5_files, rule6_files):
        yield from group()
    for group in (rule7_files, rule8_files, chopped_files, rule9_files, rule10_files, release_files, pairs, orders):
        yield from group()


def checked(short, long):
    """(name, start, length) of each file, on which the judge says what is wanted."""
    for name, parts, place in short:
        file = build(parts)
        assert judge(file) == wanted(name, place), (name, judge(file))
        yield name, file, len(file)
    for name, start, length in long:
        number, _ = judge(start.ljust(length, b"\0"))
        assert number == wanted(name, None)[0], (name, number)
        yield name, start, length
