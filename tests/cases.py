#!/usr/bin/env python3
"""Writes what the program `test_parts` is run on (crates/test_parts/data) and what it must write (crates/test_parts/stdout).

The answers are worked out here from the documents, apart from the library's code."""
import pathlib

CASES = pathlib.Path(__file__).resolve().parent.parent / "crates" / "test_parts"
DATA = CASES / "data"


def box(code, body=b"", size=None):
    return (8 + len(body) if size is None else size).to_bytes(4, "big") + code + body


def wide(code, body=b"", size=None):
    return be(1, 4) + code + be(16 + len(body) if size is None else size, 8) + body


def walk(part, plain=False):
    """The boxes of a part as (place, header's length, size, code), and where they stop tiling it, or None."""
    found, at = [], 0
    while at < len(part):
        head, size = 8, number(part, at, 4)
        if size == 1 and not plain:
            head, size = 16, number(part, at + 8, 8)
        elif size == 0 and not plain:
            size = len(part) - at
        if not head <= size <= len(part) - at:
            return found, at
        found.append((at, head, size, part[at + 4 : at + 8]))
        at += size
    return found, None


def show(part):
    found, broken = walk(part)
    lines = ["box %s place %d head %d size %d" % (code.hex(), at, head, size) for at, head, size, code in found]
    lines.append("end" if broken is None else "broken %d" % broken)
    free = [size - head for at, head, size, code in found if code == b"free"]
    lengths = (free + [0, 0, 0])[:3]
    end = len(part) if broken is None else broken
    lines.append("tiled to %d free %d of %d %d %d %d" % (end, len(free), len(found), *lengths))
    return lines


def parts():
    yield b""
    for size in (0, 1, 7, 8, 9, 2**31, 2**32 - 1):
        yield box(b"free", size=size)
    for size in (8, 15, 16, 17):
        yield box(b"skip", b"12345678", size=size)
    for rest in range(1, 8):
        yield box(b"free") + bytes(rest)
        yield bytes([0, 0, 0, 8, 102, 114, 101][:rest])
    yield box(b"free", b"abc") + box(b"mdat", b"12") + box(b"free") + box(b"free", b"x" * 300)
    yield box(b"free", b"abc") + box(b"free", b"defgh", size=14)
    yield box(b"moov", box(b"free") + box(b"trak")) + box(b"free", b"12")
    yield box(bytes(4), b"any") + box(b"FREE", b"no")
    yield box(b"free", b"a") + box(b"free", size=7) + box(b"free", b"b")
    for size in (*range(0, 17), 24, 25, 2**32, 2**32 + 24, 2**63 + 24, 2**64 - 24, 2**64 - 8, 2**64 - 1):
        yield box(b"skip") + wide(b"free", b"12345678", size)
    for n in range(8, 16):
        yield wide(b"free")[:n]
    yield wide(b"free", b"abc") + box(b"free", b"de") + wide(b"free") + box(b"free", b"f", 0) + box(b"free")
    yield box(b"free", size=0) + bytes(3)


# ---- sample entries: rule 10


def number(part, at, width):
    return int.from_bytes(part[at : at + width], "big")


def be(n, width):
    return n.to_bytes(width, "big")


KINDS = [None, b"mp4v", b"mp4a", b"samr", b"sawb", b"s263", b"avc1"]
HANDLERS = dict.fromkeys((b"mp4a", b"samr", b"sawb"), b"soun") | dict.fromkeys((b"mp4v", b"s263", b"avc1"), b"vide")
# a track's time scale, handler and count of data references
SOUND = (8000, b"soun", 2)
WIDE = (16000, b"soun", 2)
VISION = (90000, b"vide", 2)


def audio(code, inner, reference=1, scale=8000):
    start = bytes(6) + be(reference, 2) + bytes(8) + be(2, 2) + be(16, 2) + bytes(4)
    return box(code, start + be(scale, 2) + bytes(2) + inner)


def visual(code, inner, reference=1, width=176, height=144, name=bytes(32)):
    start = bytes(6) + be(reference, 2) + bytes(16) + be(width, 2) + be(height, 2) + be(0x00480000, 4) * 2 + bytes(4)
    return box(code, start + be(1, 2) + name + be(24, 2) + be(0xFFFF, 2) + inner)


def damr(modes=0x81FF, period=0, frames=1, vendor=b"VXYZ", version=0):
    return box(b"damr", vendor + be(version, 1) + be(modes, 2) + be(period, 1) + be(frames, 1))


def bitr(average=64000, maximum=128000):
    return box(b"bitr", be(average, 4) + be(maximum, 4))


def d263(inner=b"", vendor=b"VXYZ", version=0, level=10, profile=0):
    return box(b"d263", vendor + be(version, 1) + be(level, 1) + be(profile, 1) + inner)


def esds(rest=b"\x03\x19opaque", start=bytes(4)):
    return box(b"esds", start + rest)


def one_box(part, code):
    """Exactly one box of the code, and nothing after it."""
    return len(part) >= 8 and number(part, 0, 4) == len(part) and part[4:8] == code


def damr_rule(part, code, most):
    if not one_box(part, b"damr") or len(part) != 17:
        return False
    modes, period, frames = number(part, 13, 2), part[15], part[16]
    if modes & ~{b"samr": 0x81FF, b"sawb": 0x83FF}[code]:
        return False
    return 1 <= frames <= most and (period == 0 or frames % period == 0 or period % frames == 0)


def d263_rule(part):
    if not one_box(part, b"d263"):
        return False
    return len(part) == 15 or (len(part) == 31 and one_box(part[15:], b"bitr"))


def inside_rule(code, part, most=15):
    """What follows the head of an entry of one of the six known codes."""
    if code in (b"samr", b"sawb"):
        return damr_rule(part, code, most)
    if code == b"s263":
        return d263_rule(part)
    if code in (b"mp4v", b"mp4a"):
        return one_box(part, b"esds") and len(part) >= 12 and part[8:12] == bytes(4)
    found, broken = walk(part, plain=True)
    return broken is None and [c for at, head, size, c in found].count(b"avcC") == 1


def audio_head(e):
    return len(e) >= 36 and e[16:32] == bytes(8) + be(2, 2) + be(16, 2) + bytes(4) and e[34:36] == bytes(2)


def visual_head(e, code):
    if len(e) < 86 or e[16:32] != bytes(16) or e[36:48] != be(0x00480000, 4) * 2 + bytes(4) or e[48:50] != be(1, 2):
        return False
    return (code == b"avc1" or e[50:82] == bytes(32)) and e[82:86] == be(24, 2) + be(0xFFFF, 2)


def fits_track(e, code, scale, handler, references):
    if not 1 <= number(e, 14, 2) <= references:
        return False
    if code not in HANDLERS:
        return True
    return HANDLERS[code] == handler and (handler != b"soun" or number(e, 32, 2) == scale)


def entry_rule(e, track=None, most=15):
    """Rule 10 of an entry in a track, or alone, with the largest frames_per_sample."""
    if len(e) < 16 or number(e, 0, 4) != len(e) or e[8:14] != bytes(6):
        return False
    code = e[4:8]
    if code not in HANDLERS:
        return track is None or fits_track(e, code, *track)
    head = 36 if HANDLERS[code] == b"soun" else 86
    if not (audio_head(e) if head == 36 else visual_head(e, code)):
        return False
    return inside_rule(code, e[head:], most) and (track is None or fits_track(e, code, *track))


ENTRIES = {
    "mp4v": (VISION, visual(b"mp4v", esds())),
    "mp4a": (SOUND, audio(b"mp4a", esds())),
    "samr": (SOUND, audio(b"samr", damr())),
    "sawb": (WIDE, audio(b"sawb", damr(0x83FF), scale=16000)),
    "s263": (VISION, visual(b"s263", d263())),
    "s263 bitr": (VISION, visual(b"s263", d263(bitr()))),
    "avc1": (VISION, visual(b"avc1", box(b"avcC", b"opaque"))),
    "tx3g": ((1000, b"text", 2), box(b"tx3g", bytes(6) + be(1, 2) + b"opaque")),
}


def changed(part, at, by=1):
    """The part with one byte moved, round the end."""
    return part[:at] + bytes([(part[at] + by) % 256]) + part[at + 1 :]


def sized(part):
    """The part with its first size field set to its length."""
    return be(len(part), 4) + part[4:]


def kinds():
    yield from ((name, track, e) for name, (track, e) in ENTRIES.items())
    for name, (track, e) in ENTRIES.items():
        yield name + " size less", track, changed(e, 3, -1)
        yield name + " size more", track, changed(e, 3)
        yield name + " size 0", track, be(0, 4) + e[4:]
        yield name + " size 1", track, be(1, 4) + e[4:]
        yield name + " size wide", track, changed(e, 0)
        yield name + " cut", track, e[:-1]
        yield name + " long", track, e + b"\0"
        yield name + " cut sized", track, sized(e[:-1])
        yield name + " long sized", track, sized(e + b"\0")
        yield name + " box after", track, sized(e + box(b"free"))
        for handler in (b"soun", b"vide", b"text", b"Soun"):
            yield "%s in %s" % (name, handler.decode()), (track[0], handler, 2), e
        code = e[4:8].upper() if e[4:8] != e[4:8].upper() else b"S264"
        yield name + " other code", track, e[:4] + code + e[8:]


def moved():
    """Every byte of a head moved by one, those of the width, height and TimeScale too."""
    for name, end in (("samr", 36), ("s263", 86), ("avc1", 86)):
        track, e = ENTRIES[name]
        for at in range(8, end):
            yield "%s byte %d" % (name, at), track, changed(e, at)
    track, e = ENTRIES["tx3g"]
    for at in range(8, 16):
        yield "tx3g byte %d" % at, track, changed(e, at, 128)


def near_codes():
    """Codes that differ from a known one in one byte: those of other entries, of which only the beginning is judged."""
    for code in HANDLERS:
        for at in range(4):
            for by in (1, 128):
                other = changed(code, at, by)
                yield "%s as %s" % (code.decode(), other.hex()), SOUND, box(other, bytes(6) + be(1, 2))


def cut_short():
    """The first bytes of an entry, told as its size."""
    for name, lengths in (
        ("samr", (0, 3, 4, 7, 8, 15, 16, 34, 35, 36, 43, 44, 52)),
        ("s263", (16, 36, 85, 86, 94, 100)),
        ("avc1", (81, 82, 85, 86, 93)),
        ("tx3g", (8, 13, 14, 15, 16, 17)),
    ):
        track, e = ENTRIES[name]
        for n in lengths:
            yield "%s first %d" % (name, n), track, sized(e[:n]) if n >= 4 else be(n, n)


def inner_sizes():
    for name, (track, e) in ENTRIES.items():
        if name == "tx3g":
            continue
        at = 36 if track[1] == b"soun" else 86
        yield name + " inner less", track, changed(e, at + 3, -1)
        yield name + " inner more", track, changed(e, at + 3)
        yield name + " inner wide", track, changed(e, at)
        yield name + " inner 0", track, e[:at] + be(0, 4) + e[at + 4 :]
        yield name + " inner code", track, changed(e, at + 7)
        yield name + " no inner", track, sized(e[:at])
        yield name + " inner twice", track, sized(e + e[at:])
        yield name + " inner cut", track, sized(e[:at] + sized(e[at:-1]))
        for n in (1, 2, 8, 16):
            yield "%s inner longer by %d" % (name, n), track, sized(e[:at] + sized(e[at:] + bytes(n)))
        yield name + " free first", track, sized(e[:at] + box(b"free") + e[at:])
        yield name + " free after", track, sized(e + box(b"free", b"abc"))


def speech(code, **fields):
    return audio(code, damr(**fields))


def modes_and_frames():
    for code in (b"samr", b"sawb"):
        name = code.decode()
        for modes in (0x81FF, 0x83FF, 0, 0xFFFF, 0x7C00, 0x7E00, *(1 << k for k in range(16))):
            yield "%s modes %04x" % (name, modes), SOUND, speech(code, modes=modes)
        for frames in (0, 1, 15, 16, 255):
            yield "%s frames %d" % (name, frames), SOUND, speech(code, frames=frames)
        pairs = [(period, frames) for frames in (6, 2) for period in (0, 1, 2, 3, 4, 5, 6)]
        for period, frames in (*pairs, (30, 15), (31, 15), (255, 15), (255, 14), (1, 0), (16, 16), (1, 15), (3, 16), (51, 255), (254, 255)):
            yield "%s period %d frames %d" % (name, period, frames), SOUND, speech(code, period=period, frames=frames)
        yield name + " any vendor", SOUND, speech(code, vendor=b"\xff\0\x80\1", version=255)


def h263():
    for name, inner in (
        ("bitr code", box(b"bitR", bytes(8))),
        ("bitr less", box(b"bitr", bytes(8), 15)),
        ("bitr more", box(b"bitr", bytes(8), 17)),
        ("bitr 15", box(b"bitr", bytes(7))),
        ("bitr 17", box(b"bitr", bytes(9))),
        ("bitr twice", bitr() * 2),
        ("bitr wide", changed(bitr(), 0)),
        ("bitr empty", box(b"bitr")),
        ("byte", b"\0"),
    ):
        yield "s263 with " + name, VISION, visual(b"s263", d263(inner))
    yield "s263 with bitr outside", VISION, visual(b"s263", d263() + bitr())
    yield "s263 with bitr alone", VISION, visual(b"s263", bitr())
    most = d263(bitr(2**32 - 1, 2**32 - 1), b"\xff" * 4, 255, 255, 255)
    yield "s263 with the most", VISION, visual(b"s263", most, 2, 65535, 65535)
    yield "s263 with zeros", VISION, visual(b"s263", d263(bitr(0, 0), bytes(4), 0, 0, 0), 1, 0, 0)


def avc():
    for name, inner in (
        ("none", b""),
        ("another", box(b"avcc", b"1")),
        ("empty", box(b"avcC")),
        ("twice", box(b"avcC", b"1") * 2),
        ("first of two", box(b"avcC", b"1") + box(b"btrt", bytes(12))),
        ("last of three", box(b"btrt", bytes(12)) + box(b"free") + box(b"avcC", b"1")),
        ("twice apart", box(b"avcC") + box(b"free") + box(b"avcC")),
        ("nested", box(b"free", box(b"avcC"))),
        ("nested and once", box(b"avcC") + box(b"free", box(b"avcC"))),
        ("then size 7", box(b"avcC") + box(b"free", size=7)),
        ("then size 0", box(b"avcC") + box(b"free", size=0)),
        ("then size 1", box(b"avcC") + box(b"free", bytes(8), size=1)),
        ("then past", box(b"avcC") + box(b"free", size=9)),
        *(("then %d" % n, box(b"avcC") + bytes(n)) for n in range(1, 8)),
    ):
        yield "avcC " + name, VISION, visual(b"avc1", inner)
    yield "avc1 any name", VISION, visual(b"avc1", box(b"avcC"), name=bytes(range(1, 33)))
    yield "mp4v any name", VISION, visual(b"mp4v", esds(), name=bytes(range(1, 33)))


def descriptors():
    for name, make, track in (("mp4v", visual, VISION), ("mp4a", audio, SOUND)):
        for at in range(4):
            yield "%s esds byte %d" % (name, at), track, make(name.encode(), esds(start=changed(bytes(4), at)))
        for n in range(5):
            yield "%s esds of %d" % (name, n), track, make(name.encode(), box(b"esds", bytes(n)))
        yield name + " esds and byte", track, make(name.encode(), esds() + b"\0")
        yield name + " esds cut", track, make(name.encode(), esds()[:-1])


def references():
    for name, (track, e) in ENTRIES.items():
        for reference in (0, 2, 3, 256, 65535):
            yield "%s reference %d of 2" % (name, reference), track, e[:14] + be(reference, 2) + e[16:]
    e = ENTRIES["samr"][1]
    for reference, n in ((1, 0), (1, 1), (2, 1), (65535, 65534), (65535, 65535), (65535, 65536), (1, 2**32 - 1)):
        yield "samr reference %d of %d" % (reference, n), (8000, b"soun", n), e[:14] + be(reference, 2) + e[16:]


def scales():
    pairs = ((8000, 8001), (8001, 8000), (8000, 8000 + 65536), (0, 65536), (65535, 65535), (65535, 2**32 - 1), (1, 1))
    for name, (track, e) in ENTRIES.items():
        if track[1] != b"soun":
            yield name + " any scale", (2**32 - 1, *track[1:]), e
            continue
        for mine, theirs in pairs:
            yield "%s scale %d in %d" % (name, mine, theirs), (theirs, *track[1:]), e[:32] + be(mine, 2) + e[34:]


M1 = bytes.fromhex(
    "00000035 73616D72 000000000000 0001 0000000000000000 0002 0010 00000000 1F40 0000"
    "00000011 64616D72 5658595A 00 81FF 00 01"
)


def marked():
    """The marked cases M1 to M9 of the scope, whose answers it gives."""
    cases = (
        ("M1", SOUND, M1, True),
        ("M2", SOUND, M1[:49] + be(0x83FF, 2) + M1[51:], False),
        ("M3", WIDE, M1[:4] + b"sawb" + M1[8:32] + be(0x3E80, 2) + M1[34:49] + be(0x83FF, 2) + M1[51:], True),
        ("M4", SOUND, M1[:52] + be(15, 1), True),
        ("M5", SOUND, M1[:52] + be(16, 1), False),
        ("M6", SOUND, M1[:52] + be(0, 1), False),
        ("M7", SOUND, M1[:51] + be(2, 1) + be(6, 1), True),
        ("M8", SOUND, M1[:51] + be(4, 1) + be(6, 1), False),
        ("M9", SOUND, M1[:51] + be(6, 1) + be(2, 1), True),
    )
    for name, track, e, answer in cases:
        assert entry_rule(e, track) == entry_rule(e) == answer, name
        yield name, track, e


def payloads(part, code):
    return [part[at + head : at + size] for at, head, size, c in walk(part)[0] if c == code]


def down(part, *codes):
    for code in codes:
        part = payloads(part, code)[0]
    return part


def real_tracks():
    """The tracks of the real files, each with its name and the payload of its `mdia`."""
    for file in sorted(DATA.glob("*.3gp")):
        for k, trak in enumerate(payloads(down(file.read_bytes(), b"moov"), b"trak"), 1):
            yield "%s %d" % (file.stem, k), down(trak, b"mdia")


def real_entries():
    for name, mdia in real_tracks():
        scale, handler = number(down(mdia, b"mdhd"), 12, 4), down(mdia, b"hdlr")[8:12]
        references = number(down(mdia, b"minf", b"dinf", b"dref"), 4, 4)
        rest = down(mdia, b"minf", b"stbl", b"stsd")[8:]
        for at, head, size, code in walk(rest, plain=True)[0]:
            yield name, (scale, handler, references), rest[at : at + size]


def entries():
    yield from marked()
    for cases in (kinds, inner_sizes, modes_and_frames, h263, avc, descriptors, references, scales, real_entries):
        yield from cases()


def heads():
    for cases in (moved, near_codes, cut_short):
        yield from cases()


# ---- decoder records


def show_entry(name, track, e):
    return "%s: track %d alone %d wider %d" % (name, entry_rule(e, track), entry_rule(e), entry_rule(e, most=255))


def decoders():
    """A kind of entry, and a decoder record by itself."""
    for kind in range(8):
        yield "damr into %d" % kind, kind, damr()
        yield "damr 83ff into %d" % kind, kind, damr(0x83FF)
        yield "d263 into %d" % kind, kind, d263()
        yield "d263 bitr into %d" % kind, kind, d263(bitr())
        yield "empty into %d" % kind, kind, b""
    wholes = ((3, "damr", damr()), (4, "damr", damr()), (5, "d263", d263()), (5, "d263 bitr", d263(bitr())))
    for kind, name, part in wholes:
        for n in sorted({1, 4, 7, 8, 13, 15, len(part) - 1}):
            yield "%s cut to %d into %d" % (name, n, kind), kind, part[:n]
            yield "%s of %d into %d" % (name, n, kind), kind, sized(part[:n]) if n >= 4 else part[:n]
        yield "%s and byte into %d" % (name, kind), kind, part + b"\0"
        for n in (1, 2, 8, 16):
            yield "%s and %d sized into %d" % (name, n, kind), kind, sized(part + bytes(n))
        yield "%s twice into %d" % (name, kind), kind, part * 2
        for at in range(8):
            yield "%s byte %d into %d" % (name, at, kind), kind, changed(part, at)
    for frames in (0, 1, 15, 16, 255):
        yield "damr frames %d" % frames, 3, damr(frames=frames)
    for period, frames in ((2, 6), (4, 6), (6, 2), (4, 16), (5, 16), (51, 255), (52, 255)):
        yield "damr period %d frames %d" % (period, frames), 4, damr(period=period, frames=frames)


def record_rule(kind, part, most=15):
    return kind in (3, 4, 5) and inside_rule(KINDS[kind], part, most)


# ---- sample tables: rules 6 and 7


def table(*items, count=None, start=bytes(4)):
    return start + be(len(items) if count is None else count, 4) + b"".join(be(n, 4) for item in items for n in item)


def sizes(*items, common=0, count=None, start=bytes(4)):
    return start + be(common, 4) + be(len(items) if count is None else count, 4) + b"".join(be(n, 4) for n in items)


def table_form(part, width):
    return len(part) >= 8 and part[0] == 0 and len(part) == 8 + width * number(part, 4, 4)


def sizes_form(part):
    if len(part) < 12 or part[0] != 0:
        return False
    return len(part) == 12 + (4 * number(part, 8, 4) if number(part, 4, 4) == 0 else 0)


def items(part, width):
    """The items of a table of rule 6's form, each as its 32-bit numbers."""
    starts = range(8, len(part), width)
    return [tuple(number(part, at + k, 4) for k in range(0, width, 4)) for at in starts]


def chunk_samples(runs, chunks):
    """The samples in each chunk: those of the last run that starts at or before it."""
    return [[per for first, per, description in runs if first <= chunk][-1] for chunk in range(1, chunks + 1)]


def agree(stts, stsc, stsz, stco, entry_count):
    samples, chunks, runs = number(stsz, 8, 4), len(items(stco, 4)), items(stsc, 12)
    if samples > 65536 or sum(count for count, delta in items(stts, 8)) != samples:
        return False
    if chunks == 0:
        return runs == [] and samples == 0
    firsts = [first for first, per, description in runs]
    if firsts[:1] != [1] or firsts[-1] > chunks or any(a >= b for a, b in zip(firsts, firsts[1:])):
        return False
    if any(per < 1 or not 1 <= description <= entry_count for first, per, description in runs):
        return False
    return sum(chunk_samples(runs, chunks)) == samples


def size_of(stsz, sample):
    return number(stsz, 4, 4) or number(stsz, 12 + 4 * sample, 4)


def show_chunks(stts, stsc, stsz, stco):
    """Each chunk: its number and first sample from 0, its offset, samples, description, first tick and bytes."""
    offsets, runs, first, lines = items(stco, 4), items(stsc, 12), 0, []
    deltas = [delta for count, delta in items(stts, 8) for sample in range(count)]
    for k, n in enumerate(chunk_samples(runs, len(offsets))):
        description = [description for start, per, description in runs if start <= k + 1][-1]
        length = sum(size_of(stsz, sample) for sample in range(first, first + n))
        lines.append("chunk %d %d %d %d %d tick %d %d bytes %d" % (k, *offsets[k], first, n, description, *(sum(deltas[:first]),) * 2, length))
        first += n
    return lines


def show_tables(name, entry_count, stts, stsc, stsz, stco):
    forms = [table_form(stts, 8), table_form(stsc, 12), sizes_form(stsz), table_form(stco, 4)]
    line = "%s: forms %d %d %d %d" % (name, *forms)
    if forms[0]:
        timed = sum(count for count, delta in items(stts, 8))
        line += " timed %d" % timed
        if timed <= 65536:
            line += " ticks %d" % sum(count * delta for count, delta in items(stts, 8))
    if not all(forms):
        return [line]
    fine = agree(stts, stsc, stsz, stco, entry_count)
    return [line + " agree %d" % fine] + (show_chunks(stts, stsc, stsz, stco) if fine else [])


def forms_of(make, one):
    """A table with n items told as another count, cut, longer, with another version, and with flags."""
    yield "none", make()
    yield "count 1 of none", make(count=1)
    yield "count 0 of one", make(one, count=0)
    yield "two", make(one, one)
    yield "count 3 of two", make(one, one, count=3)
    yield "count 1 of two", make(one, one, count=1)
    yield "count 256 less", make(one, one, count=2 + 2**24)
    yield "cut", make(one)[:-1]
    yield "long", make(one) + b"\0"
    yield "version 1", make(one, start=bytes([1, 0, 0, 0]))
    yield "version 128", make(one, start=bytes([128, 0, 0, 0]))
    yield "flags", make(one, start=bytes([0, 255, 255, 255]))
    for count in (0x10000000, 0x20000000, 0x40000000, 0x80000000, 0xC0000000, 2**32 - 1):
        yield "count %08x of none" % count, make(count=count)
    for n in range(len(make())):
        yield "first %d" % n, make()[:n]


def forms():
    stts, stsc, stsz, stco = table((1, 160)), table((1, 1, 1)), sizes(32), table((48,))
    for name, part in forms_of(table, (1, 160)):
        yield "stts " + name, 1, part, stsc, stsz, stco
    for name, part in forms_of(table, (1, 1, 1)):
        yield "stsc " + name, 1, stts, part, stsz, stco
    for name, part in forms_of(sizes, 32):
        yield "stsz " + name, 1, stts, stsc, part, stco
    for name, part in forms_of(table, (48,)):
        yield "stco " + name, 1, stts, stsc, stsz, part
    for name, part in (
        ("common", sizes(common=32, count=1)),
        ("common of none", sizes(common=32)),
        ("common and table", sizes(32, common=32)),
        ("common and byte", sizes(common=32, count=1) + b"\0"),
        ("common of most", sizes(common=1, count=2**32 - 1)),
        ("common most", sizes(common=2**32 - 1, count=1)),
        ("common wide", sizes(common=2**24, count=1)),
        ("common version 1", sizes(common=32, count=1, start=b"\1\0\0\0")),
        ("common flags", sizes(common=32, count=1, start=b"\0\1\2\3")),
    ):
        yield "stsz " + name, 1, stts, stsc, part, stco


def quad(name, runs, samples, chunks, times=None, entry_count=1):
    stts = table(*([(samples, 160)] if times is None else times))
    stco = table(*((48 + k,) for k in range(chunks)))
    return name, entry_count, stts, table(*runs), sizes(common=32, count=samples), stco


def runs():
    yield quad("one run", [(1, 2, 1)], 6, 3)
    yield quad("one run, one chunk", [(1, 6, 1)], 6, 1)
    yield quad("three runs", [(1, 2, 1), (2, 3, 2), (4, 1, 1)], 2 + 3 + 3 + 1 + 1, 5, entry_count=2)
    yield quad("three runs of one", [(1, 1, 1), (2, 2, 1), (3, 3, 1)], 6, 3)
    yield quad("last run at the last chunk", [(1, 2, 1), (4, 5, 1)], 11, 4)
    yield quad("last run past the last chunk", [(1, 2, 1), (5, 5, 1)], 8, 4)
    yield quad("last run far past", [(1, 2, 1), (2**32 - 1, 5, 1)], 8, 4)
    yield quad("first at 0", [(0, 2, 1)], 6, 3)
    yield quad("first at 2", [(2, 2, 1)], 4, 3)
    yield quad("first at 2 for all", [(2, 2, 1)], 6, 3)
    yield quad("repeated", [(1, 2, 1), (2, 2, 1), (2, 2, 1)], 6, 3)
    yield quad("repeated 1", [(1, 2, 1), (1, 2, 1)], 6, 3)
    yield quad("falling", [(1, 2, 1), (3, 2, 1), (2, 2, 1)], 6, 3)
    yield quad("0 and 1", [(0, 2, 1), (1, 2, 1)], 6, 3)
    yield quad("no samples in a chunk", [(1, 0, 1)], 0, 3, [])
    yield quad("no samples in the last run", [(1, 2, 1), (3, 0, 1)], 4, 3)
    yield quad("description 0", [(1, 2, 0)], 6, 3)
    yield quad("description past", [(1, 2, 2)], 6, 3)
    yield quad("description of the last run past", [(1, 2, 2), (2, 2, 3)], 6, 3, entry_count=2)
    yield quad("description the last", [(1, 2, 8)], 6, 3, entry_count=8)
    yield quad("description far past", [(1, 2, 2**32 - 1)], 6, 3, entry_count=8)
    yield quad("no entries", [(1, 2, 1)], 6, 3, entry_count=0)


def totals():
    for samples in (5, 6, 7):
        yield quad("samples %d of 6" % samples, [(1, 2, 1)], samples, 3)
        yield quad("times %d of 6" % samples, [(1, 2, 1)], 6, 3, [(samples, 160)])
    yield quad("samples 2^32 more", [(1, 2**31, 1), (3, 6, 1)], 6, 3)
    yield quad("samples 2^32 more at once", [(1, 2**31 + 3, 1)], 6, 2)
    yield quad("times 2^32 more", [(1, 2, 1)], 6, 3, [(2**31, 1), (2**31, 1), (6, 1)])
    yield quad("no chunks", [], 0, 0, [])
    yield quad("no chunks, a time of none", [], 0, 0, [(0, 5)])
    yield quad("no chunks, a sample", [], 1, 0)
    yield quad("no chunks, a sample with no time", [], 1, 0, [])
    yield quad("no chunks, a time", [], 0, 0, [(1, 5)])
    yield quad("no chunks, a run", [(1, 1, 1)], 0, 0, [])
    yield quad("no chunks, a run at 0", [(0, 1, 1)], 0, 0, [])
    yield quad("no chunks, a run and a sample", [(1, 1, 1)], 1, 0)
    yield quad("chunks and no run", [], 0, 1, [])
    yield quad("chunks, no run, samples", [], 1, 1)
    yield quad("65536 in one", [(1, 65536, 1)], 65536, 1)
    yield quad("65537 in one", [(1, 65537, 1)], 65537, 1)
    yield quad("65536 in many", [(1, 1024, 1)], 65536, 64)
    yield quad("65537 in many", [(1, 1024, 1), (64, 1025, 1)], 65537, 64)
    yield quad("65536 longest", [(1, 65536, 1)], 65536, 1, [(65536, 2**32 - 1)])
    yield quad("most samples", [(1, 2**32 - 1, 1)], 2**32 - 1, 1)


def times():
    yield quad("counts 0", [(1, 2, 1)], 6, 3, [(0, 9), (3, 10), (0, 2**32 - 1), (3, 20), (0, 0)])
    yield quad("deltas 0", [(1, 2, 1)], 6, 3, [(2, 0), (4, 0)])
    yield quad("delta 0 last", [(1, 2, 1)], 6, 3, [(5, 160), (1, 0)])
    yield quad("one each", [(1, 2, 1)], 6, 3, [(1, k) for k in range(6)])
    yield quad("large deltas", [(1, 2, 1)], 6, 3, [(5, 2**32 - 1), (1, 2**31)])
    yield quad("times in two", [(1, 32768, 1)], 65536, 2, [(65535, 2**32 - 1), (1, 2**32 - 1)])
    yield quad("times in two, one over", [(1, 32768, 1)], 65536, 2, [(65535, 1), (2, 1)])
    stts, stsc, stco = table((3, 160)), table((1, 3, 1)), table((48,))
    yield "listed sizes", 1, stts, stsc, sizes(1, 0, 2**32 - 1), stco
    yield "listed sizes, one less", 1, stts, stsc, sizes(1, 2), stco
    yield "listed sizes, one more", 1, stts, stsc, sizes(1, 2, 3, 4), stco


def real_tables():
    for name, mdia in real_tracks():
        stbl = down(mdia, b"minf", b"stbl")
        four = [down(stbl, code) for code in (b"stts", b"stsc", b"stsz", b"stco")]
        yield name, number(down(stbl, b"stsd"), 4, 4), *four


def tables():
    for cases in (forms, runs, totals, times, real_tables):
        yield from cases()


# ---- the files


def behind_lengths(cases):
    return b"".join(be(len(case), 4) + case for case in cases)


def named(name, body):
    return be(len(name), 1) + name.encode() + body


def write(file, cases):
    data = behind_lengths(cases)
    assert len(data) <= 60000, (file, len(data))
    (DATA / file).write_bytes(data)


def entry_lines(file, cases):
    write(file, (named(name, be(scale, 4) + handler + be(n, 4) + e) for name, (scale, handler, n), e in cases()))
    return [show_entry(*case) for case in cases()]


def record_lines():
    write("decoders", (named(name, be(kind, 4) + part) for name, kind, part in decoders()))
    return ["%s: %d wider %d" % (name, record_rule(kind, part), record_rule(kind, part, 255)) for name, kind, part in decoders()]


def table_lines():
    write("tables", (named(name, behind_lengths([be(n, 4), *four])) for name, n, *four in tables()))
    return [line for case in tables() for line in show_tables(*case)]


def main():
    lines = [line for part in parts() for line in show(part)]
    write("parts", parts())
    lines += entry_lines("entries", entries) + entry_lines("heads", heads)
    lines += record_lines() + table_lines()
    for file in sorted(DATA.glob("*.3gp")):
        lines += [file.name] + show(file.read_bytes())
    (CASES / "stdout").write_text("\n".join(lines) + "\n")


if __name__ == "__main__":
    main()
