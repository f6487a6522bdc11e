"""Dumps of AMR and wideband AMR, and what comes of each.

Every dump is made with the answer that the documents give for it: the number in its name (0: done, with any room) and, for
41, where the bad frame starts. The answers worked out apart from these cases must agree."""
import answers
import files
from answers import AMR, WIDEBAND

REAL = files.REAL
CODECS = {"amr": AMR, "wideband": WIDEBAND}
# what a frame of type 0 is in a dump that goes on with zeros
ZEROS = {"amr": 13, "wideband": 18}


def frame(codec, kind, quality=1, first=1):
    """A frame with data bytes of its own; a type that the codec doesn't have gets many."""
    return bytes([kind << 3 | quality << 2]) + bytes((first + 37 * k) % 256 for k in range(codec.data.get(kind, 80)))


def dump(codec, *frames):
    return codec.magic + b"".join(frames)


def with_bits(one, bits):
    return bytes([one[0] | bits]) + one[1:]


# ---- Dumps that become a file


def few():
    """No frames and one, of each type; and what is kept of a frame: its quality bit, and data that is no header."""
    for name, codec in CODECS.items():
        yield "0-none-" + name, dump(codec), None
        for kind in codec.data:
            for quality in (0, 1):
                yield "0-%s-type-%d-quality-%d" % (name, kind, quality), dump(codec, frame(codec, kind, quality)), None
            yield "0-%s-type-%d-data-ff" % (name, kind), dump(codec, frame(codec, kind)[:1] + b"\xff" * codec.data[kind]), None


def several():
    """All types, in both orders and with both qualities; sets of types whose modes are few."""
    for name, codec in CODECS.items():
        kinds = list(codec.data)
        yield "0-%s-all-types" % name, dump(codec, *[frame(codec, kind, kind % 2, kind) for kind in kinds]), None
        yield "0-%s-all-types-turned" % name, dump(codec, *[frame(codec, kind, 1, kind) for kind in kinds[::-1]]), None
        yield "0-%s-all-types-twice" % name, dump(codec, *[frame(codec, kind, k, 9 * k) for k in (0, 1) for kind in kinds]), None
        for some in ((15, 15, 15), (8, 15), (0, 0, 7, 0), (15, 0), (0, 15)):
            yield "0-%s-types-%s" % (name, "-".join(map(str, some))), dump(codec, *[frame(codec, kind) for kind in some]), None
    for some in ((14, 14), (14, 15), (15, 14, 0, 14), (9, 14), (9, 8, 9)):
        yield "0-wideband-types-" + "-".join(map(str, some)), dump(WIDEBAND, *[frame(WIDEBAND, kind) for kind in some]), None


def real():
    for path in sorted([*REAL.glob("*.amr"), *REAL.glob("*.awb")]):
        yield "0-" + path.stem, path.read_bytes(), None


# ---- Dumps with a bad frame


def at_turns(name, codec, bad):
    """A bad frame alone, and before, between and behind good ones."""
    good = [frame(codec, 0), frame(codec, 15), frame(codec, 7, 0)]
    for k in range(4):
        yield "41-%s-frame-%d" % (name, k + 1), dump(codec, *good[:k], bad, *good[k:]), len(dump(codec, *good[:k]))
    yield "41-%s-alone" % name, dump(codec, bad), len(codec.magic)


def padded():
    """Each padding bit, and some together, in frames with data and without; the type's and the quality bit alone are none."""
    for name, codec in CODECS.items():
        for bits in (0x80, 0x02, 0x01, 0x83):
            for kind in (0, 8, 15):
                yield from at_turns("%s-padding-%02x-type-%d" % (name, bits, kind), codec, with_bits(frame(codec, kind, 0), bits))
        yield "41-%s-all-bits" % name, dump(codec, b"\xff" * 40), len(codec.magic)


def unknown():
    """Every type that a codec doesn't have."""
    for name, codec in CODECS.items():
        for kind in range(16):
            if kind not in codec.data:
                yield from at_turns("%s-type-%d" % (name, kind), codec, frame(codec, kind))
                yield "41-%s-type-%d-header-alone" % (name, kind), dump(codec, frame(codec, kind)[:1]), len(codec.magic)


def cut():
    """Frames of each type that end after the header, in the data and a byte early."""
    for name, codec in CODECS.items():
        for kind, size in codec.data.items():
            for good in ([], [frame(codec, 15), frame(codec, 3)]):
                for kept in sorted({1, 1 + size // 2, size} if size else {}):
                    given = dump(codec, *good, frame(codec, kind)[:kept])
                    yield "41-%s-type-%d-cut-to-%d-behind-%d" % (name, kind, kept, len(good)), given, len(dump(codec, *good))


def twice_bad():
    """Of two bad frames the first is named, whatever is bad about it."""
    padding, strange, short = with_bits(frame(AMR, 1), 0x80), frame(AMR, 9), frame(AMR, 7)[:5]
    good = frame(AMR, 2)
    yield "41-padding-then-type", dump(AMR, good, padding, strange), len(dump(AMR, good))
    yield "41-type-then-padding", dump(AMR, good, good, strange, padding), len(dump(AMR, good, good))
    yield "41-type-then-cut", dump(AMR, strange, good, short), len(AMR.magic)
    yield "41-good-then-cut", dump(AMR, good, short), len(dump(AMR, good))
    yield "41-padding-and-cut", dump(AMR, good, with_bits(short, 1)), len(dump(AMR, good))
    yield "41-zero-at-the-end", dump(AMR, good) + b"\0", len(dump(AMR, good))
    yield "41-newline-at-the-end", dump(AMR, good) + b"\n", len(dump(AMR, good))


# ---- Dumps of another kind


def magics():
    """What a dump opens with: cut, bent, of more channels, and of the other codec."""
    for name, codec in CODECS.items():
        magic, body = codec.magic, frame(codec, 0) + frame(codec, 15)
        for n in range(len(magic)):
            yield "40-%s-first-%d" % (name, n), magic[:n], None
            yield "40-%s-without-byte-%d" % (name, n), magic[:n] + magic[n + 1 :] + body, None
            yield "40-%s-byte-%d-bent" % (name, n), magic[:n] + bytes([magic[n] ^ 32]) + magic[n + 1 :] + body, None
        yield "40-%s-small" % name, magic.lower() + body, None
        yield "40-%s-return" % name, magic[:-1] + b"\r\n" + body, None
        yield "40-%s-return-alone" % name, magic[:-1] + b"\r" + body, None
        yield "40-%s-behind-a-byte" % name, b"\0" + magic + body, None
        yield "40-%s-bad-frame" % name, magic[:-1] + b"\xff" * 9, None
        yield "41-%s-magic-twice" % name, magic + magic + body, len(magic)
    yield "40-amr-channels", b"#!AMR_MC1.0\n" + b"\0\0\0\x02" + frame(AMR, 0) * 2, None
    yield "40-wideband-channels", b"#!AMR-WB_MC1.0\n" + b"\0\0\0\x02" + frame(WIDEBAND, 0) * 2, None
    yield "40-amr-channels-alone", b"#!AMR_MC1.0\n", None
    yield "40-wideband-channels-alone", b"#!AMR-WB_MC1.0\n", None
    yield "40-wideband-plus", b"#!AMR-WB+\n" + frame(WIDEBAND, 0), None
    yield "40-frames-alone", frame(AMR, 0) * 3, None
    yield "40-a-file", files.build(files.movie()), None
    yield "41-wideband-behind-newline", b"#!AMR\n-WB\n", 6
    yield "41-wideband-type-as-amr", dump(AMR, frame(WIDEBAND, 15), frame(WIDEBAND, 9)), 7
    yield "41-wideband-frames-as-amr", dump(AMR, frame(WIDEBAND, 0, 1, 2)), 19
    yield "41-amr-frames-as-wideband", dump(WIDEBAND, frame(AMR, 0)), 9
    yield "0-five-data-bytes-as-wideband", dump(WIDEBAND, bytes([9 << 3]) + frame(AMR, 8)[1:]), None


def cases():
    """(name, dump, where its bad frame starts)."""
    for group in (few, several, real, padded, unknown, cut, twice_bad, magics):
        yield from group()


# ---- Dumps of many frames: a start, and zeros behind it, which are frames of type 0


def long_dump(name, *frames, zeros, cut=0):
    start = dump(CODECS[name], *frames)
    return start, len(start) + ZEROS[name] * zeros + cut, len(start) + ZEROS[name] * zeros


def long_dumps():
    """(name, start, length, where its bad frame starts)."""
    bare, more = frame(AMR, 15), frame(AMR, 1)
    wide_bare, wide_more = frame(WIDEBAND, 15), frame(WIDEBAND, 1)
    # 65,536 frames, and a file of 1,048,576 bytes or of one byte more
    most = [("0-most-frames-in-the-longest", (bare,) * 5508 + (more,) * 10, 60018, 0)]
    most += [("24-most-frames-a-byte-over", (bare,) * 5508 + (more,) * 11, 60017, 0)]
    # the limit of frames alone, and before that of the file
    most += [("0-most-frames", (bare,) * 5600, 59936, 0), ("42-a-frame-more", (bare,) * 5600, 59937, 0)]
    most += [("24-most-frames-of-type-0", (), 65536, 0), ("42-a-frame-more-of-type-0", (), 65537, 0), ("42-longest-dump", (), 80768, 0)]
    # a bad frame comes before either
    most += [("41-behind-most-frames", (bare,) * 5600, 59936, 1), ("41-behind-a-frame-more", (bare,) * 5600, 59937, 12)]
    most += [("41-behind-most-frames-of-type-0", (), 65536, 5), ("41-behind-a-frame-more-of-type-0", (), 65537, 1)]
    for name, frames, zeros, cut in most:
        start, length, place = long_dump("amr", *frames, zeros=zeros, cut=cut)
        yield name, start, length, place if cut else None
    # wideband, where fewer frames fill a file: exactly, by a byte more, and by a dump that is longer than any file
    wide = [("0-wideband-longest", (wide_more,) * 2, 47635, 0), ("24-wideband-a-byte-over", (wide_bare,) + (wide_more,) * 5, 47631, 0)]
    wide += [("24-wideband-over-a-mebibyte", (), 58300, 0), ("41-wideband-over-a-mebibyte", (), 58300, 17)]
    for name, frames, zeros, cut in wide:
        start, length, place = long_dump("wideband", *frames, zeros=zeros, cut=cut)
        yield name, start, length, place if cut else None


# ---- The cases hold


def refusal(given):
    try:
        answers.from_amr(given)
    except answers.Refusal as refusal:
        return refusal.number, refusal.place
    return 0, 0


def all_dumps():
    for name, given, place in cases():
        yield name, given, len(given), place
    yield from long_dumps()


def joined(file):
    """The samples of a file of one track, one after the other."""
    top = answers.parsed(file)
    stbl = answers.tracks_in(top)[0].one("mdia/minf/stbl")
    at = [offset for (offset,) in files.rows(stbl.one("stco").payload, 1)] + [0]
    return file[at[0] : at[0] + sum(files.sizes(stbl.one("stsz").payload))]


def check():
    """Each answer is what its name says; each file is accepted and as long as it must be, and its samples are the dump without its magic."""
    for name, start, length, place in all_dumps():
        given = start.ljust(length, b"\0")
        number = int(name.split("-")[0])
        assert refusal(given) == (number, place or 0), (name, refusal(given))
        if number == 0:
            codec = answers.codec_of(given)
            n, body = len(answers.frames_of(given, codec)), given[len(codec.magic) :]
            file = answers.from_amr(given)
            assert files.judge(file) == (0, 0) and len(file) == (550 + 4 * n + len(body) if n else 526), name
            assert joined(file) == body, name
