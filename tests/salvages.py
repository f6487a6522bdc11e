"""What a recorder leaves that died, and what is saved of it.

Every file is made with the answer that the documents give for it: the number in its name (0: done, with any room), the codec
that is told (0: AMR, 1: wideband) and, where it is done, how many bytes of the payload are kept. The answers worked out apart
from these cases must agree."""
import answers
import dumps
import files
from answers import AMR, WIDEBAND
from dumps import CODECS, ZEROS, frame
from files import REAL, Box, w

TOLD = {"amr": 0, "wideband": 1}
FTYP = files.ftyp("3gp6", "isom")
# where the `mdat` stands behind that
PLACE = 24


def lay(*parts):
    return files.lay(parts, 0, 0)


def left(payload, size=0, first=FTYP):
    """A file as it is left: its first box, and an `mdat` whose size field was not made true."""
    return lay(first, Box("mdat", payload, size=size))


def several(codec):
    return frame(codec, 0) + frame(codec, 15) + frame(codec, 7, 0)


# good frames, which need not be told apart where the file is another
GOOD = several(AMR)


# ---- The size field of the `mdat`, and what stands around it


def sizes():
    """0 and past the end, also where place and size pass 2^32; to the end and before it."""
    for name, codec in CODECS.items():
        payload = several(codec)
        whole = 8 + len(payload)
        for size in (0, whole + 1, whole + 2, 2 * whole, 65536, 2**31 - 1, 2**31, 2**32 - PLACE - 1, 2**32 - PLACE, 2**32 - 1):
            yield "0-%s-size-%d" % (name, size), TOLD[name], left(payload, size), len(payload)
        for size in (*range(1, 10), whole // 2, whole - 1, whole):
            yield "60-%s-size-%d" % (name, size), TOLD[name], left(payload, size), None


def wide():
    """An `mdat` of the 64-bit size is none, whatever that size is."""
    for size in (0, 15, 16, 16 + len(GOOD), 17 + len(GOOD), 2**64 - 1):
        yield "60-wide-size-%d" % size, 0, lay(FTYP, Box("mdat", GOOD, size=size, wide=True)), None
    yield "60-wide-header-cut", 0, left(b"", 1), None


def behind():
    """What stands behind an `mdat` that ends; where it doesn't end, that is payload and read as frames."""
    moov, free, more = lay(files.movie()[1]), lay(Box("free")), lay(Box("mdat", GOOD[-9:]))
    for name, rest in (("moov", moov), ("free", free), ("mdat", more), ("open-mdat", left(GOOD)[PLACE:]), ("byte", b"\0")):
        yield "60-%s-behind" % name, 0, left(GOOD, 8 + len(GOOD)) + rest, None
    # 13 bytes up to the code of `mvhd` are a frame of type 0, and what then begins has a padding bit
    for size in (0, 9 + len(GOOD) + len(moov)):
        yield "0-moov-in-size-%d" % size, 0, left(GOOD + moov, size), len(GOOD) + 13
    yield "0-free-in-payload", 0, left(GOOD + free), len(GOOD)
    yield "0-free-in-payload-wideband", 1, left(several(WIDEBAND) + free), len(several(WIDEBAND))
    yield "61-mdat-in-payload", 0, left(lay(Box("mdat", b"1234"))), None
    yield "60-empty-mdat-between", 0, lay(FTYP, Box("mdat")) + left(GOOD)[PLACE:], None


def between():
    """Anything before the `ftyp`, and between it and the `mdat`."""
    boxes = [("free", lay(Box("free"))), ("wide", lay(Box("wide"))), ("skip", lay(Box("skip", b"12"))), ("moov", lay(files.movie()[1]))]
    boxes += [("ftyp", lay(FTYP)), ("empty-ftyp", lay(Box("ftyp"))), ("byte", b"\0"), ("word", w(0)), ("eight-bytes", bytes(8))]
    for name, part in boxes:
        yield "60-%s-between" % name, 0, lay(FTYP) + part + left(GOOD)[PLACE:], None
        # a second `ftyp` stands between
        if "ftyp" not in name:
            yield "60-%s-first" % name, 0, part + left(GOOD), None


# ---- The first box


def contents():
    """An `ftyp` is whole whatever it holds, and however little or much."""
    for n in (0, 1, 2, 3, 4, 5, 7, 8, 9, 11, 12, 76, 80, 3000):
        yield "0-ftyp-of-%d-bytes" % n, 0, left(GOOD, first=Box("ftyp", b"\xff" * n)), len(GOOD)
    held = [("zeros", bytes(16)), ("text", b"any"), ("mdat", left(GOOD)[PLACE:]), ("ftyp", lay(FTYP)), ("left", left(GOOD))]
    for name, content in held:
        yield "0-ftyp-with-" + name, 0, left(GOOD, first=Box("ftyp", content)), len(GOOD)


def first_sizes():
    """An `ftyp` that isn't whole, has another header, or ends where no `mdat` begins."""
    whole = len(left(GOOD))
    past = (whole - 7, whole - 1, whole, whole + 1, 2**31, 2**32 - 8, 2**32 - 1)
    for size in (*range(8), PLACE - 1, PLACE + 1, PLACE + 8, whole - 8, *past):
        yield "60-ftyp-size-%d" % size, 0, w(size) + left(GOOD)[4:], None
    # an `mdat` right where a size that is too short ends: its own size is then made of the code
    for size in range(4, 8):
        yield "60-ftyp-size-%d-and-mdat" % size, 0, (w(size) + b"ftyp").ljust(size + 4, b"\0") + b"mdat" + GOOD, None
    for size in (16, 32, 0, 15, 2**64 - 1):
        yield "60-wide-ftyp-size-%d" % size, 0, left(GOOD, first=Box("ftyp", bytes(16), size=size, wide=True)), None


def codes():
    """Other codes, and each byte of the right ones bent."""
    for code in ("styp", "FTYP", "mdat", "moov", "free", "pytf"):
        yield "60-%s-for-ftyp" % code, 0, left(GOOD, first=Box(code, bytes(16))), None
    for code in ("MDAT", "moov", "free", "ftyp", "mdia", "tadm"):
        yield "60-%s-for-mdat" % code, 0, lay(FTYP, Box(code, GOOD, size=0)), None
    file = left(GOOD)
    for at in (*range(4, 8), *range(PLACE + 4, PLACE + 8)):
        for bits in (1, 128):
            yield "60-byte-%d-by-%d" % (at, bits), 0, file[:at] + bytes([file[at] ^ bits]) + file[at + 1 :], None


# ---- Where the file ends


def number_of(kept):
    return "0" if kept else "61"


def cut_at(n, frames):
    """The number of a file cut to so many bytes, and how many of these are whole frames."""
    if n < PLACE + 8:
        return "1" if n < 8 else "60", None
    ends = [sum(map(len, frames[:k])) for k in range(len(frames) + 1)]
    kept = max(end for end in ends if PLACE + 8 + end <= n)
    return number_of(kept), kept or None


def cuts():
    """A file of few frames cut at every place, with a size of 0 and with what would be its true size."""
    for name, codec in CODECS.items():
        frames = [frame(codec, 8), frame(codec, 15), frame(codec, 0, 0)] if codec is AMR else [frame(codec, 9), frame(codec, 14)]
        payload = b"".join(frames)
        for size in (0, 8 + len(payload)):
            whole = left(payload, size)
            for n in range(0 if codec is AMR else PLACE + 8, len(whole) + (size == 0)):
                number, kept = cut_at(n, frames)
                yield "%s-%s-size-%d-first-%d" % (number, name, size, n), TOLD[name], whole[:n], kept


def ends():
    """The shortest files of every kind, and an `ftyp` that is all there is."""
    yield "1-empty", 0, b"", None
    yield "1-empty-wideband", 1, b"", None
    yield "60-eight-zeros", 0, bytes(8), None
    yield "60-ftyp-of-8-alone", 0, lay(Box("ftyp")), None
    yield "60-mdat-alone", 0, lay(Box("mdat", size=0)), None
    for n in range(1, 8):
        yield "60-ftyp-of-8-and-%d" % n, 0, lay(Box("ftyp")) + lay(Box("mdat", size=0))[:n], None
    for size in (0, 9, 2**32 - 1):
        yield "61-no-payload-size-%d" % size, 0, left(b"", size, Box("ftyp")), None
        yield "61-no-payload-size-%d-wideband" % size, 1, left(b"", size), None
    yield "60-no-payload-size-8", 0, left(b"", 8), None
    yield "0-shortest", 0, left(frame(AMR, 15), 0, Box("ftyp")), 1


# ---- The frames


def dumped():
    """The frames of dumps, good and bad: what is refused there by 41 is dropped from there on."""
    for group in (dumps.few, dumps.several, dumps.unknown, dumps.cut, dumps.twice_bad, dumps.magics):
        for name, given, place in group():
            number, rest = name.split("-", 1)
            if number != "40":
                codec = answers.codec_of(given)
                payload = given[len(codec.magic) :]
                kept = len(payload) if place is None else place - len(codec.magic)
                yield "%s-dump-%s" % (number_of(kept), rest), int(codec is WIDEBAND), left(payload), kept or None


def padded():
    """Each padding bit in the first frame, and in the second with good ones behind it."""
    for name, codec in CODECS.items():
        for bits in (0x80, 0x02, 0x01, 0x83):
            bad = dumps.with_bits(frame(codec, 2, 0), bits)
            yield "61-%s-padding-%02x-frame-1" % (name, bits), TOLD[name], left(bad + several(codec)), None
            yield "0-%s-padding-%02x-frame-2" % (name, bits), TOLD[name], left(frame(codec, 1) + bad + several(codec)), len(frame(codec, 1))


def zeros():
    """Zeros are frames of type 0; 234 of them are frames of either codec to the last."""
    for name, size in ZEROS.items():
        for n in (1, 12, 13, 17, 18, 25, 26, 35, 36, 234, 240):
            kept = n - n % size
            yield "%s-%s-zeros-%d" % (number_of(kept), name, n), TOLD[name], left(bytes(n)), kept or None


def strange():
    """No frame at the start: a dump with its magic, a text, a code, and good frames behind a byte that is none."""
    for name, codec in CODECS.items():
        yield "61-%s-magic" % name, TOLD[name], left(codec.magic + several(codec)), None
        yield "61-%s-text" % name, TOLD[name], left(b"nothing was recorded"), None
        yield "61-%s-all-bits" % name, TOLD[name], left(b"\xff" * 100), None
        yield "61-%s-bad-then-good" % name, TOLD[name], left(b"\x01" + several(codec)), None
        yield "61-%s-code" % name, TOLD[name], left(b"mdat" + several(codec)), None


def other_codec():
    """Frames of one codec, told as the other: as far as they are frames of that one, too."""
    yield "0-bare-as-amr", 0, left(frame(AMR, 15) * 3), 3
    yield "0-bare-as-wideband", 1, left(frame(AMR, 15) * 3), 3
    yield "0-bare-and-14-as-amr", 0, left(frame(WIDEBAND, 15) + frame(WIDEBAND, 14)), 1
    for kind in (9, 14):
        yield "61-wideband-type-%d-as-amr" % kind, 0, left(frame(WIDEBAND, kind) * 3), None
    # a frame of type 8 has 6 bytes or 61, and what then begins has a padding bit: the second byte of an AMR frame, data of a wideband one
    yield "0-amr-type-8-as-wideband", 1, left(frame(AMR, 8) * 11), 61
    yield "61-amr-type-8-as-wideband-cut", 1, left(frame(AMR, 8) * 10), None
    yield "0-wideband-type-8-as-amr", 0, left(frame(WIDEBAND, 8, 1, 2) * 2), 6


# ---- Files of others


def boxes_of(file):
    return {code: (file[at : at + head], payload) for at, head, code, payload in files.tiles(file)[0]}


def remains(name, told, file, size):
    """The `ftyp` and the `mdat` of a file whose frames have one size, cut: the size field is as it was, or 0."""
    boxes = boxes_of(file)
    opening, (header, payload) = b"".join(boxes["ftyp"]), boxes["mdat"]
    for n in (1, size - 1, size, size + 1, 5 * size, 5 * size + 7, len(payload) - 1):
        n = min(n, 1000)
        kept = n - n % size
        for old in (w(0), header[:4]):
            given = opening + old + b"mdat" + payload[:n]
            yield "%s-%s-first-%d-size-%d" % (number_of(kept), name, n, files.num(old, 0)), told, given, kept or None
    if len(payload) < 1000:
        yield "60-%s-whole" % name, told, opening + header + payload, None
        yield "0-%s-whole-size-0" % name, told, opening + w(0) + b"mdat" + payload, len(payload)


def own():
    """Files that dumps became, and what is left of them without their `moov`."""
    for stem, told, size in (("a09_5.15k.amr", 0, 14), ("a10_8.85k.awb", 1, 24)):
        file = answers.from_amr((REAL / stem).read_bytes())
        yield "60-made-of-" + stem, told, file, None
        yield from remains("left-of-" + stem, told, file, size)


def real():
    """Real files are none of these, cut ones neither; their `ftyp` and `mdat` alone are, and of the other codec there is one frame."""
    for path in sorted([*REAL.glob("*.3gp"), *REAL.glob("*.amr"), *REAL.glob("*.awb")]):
        for name, told in TOLD.items():
            yield "60-%s-told-%s" % (path.name, name), told, path.read_bytes(), None
    for stem, told, size, by_other in (("f02_amrnb_time.3gp", 0, 32, 59), ("f04_amrwb.3gp", 1, 61, 6)):
        file = (REAL / stem).read_bytes()
        yield from remains("left-of-" + stem, told, file, size)
        yield "0-left-of-%s-by-other-codec" % stem, 1 - told, left(boxes_of(file)["mdat"][1][:1000]), by_other


def cases():
    """(name, what is told, file, how many bytes are kept)."""
    for group in (sizes, wide, behind, between, contents, first_sizes, codes, cuts, ends):
        yield from group()
    for group in (dumped, padded, zeros, strange, other_codec, own, real):
        yield from group()


# ---- Files of many frames: a start, and zeros behind it, which are frames of type 0


def long_left(name, *frames, zeros, more=0, size=0):
    """So many frames of type 0 behind those that are given, and more zeros behind these."""
    start = left(b"".join(frames), size)
    return start, len(start) + ZEROS[name] * zeros + more, len(b"".join(frames)) + ZEROS[name] * zeros


def most_frames():
    """(name, frames, frames of type 0, zeros behind them) around 65,536 frames and a file of 1,048,576 bytes, in AMR."""
    bare, longer = frame(AMR, 15), frame(AMR, 1)
    longest, most = (bare,) * 5508 + (longer,) * 10, (bare,) * 5600
    # all that may be kept: a byte more in a frame is too much, a byte or a good frame behind them is dropped
    yield "0-most-frames-in-the-longest", longest, 60018, 0
    yield "0-most-frames-in-the-longest-and-one", longest, 60018, 13
    yield "24-most-frames-a-byte-over", (bare,) * 5508 + (longer,) * 11, 60017, 0
    yield "24-most-frames-a-byte-over-and-one", (bare,) * 5508 + (longer,) * 11, 60017, 13
    # the limit of frames alone
    yield "0-one-frame-less", most, 59935, 0
    yield "0-one-frame-less-and-a-cut-one", most, 59935, 12
    for more in (0, 1, 12, 13, 14, 130000):
        yield "0-most-frames-and-%d" % more, most, 59936, more
    for more in (0, 13):
        yield "24-most-frames-of-type-0-and-%d" % more, (), 65536, more


def long_salvages():
    """(name, what is told, start, length, how many bytes are kept)."""
    for name, frames, count, more in most_frames():
        start, length, kept = long_left("amr", *frames, zeros=count, more=more)
        yield name, 0, start, length, kept
    # wideband, where fewer frames fill a file
    bare, longer = frame(WIDEBAND, 15), frame(WIDEBAND, 1)
    for more in (0, 17):
        yield "0-wideband-longest-and-%d" % more, 1, *long_left("wideband", longer, longer, zeros=47635, more=more)
    yield "24-wideband-a-byte-over", 1, *long_left("wideband", bare, *(longer,) * 5, zeros=47631)
    yield from longest_files()


def longest_files():
    """Files of 1,048,576 bytes and of one more, which end as the answer needs it."""
    most = files.LONGEST - PLACE
    good, bad = (frame(AMR, 15),) * 5600, frame(AMR, 9)
    for size in (0, most + 1, 2**32 - 1):
        start, _, kept = long_left("amr", *good, zeros=59936, size=size)
        yield "0-longest-size-%d" % size, 0, start, files.LONGEST, kept
        yield "1-longer-size-%d" % size, 0, start, files.LONGEST + 1, None
    yield "60-longest-size-exact", 0, left(b"".join(good), most), files.LONGEST, None
    yield "24-longest-of-zeros", 0, left(b""), files.LONGEST, None
    yield "24-longest-of-zeros-wideband", 1, left(b""), files.LONGEST, None
    yield "61-longest-of-zeros-behind-a-bad-frame", 0, left(bad), files.LONGEST, None
    yield "60-longest-ftyp", 0, w(files.LONGEST) + b"ftyp", files.LONGEST, None
    yield "60-longest-ftyp-but-a-header", 0, w(files.LONGEST - 8) + b"ftyp", files.LONGEST, None
    yield "1-longer-of-zeros", 1, b"", files.LONGEST + 1, None


# ---- The cases hold


def refusal(file, codec):
    try:
        answers.salvage(file, codec)
    except answers.Refusal as refusal:
        return refusal.number, refusal.place
    return 0, 0


def all_salvages():
    for name, told, file, kept in cases():
        yield name, told, file, len(file), kept
    yield from long_salvages()


def check_sizes(name, file, codec):
    """Each sample of a file is as long as the type in its header says."""
    stbl = answers.tracks_in(answers.parsed(file))[0].one("mdia/minf/stbl")
    found, samples, at = files.sizes(stbl.one("stsz").payload), dumps.joined(file), 0
    for size in found:
        assert size == 1 + codec.data[answers.type_of(samples[at])], name
        at += size
    return len(found)


def check_saved(name, file, codec, kept):
    """What is saved is the file of a dump of the kept bytes; kept and dropped bytes make up the payload."""
    saved, (field, frames, dropped, first) = answers.salvage(file, codec)
    place = files.num(file, 0)
    payload = file[place + 8 :]
    assert field == files.num(file, place) and (field == 0 or place + field > len(file)), name
    assert kept + dropped == len(payload) and first == place + 8 + kept == len(file) - dropped, name
    assert files.judge(saved) == (0, 0) and dumps.joined(saved) == payload[:kept], name
    assert frames == check_sizes(name, saved, codec) and len(saved) == 550 + 4 * frames + kept, name
    assert saved == answers.from_amr(codec.magic + payload[:kept]), name


def check():
    """Each answer is what its name says."""
    for name, told, start, length, kept in all_salvages():
        file, codec = start.ljust(length, b"\0"), answers.codec_told(told)
        number = int(name.split("-")[0])
        assert refusal(file, codec) == (number, 0), (name, refusal(file, codec))
        if number == 0:
            check_saved(name, file, codec, kept)
