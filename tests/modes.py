"""Files whose samples are listened to: where each lies, and the first of a track of speech that fails.

Every file is made with what the documents say of it, told from how it was made and not read from its bytes: the place and the length
of each sample, and for each track the sample that fails with why it does, nothing, or the refusal 20. The answers worked out apart
from these cases must agree."""
import answers
import dumps
import files
import forms
from answers import AMR, WIDEBAND
from dumps import CODECS, frame, with_bits
from files import LONGEST, Box, audio, damr, d263, esds, visual, w

BAD, COUNT, BIT = 1, 2, 3
# no such track, or one with other entries
NONE = 20
# the bits that a mode_set may have
MODES = {"amr": 0x81FF, "wideband": 0x83FF}
NEW = ("3gp6", "isom")
# a file of release 4: up to 255 frames in a sample
OLD = ("3gp4",)


# ---- A file, as it is made


class Chunk:
    """Samples of one description (from 1), and where they begin in the media."""

    def __init__(self, *samples, description=1, at=None):
        self.samples, self.description, self.at = samples, description, at


def spread(chunks, gap=b""):
    """The media of chunks that stand in this order; each is told where."""
    media = b""
    for chunk in chunks:
        chunk.at = len(media)
        media += b"".join(chunk.samples) + gap
    return media


def runs(chunks, split):
    """A run for all chunks that are alike and follow each other, or for each chunk one."""
    rows = [(number, len(chunk.samples), chunk.description) for number, chunk in enumerate(chunks, 1)]
    return [row for before, row in zip([(0, 0, 0), *rows], rows) if split or before[1:] != row[1:]]


def tables(chunks, common, split):
    sizes = [len(sample) for chunk in chunks for sample in chunk.samples]
    n = len(sizes)
    stsz = Box("stsz", w(0, sizes[0], n)) if common else files.stsz(*sizes)
    return [files.stts(*[(n, 160)] * min(n, 1)), files.stsc(*runs(chunks, split)), files.stco(*[chunk.at for chunk in chunks]), stsz]


class Track:
    """Entries, chunks, and what is said of the samples; a common size has to be that of all of them."""

    def __init__(self, entries, chunks, wanted, handler=b"soun", common=False, split=False):
        self.entries, self.chunks, self.wanted, self.handler, self.common, self.split = entries, chunks, wanted, handler, common, split

    def box(self, number):
        return files.trak(number, self.entries, self.handler, tables=tables(self.chunks, self.common, self.split))

    def places(self, start):
        """The place and the length of each sample, where the media start there."""
        for chunk in self.chunks:
            at = start + chunk.at
            for sample in chunk.samples:
                yield from (at, len(sample))
                at += len(sample)


def made(name, tracks, media=None, brands=NEW, turned=False, changed=lambda file: file):
    """(name, file, for each track its samples' numbers and what is wanted); the media of all chunks in turn where no others are given."""
    media = spread([chunk for track in tracks for chunk in track.chunks]) if media is None else media
    moov = Box("moov", files.mvhd(), *[track.box(number) for number, track in enumerate(tracks, 1)])
    mdat = Box("mdat", media)
    boxes = changed([files.ftyp(*brands), *([mdat, moov] if turned else [moov, mdat])])
    file = files.build(boxes)
    return name, file, [([*track.places(mdat.place + mdat.head)], track.wanted) for track in tracks]


def entry(codec, mode_set=None, frames=1):
    """A description of a codec, by its name."""
    return audio(CODECS[codec].code, damr(MODES[codec] if mode_set is None else mode_set, 0, frames))


def speech(name, codec, samples, wanted, mode_set=None, frames=1, brands=NEW):
    """One track of one description, all samples in one chunk."""
    return made(name, [Track([entry(codec, mode_set, frames)], [Chunk(*samples)], wanted)], brands=brands)


def of_types(codec, *kinds):
    """A sample of frames of these types."""
    return b"".join(frame(CODECS[codec], kind, number % 2, number) for number, kind in enumerate(kinds, 1))


# ---- Frames


def known():
    """Each type: its quality bit and its data are free, its own bit in mode_set is asked for, type 14 has none."""
    for codec, its in CODECS.items():
        for kind in its.data:
            name, own = "%s-type-%d" % (codec, kind), 1 << kind & MODES[codec]
            yield speech(name + "-quality-0", codec, [frame(its, kind, 0)], [])
            yield speech(name + "-data-ff", codec, [frame(its, kind, 0)[:1] + b"\xff" * its.data[kind]], [])
            yield speech(name + "-its-bit-alone", codec, [frame(its, kind)], [], mode_set=own)
            missing = [] if kind == 14 else [1, BIT]
            yield speech(name + "-all-bits-but-its", codec, [frame(its, kind)], missing, mode_set=MODES[codec] & ~own)
            if kind in (0, 14, 15):
                yield speech(name + "-no-bits", codec, [frame(its, kind, 0)], missing, mode_set=0)


def unknown():
    """Types that a codec doesn't have are bad frames, as headers alone, with data, and with the bits of all modes or of none."""
    for codec, its in CODECS.items():
        for kind in range(16):
            if kind not in its.data:
                name = "%s-type-%d" % (codec, kind)
                yield speech(name + "-alone", codec, [bytes([kind << 3])], [1, BAD], mode_set=0)
                yield speech(name + "-with-data", codec, [frame(its, 0), frame(its, kind), frame(its, 0)], [2, BAD])
                samples = [of_types(codec, 0, 0, 0), of_types(codec, 15, 0) + bytes([kind << 3 | 4])]
                yield speech(name + "-last", codec, samples, [2, BAD], frames=3)


def unset():
    """One frame without its bit, in each place of each of three samples, and the last of 15; a frame of type 14 hides none."""
    for codec in CODECS:
        for at in range(9):
            kinds = [0] * 9
            kinds[at] = 5
            samples = [of_types(codec, *kinds[first : first + 3]) for first in (0, 3, 6)]
            name = "%s-unset-sample-%d-frame-%d" % (codec, at // 3 + 1, at % 3 + 1)
            yield speech(name, codec, samples, [at // 3 + 1, BIT], MODES[codec] & ~(1 << 5), 3)
        yield speech(codec + "-unset-frame-15", codec, [of_types(codec, *[15] * 14, 5)], [1, BIT], 0x8000, 15)
    for kinds in ((14, 5, 14), (5, 14, 14), (14, 14, 5)):
        yield speech("wideband-unset-types-%d-%d-%d" % kinds, "wideband", [of_types("wideband", *kinds)], [1, BIT], 0, 3)


def padded():
    """Each padding bit, in each of three frames."""
    for codec, its in CODECS.items():
        for bits in (0x80, 0x02, 0x01, 0x83):
            for kind in (0, 15):
                for at in range(3):
                    sample = (kind + at + bits) % 3
                    good = [[frame(its, 0), frame(its, 15), frame(its, 7, 0)] for _ in range(3)]
                    good[sample][at] = with_bits(frame(its, kind, at % 2), bits)
                    name = "%s-padding-%02x-type-%d-sample-%d-frame-%d" % (codec, bits, kind, sample + 1, at + 1)
                    yield speech(name, codec, [b"".join(frames) for frames in good], [sample + 1, BAD], frames=3)


def cut():
    """Frames that end too early, whatever stands behind them in the file; and bytes too many, which are a frame more or a bad one."""
    for codec, its in CODECS.items():
        good = frame(its, 3)
        for kind, size in its.data.items():
            name = "%s-type-%d" % (codec, kind)
            for kept in (1, 1 + size // 2) if size else ():
                yield speech("%s-cut-to-%d" % (name, kept), codec, [good, frame(its, kind)[:kept], good], [2, BAD])
            if size:
                yield speech(name + "-cut-last", codec, [good, good, frame(its, kind)[:-1]], [3, BAD])
            if kind in (0, 8, 14, 15):
                yield speech(name + "-and-zero", codec, [frame(its, kind) + b"\0", good], [1, BAD])
                yield speech(name + "-and-type-15", codec, [frame(its, kind) + b"\x78", good], [1, COUNT])
        # what the first lacks the second has too many: joined they would be two good frames
        yield speech(codec + "-a-byte-over-to-the-next", codec, [good[:-1], good[-1:] + good], [1, BAD])
        yield speech(codec + "-a-byte-of-the-next", codec, [good + good[:1], good[1:]], [1, BAD])


# ---- Counts


def counted(codec, number):
    """A sample of so many frames, short ones."""
    return of_types(codec, *[15 if k % 4 else 8 for k in range(1, number + 1)])


def counts_of(codec, frames, numbers, brands):
    """So many frames in one of three samples, whose others have as many as they must, and in an only one: the last may have fewer, but not none."""
    for number in numbers:
        name = "%s-%d-frames-of-%d" % (codec, number, frames)
        for way, at, least in (("first", 0, frames), ("middle", 1, frames), ("last", 2, 1)):
            samples = [counted(codec, frames)] * 3
            samples[at] = counted(codec, number)
            wanted = [] if least <= number <= frames else [at + 1, COUNT]
            yield speech("%s-%s" % (name, way), codec, samples, wanted, frames=frames, brands=brands)
        alone = [] if 1 <= number <= frames else [1, COUNT]
        yield speech(name + "-alone", codec, [counted(codec, number)], alone, frames=frames, brands=brands)


def counts():
    """Few frames and many in a sample, also so many more that 8 bits don't count them."""
    for codec, frames in (("amr", 1), ("amr", 3), ("amr", 15), ("wideband", 1), ("wideband", 15)):
        yield from counts_of(codec, frames, sorted({0, 1, frames - 1, frames, frames + 1, 256 + frames}), NEW)
    yield from counts_of("amr", 255, (0, 1, 254, 255, 256, 511), OLD)
    yield from counts_of("wideband", 16, (0, 1, 15, 16, 17, 272), OLD)


def shorts():
    """Fewer frames at the end of a chunk, of a run and of a description are a wrong count; only the last sample of the track may have fewer."""
    full, few, none = counted("amr", 3), counted("amr", 2), b""
    for what, short in (("short", few), ("empty", none)):
        for name, more, own in (("chunk", 2, 1), ("run", 3, 1), ("description", 2, 2)):
            chunks = [Chunk(full, short), Chunk(*[full] * more, description=own)]
            yield made("%s-at-end-of-%s" % (what, name), [Track([entry("amr", None, 3)] * 2, chunks, [2, COUNT])])
    yield speech("short-then-empty", "amr", [full, few, none], [2, COUNT], frames=3)
    yield speech("full-then-two-empty", "amr", [full, none, none], [2, COUNT], frames=3)
    yield speech("all-empty", "wideband", [none] * 3, [1, COUNT], frames=3)
    yield speech("one-empty", "wideband", [none], [1, COUNT])


# ---- The three reasons


def reasons():
    """Every set of the three reasons in one sample, the bad frame last or first, the sample the middle or the last one: the lowest is given."""
    for codec, its in CODECS.items():
        good, unset, bad = frame(its, 0), frame(its, 1), with_bits(frame(its, 0), 1)
        for number in range(8):
            wrong = [why for why in (BAD, COUNT, BIT) if number >> (why - 1) & 1]
            for way, at in (("middle", 1), ("last", 2)):
                for first in (True, False) if BAD in wrong else (False,):
                    frames = [unset if BIT in wrong else good] + [good] * (3 if COUNT in wrong else 2)
                    # a bad frame takes the place of a good one
                    frames = [bad, *frames[:-1]] if first else [*frames[:-1], bad] if BAD in wrong else frames
                    samples = [good * 3] * 3
                    samples[at] = b"".join(frames)
                    name = "%s-why-%s-%s-%s" % (codec, "-".join(map(str, wrong)) or "none", way, "first" if first else "end")
                    yield speech(name, codec, samples, [at + 1, min(wrong)] if wrong else [], MODES[codec] & ~2, 3)


def ends():
    """A bad frame at the end of a sample that has too few, enough or too many good ones, all of them with or without their bit."""
    its = AMR
    bads = [("padding", with_bits(frame(its, 15), 2)), ("type", bytes([9 << 3])), ("cut", frame(its, 0)[:12]), ("zero", b"\0")]
    for what, bad in bads:
        for number in (0, 2, 3, 40):
            for kind in (0, 1):
                name = "%s-behind-%d-of-type-%d" % (what, number, kind)
                yield speech(name, "amr", [frame(its, kind) * number + bad], [1, BAD], 0x8001, 3)


def between():
    """Of two samples that fail the first is given, whatever is wrong with the second, and wherever it stands in the file."""
    its = WIDEBAND
    good = frame(its, 0)
    wrong = {BAD: good[:5], COUNT: good * 2, BIT: frame(its, 1)}
    for one, first in wrong.items():
        for two, second in wrong.items():
            chunks = [Chunk(good), Chunk(first), Chunk(good, second), Chunk(good)]
            for way, order in (("forward", chunks), ("backward", chunks[::-1])):
                media = spread(order)
                yield made("%d-before-%d-%s" % (one, two, way), [Track([entry("wideband", 1)], chunks, [2, one])], media)


# ---- Descriptions


def described(name, entries, chunks, wanted, **form):
    return made(name, [Track(entries, chunks, wanted)], **form)


def own_modes():
    """Two descriptions with other modes: each sample is held to its own."""
    low, high = frame(AMR, 0), frame(AMR, 7)
    entries = [entry("amr", 1), entry("amr", 1 << 7)]
    for name, parts, wanted in (
        ("each-its-own", ((1, low), (2, high), (1, low), (2, high)), []),
        ("first-turned", ((2, low), (1, low), (2, high)), [1, BIT]),
        ("second-turned", ((1, low), (1, high), (2, high)), [2, BIT]),
        ("last-turned", ((1, low), (2, high), (2, low)), [3, BIT]),
        ("all-of-the-second", ((2, high), (2, high)), []),
        ("second-first", ((2, high), (1, low)), []),
        ("all-of-the-first", ((1, low), (1, low), (1, high)), [3, BIT]),
    ):
        yield described("modes-" + name, entries, [Chunk(sample, description=own) for own, sample in parts], wanted)


def own_codecs():
    """AMR and wideband in one track, with one and with three frames in a sample."""
    entries = [entry("amr", None, 1), entry("wideband", None, 3)]
    one, three = of_types("amr", 4), of_types("wideband", 9, 14, 4)
    for name, parts, wanted in (
        ("each-its-own", ((1, one), (2, three), (1, one)), []),
        ("wideband-last", ((1, one), (2, of_types("wideband", 9))), []),
        ("wideband-last-of-two", ((1, one), (2, of_types("wideband", 9, 14))), []),
        ("wideband-last-of-four", ((1, one), (2, of_types("wideband", 9, 14, 15, 15))), [2, COUNT]),
        ("amr-last-of-two", ((2, three), (1, of_types("amr", 15, 15))), [2, COUNT]),
        ("amr-of-three", ((1, of_types("amr", 15, 15, 15)), (2, three)), [1, COUNT]),
        ("wideband-of-one", ((2, of_types("wideband", 15)), (1, one)), [1, COUNT]),
        ("wideband-in-amr", ((1, one), (1, of_types("wideband", 9)), (2, three)), [2, BAD]),
        ("type-14-in-amr", ((2, three), (1, of_types("wideband", 14)), (2, three)), [2, BAD]),
        ("amr-in-wideband", ((2, three), (2, one * 3), (1, one)), [2, BAD]),
        ("no-data-in-either", ((1, of_types("amr", 15)), (2, of_types("amr", 15, 15, 15)), (1, of_types("amr", 15))), []),
    ):
        yield described("codecs-" + name, entries, [Chunk(sample, description=own) for own, sample in parts], wanted)
    # zeros are frames of 18 bytes in wideband and of 13 in AMR
    low = bytes(18)
    yield described("codecs-zeros-as-wideband", entries[::-1], [Chunk(low * 3), Chunk(low[:13], description=2)], [])
    yield described("codecs-zeros-as-amr", entries, [Chunk(low), Chunk(low * 3, description=2)], [1, BAD])


def own_counts():
    """Descriptions with other frames in a sample: the last sample goes by its own, too."""
    numbers = (1, 3, 15, 2)
    entries = [entry("amr", None, number) for number in numbers]
    full = [Chunk(counted("amr", number), description=own) for own, number in enumerate(numbers, 1)]
    yield described("counts-each-its-own", entries, full, [])
    yield described("counts-turned", entries, full[::-1], [])
    for at in range(3):
        for less in (1, -1):
            chunks = full[:]
            chunks[at] = Chunk(counted("amr", numbers[at] - less), description=at + 1)
            yield described("counts-of-%d-less-%d" % (numbers[at], less), entries, chunks, [at + 1, COUNT])
    for own, number in enumerate(numbers, 1):
        for given in sorted({1, number, number + 1}):
            chunks = [full[2], Chunk(counted("amr", given), description=own)]
            yield described("counts-last-%d-of-%d" % (given, number), entries, chunks, [] if given <= number else [2, COUNT])
    entries = [entry("amr", None, 255), entry("wideband", None, 16)]
    chunks = [Chunk(counted("amr", 255)), Chunk(counted("wideband", 16), description=2), Chunk(counted("amr", 254))]
    yield described("counts-of-release-4", entries, chunks, [], brands=OLD)
    yield described("counts-of-release-4-short", entries, chunks[::-1], [1, COUNT], brands=OLD)


def most_descriptions():
    """32 descriptions, each with the mode of its own sample; one of them has another."""
    kinds = [k % 9 for k in range(files.MOST)]
    for bent in (None, 1, 2, 9, 31, 32):
        entries = [entry("amr", 1 << (kind if own != bent else (kind + 1) % 9)) for own, kind in enumerate(kinds, 1)]
        chunks = [Chunk(frame(AMR, kind), description=own) for own, kind in enumerate(kinds, 1)]
        yield described("32-descriptions-bent-%s" % bent, entries, chunks, [bent, BIT] if bent else [])
        wanted = [33 - bent, BIT] if bent else []
        yield described("32-descriptions-turned-bent-%s" % bent, entries, chunks[::-1], wanted)
        # a description that no sample has can't fail
        used = [chunk for chunk in chunks if chunk.description != bent]
        if bent:
            yield described("32-descriptions-without-%s" % bent, entries, used, [])


# ---- Tables


def three_chunks():
    """Chunks of 2, 1 and 3 samples, the last two of another description."""
    one, two = frame(AMR, 0), frame(AMR, 7)
    return [Chunk(one, one), Chunk(two, description=2), Chunk(two, two, two, description=2)]


BOTH = (1, 1 << 7)


def chunk_orders():
    """Chunks in every order in the media, close and apart; in every other order with a run for each chunk."""
    for k, order in enumerate(((0, 1, 2), (0, 2, 1), (1, 0, 2), (1, 2, 0), (2, 0, 1), (2, 1, 0))):
        for gap in (b"", b"\xff", bytes(9)):
            chunks = three_chunks()
            media = spread([chunks[at] for at in order], gap)
            track = Track([entry("amr", modes) for modes in BOTH], chunks, [], split=k % 2 == 1)
            yield made("chunks-%d-%d-%d-apart-%d" % (*order, len(gap)), [track], media)
    # in the file's order another sample would be the first that fails
    for order in ((0, 1, 2), (2, 1, 0), (1, 2, 0)):
        chunks = three_chunks()
        media = spread([chunks[at] for at in order])
        yield made("chunks-%d-%d-%d-bent" % order, [Track([entry("amr", 0), entry("amr", 0)], chunks, [1, BIT])], media)
        yield made("chunks-%d-%d-%d-second-bent" % order, [Track([entry("amr", 1), entry("amr", 0)], chunks, [3, BIT])], media)


def run_shapes():
    """Runs that change the samples of a chunk, the description, both or neither."""
    low, high = frame(WIDEBAND, 0), frame(WIDEBAND, 8)
    sample = {1: low, 2: high}
    shapes = [
        ("same", ((2, 1), (2, 1), (2, 1))),
        ("counts", ((1, 1), (2, 1), (2, 1), (3, 1), (1, 1))),
        ("descriptions", ((2, 1), (2, 2), (2, 2), (2, 1))),
        ("both", ((1, 1), (2, 2), (3, 1), (3, 2), (1, 2))),
        ("many-in-one", ((20, 2),)),
        ("one-in-many", ((1, 1),) * 20),
        ("last-of-many", ((1, 1),) * 19 + ((2, 2),)),
    ]
    for name, shape in shapes:
        for split in (False, True):
            chunks = [Chunk(*[sample[own]] * count, description=own) for count, own in shape]
            many = sum(count for count, _ in shape)
            entries = [entry("wideband", 1), entry("wideband", 1 << 8)]
            name_split = name + ("-split" if split else "")
            yield made("runs-" + name_split, [Track(entries, chunks, [], split=split)])
            last = chunks[-1].samples[:-1] + (sample[3 - shape[-1][1]],)
            chunks[-1] = Chunk(*last, description=shape[-1][1])
            yield made("runs-%s-last-bent" % name_split, [Track(entries, chunks, [many, BIT], split=split)])


def sizes():
    """A common size and a table of the same; tables with sizes that differ and sizes of 0."""
    for codec, its in CODECS.items():
        for common in (False, True):
            for kind in (0, 7, 15):
                chunks = [Chunk(*[frame(its, kind)] * 3), Chunk(frame(its, kind, 0))]
                yield made("%s-size-of-type-%d-common-%d" % (codec, kind, common), [Track([entry(codec)], chunks, [], common=common)])
            chunks = [Chunk(*[frame(its, 5) * 3] * 2), Chunk(frame(its, 5) * 3)]
            yield made("%s-three-of-a-size-common-%d" % (codec, common), [Track([entry(codec, None, 3)], chunks, [], common=common)])
            good = frame(its, 2)
            chunks = [Chunk(good, good), Chunk(frame(its, 15) * len(good))]
            yield made("%s-many-of-a-size-common-%d" % (codec, common), [Track([entry(codec)], chunks, [3, COUNT], common=common)])
    good = frame(AMR, 6)
    for at in range(4):
        samples = [good] * 4
        samples[at] = b""
        yield speech("empty-sample-%d" % (at + 1), "amr", samples, [at + 1, COUNT])
    chunks = [Chunk(good), Chunk(b""), Chunk(b"", b""), Chunk(good)]
    yield made("empty-chunks", [Track([entry("amr")], chunks, [2, COUNT])])
    chunks = [Chunk(good, at=0), Chunk(good, at=0), Chunk(b"", at=len(good))]
    yield made("empty-chunk-at-the-end", [Track([entry("amr")], chunks, [3, COUNT])], good)
    chunks = [Chunk(b"", at=0)]
    yield made("empty-chunk-in-empty-media", [Track([entry("amr")], chunks, [1, COUNT])], b"")


def overlaps():
    """Chunks over the same bytes, each read by its own description."""
    good = frame(AMR, 3)
    chunks = [Chunk(good, at=0) for _ in range(5)]
    yield made("same-chunk-five-times", [Track([entry("amr")], chunks, [])], good)
    # zeros are frames wherever one starts
    media = bytes(60)
    entries = [entry("amr"), entry("wideband")]
    chunks = [Chunk(bytes(13), at=at) for at in (0, 5, 1, 47, 13)]
    yield made("zeros-overlap", [Track(entries, chunks, [])], media)
    chunks = [Chunk(bytes(13), bytes(13), at=3), Chunk(bytes(18), at=0, description=2), Chunk(bytes(18), at=42, description=2)]
    yield made("zeros-overlap-in-both", [Track(entries, chunks, [])], media)
    chunks = [Chunk(bytes(18), at=0, description=2), Chunk(bytes(18), at=0)]
    yield made("same-bytes-in-both", [Track(entries, chunks, [2, BAD])], media)
    media = good + good[:1]
    chunks = [Chunk(good, at=0), Chunk(good[1:] + good[:1], at=1)]
    yield made("overlap-by-one-less", [Track([entry("amr")], chunks, [2, BAD])], media)
    media = frame(AMR, 15) * 2 + good
    chunks = [Chunk(frame(AMR, 15) + frame(AMR, 15), at=0), Chunk(frame(AMR, 15) + good, at=1), Chunk(good, at=2)]
    yield made("overlap-frame-by-frame", [Track([entry("amr", None, 2)], chunks, [])], media)
    # two tracks share their bytes
    first, second = [Chunk(good, good, at=0)], [Chunk(good, at=len(good)), Chunk(good, at=0)]
    tracks = [Track([entry("amr")], first, []), Track([entry("amr", 0)], second, [1, BIT])]
    yield made("tracks-share", tracks, good * 2)


def several_mdats():
    """Samples in two `mdat`s, which stand before, behind and around the `moov`."""
    good, other = frame(AMR, 1), frame(AMR, 2)
    first, second = Box("mdat", good * 2), Box("mdat", b"\xff" + other)
    for name, between in (("close", []), ("free", [Box("free", b"12345")]), ("empty", [Box("mdat"), Box("mdat")])):
        for way in ("behind", "before", "around"):
            track = Track([entry("amr")], [Chunk(other, at=0), Chunk(good, at=0), Chunk(other, at=0), Chunk(good, at=len(good))], [])
            moov = Box("moov", files.mvhd(), track.box(1))
            middle = [*between, moov] if way == "around" else between
            # a place is counted from the payload of the first: up to its end, over what stands between, a header and a byte
            track.chunks[0].at = track.chunks[2].at = len(good * 2) + len(files.lay(middle, 0, 0)) + 8 + 1
            moov.body[-1] = track.box(1)
            media = [first, *middle, second]
            file = files.build([files.ftyp(*NEW), *{"behind": [moov, *media], "before": [*media, moov], "around": media}[way]])
            yield "mdats-%s-%s" % (name, way), file, [([*track.places(first.place + first.head)], [])]


def box_forms():
    """Wide boxes and open ones, and the media before the `moov`."""

    def track():
        return Track([entry("wideband")], [Chunk(of_types("wideband", 0), of_types("wideband", 14)), Chunk(of_types("wideband", 7))], [])

    yield made("speech-moov-last", [track()], turned=True)
    for name in ("mdat", "moov", "stsd", "stsc", "stsz", "stco"):
        yield made("speech-wide-" + name, [track()], changed=lambda file: forms.widened(file, name))
    yield made("speech-all-wide", [track()], changed=forms.all_wide)
    yield made("speech-open-mdat", [track()], changed=forms.opened)
    yield made("speech-open-moov", [track()], turned=True, changed=forms.opened)


# ---- Tracks


def spoken(codec, wanted=()):
    """A track of two samples that passes, or fails as wanted."""
    modes = 0 if wanted else None
    return Track([entry(codec, modes)], [Chunk(of_types(codec, 0)), Chunk(of_types(codec, 15))], list(wanted))


def strange(entries, handler=b"soun", samples=(b"any", b"", b"bytes")):
    """A track of other entries: its samples are found, and there are no modes to be asked for."""
    return Track(entries, [Chunk(*samples[:2]), Chunk(*samples[2:])], NONE, handler)


def picture():
    return strange([visual("s263", d263())], b"vide")


def text(code="tx3g"):
    return strange([Box(code, bytes(6), b"\0\1", b"rest")], b"text")


def no_samples():
    """Tracks without samples pass, but for other entries."""
    for codec in CODECS:
        yield made("no-samples-%s" % codec, [Track([entry(codec, 0, 15)], [], [])])
    yield made("no-samples-of-either", [Track([entry("amr"), entry("wideband")], [], [])])
    yield made("no-samples-of-text", [Track([Box("tx3g", bytes(6), b"\0\1")], [], NONE, b"text")])
    yield made("no-samples-with-other", [Track([entry("amr"), audio("mp4a", esds())], [], NONE)])
    yield made("no-samples-but-in-track-2", [Track([entry("amr")], [], []), spoken("amr", [1, BIT]), Track([entry("amr")], [], [])])


def other_entries():
    """A track where any entry is of another kind, used or not, before or behind those of speech."""
    others = {"mp4a": audio("mp4a", esds()), "tx3g": Box("tx3g", bytes(6), b"\0\1"), "SAMR": Box("SAMR", bytes(6), b"\0\1")}
    others["sawp"] = Box("sawp", bytes(6), b"\0\1", bytes(37))
    for name, stranger in others.items():
        yield made("only-" + name, [strange([stranger])])
        good = frame(AMR, 0)
        for used in (1, 2):
            for way, entries in (("behind", [entry("amr"), stranger]), ("before", [stranger, entry("amr")])):
                chunks = [Chunk(good, description=used), Chunk(good, description=used)]
                yield made("%s-%s-used-%d" % (name, way, used), [Track(entries, chunks, NONE)])
        # a sample that fails doesn't count either
        yield made(name + "-and-bad", [Track([entry("amr", 0), stranger], [Chunk(b"\xff")], NONE)])
    entries = [entry("wideband"), others["mp4a"], entry("amr")]
    yield made("mp4a-between", [Track(entries, [Chunk(frame(AMR, 0), description=3)], NONE)])
    yield made("mp4v", [strange([visual("mp4v", esds())], b"vide")])
    yield made("avc1", [strange([visual("avc1", Box("avcC"))], b"vide")])


def several_tracks():
    """Each track by itself, whatever the others are."""
    yield made("two-of-speech", [spoken("amr"), spoken("wideband")])
    yield made("first-fails", [spoken("amr", [1, BIT]), spoken("wideband")])
    yield made("second-fails", [spoken("amr"), spoken("wideband", [1, BIT])])
    yield made("four-of-speech", [spoken("amr"), spoken("wideband", [1, BIT]), spoken("wideband"), spoken("amr", [1, BIT])])
    yield made("picture-and-speech", [picture(), spoken("amr")])
    yield made("speech-and-picture", [spoken("amr"), picture()])
    yield made("all-kinds", [text(), spoken("wideband"), picture(), spoken("amr", [1, BIT])])
    yield made("none-of-speech", [text(), picture(), strange([audio("mp4a", esds())]), text("text")])


SHORT_CASES = [known, unknown, unset, padded, cut, counts, shorts, reasons, ends, between]
# of these all samples are asked for, too
WALKED = [own_modes, own_codecs, own_counts, most_descriptions, chunk_orders, run_shapes, sizes, overlaps, several_mdats, box_forms]
WALKED += [no_samples, other_entries, several_tracks]


def cases():
    """(name, file, for each track its samples' numbers and what is wanted, whether the samples are asked for)."""
    for group in SHORT_CASES:
        for name, file, tracks in group():
            yield name, file, tracks, False
    for group in WALKED:
        for name, file, tracks in group():
            yield name, file, tracks, True


# ---- Long files: zeros behind a start, which are frames of type 0


MOST = 65536


def zeros(number, size=13):
    return [bytes(size)] * number


def long_cases():
    """As the cases; each file ends in zeros."""
    everything, nothing = entry("amr"), entry("amr", 0)
    # as many samples as there may be: in one chunk of their own bytes, and in many over the same
    for name, entries, wanted in (("", [everything], []), ("-no-bits", [nothing], [1, BIT])):
        yield made("most-samples-one-chunk" + name, [Track(entries, [Chunk(*zeros(MOST))], wanted, common=True)])
    last = [("", everything, []), ("-no-bits", nothing, [MOST, BIT]), ("-of-two", entry("amr", None, 2), []), ("-wideband", entry("wideband"), [MOST, BAD])]
    for name, described, wanted in last:
        chunks = [*[Chunk(*zeros(256), at=k) for k in range(255)], Chunk(*zeros(255), at=9), Chunk(*zeros(1), at=5, description=2)]
        yield made("most-samples-last" + name, [Track([everything, described], chunks, wanted, common=True)], bytes(4096))
    chunks = [*[Chunk(*zeros(1), at=k % 7) for k in range(12000)], Chunk(*zeros(2), at=0)]
    yield made("a-chunk-for-each", [Track([everything], chunks, [], common=True)], bytes(40))
    # a table of sizes, all but the first of them 0
    for name, first, wanted in (("", [], [1, COUNT]), ("-but-two", zeros(2), [3, COUNT])):
        samples = [*first, *[b""] * (MOST - len(first))]
        yield made("most-samples-empty" + name, [Track([everything], [Chunk(*samples)], wanted)], turned=True)
    # one sample of many frames, which 8 or 16 bits don't count
    for name, described, brands, number, more, wanted in (
        ("80000", everything, NEW, 80000, 0, [1, COUNT]),
        ("80000-and-some", everything, NEW, 80000, 12, [1, BAD]),
        ("65537", everything, NEW, 65537, 0, [1, COUNT]),
        ("65791", entry("amr", None, 255), OLD, 65791, 0, [1, COUNT]),
        ("255", entry("amr", None, 255), OLD, 255, 0, []),
        ("no-bits", nothing, NEW, 80000, 0, [1, COUNT]),
    ):
        yield made("frames-" + name, [Track([described], [Chunk(bytes(13 * number + more))], wanted)], brands=brands)
    # samples up to the end of the longest file, whole and cut
    two = [Chunk(bytes(13), at=0), Chunk(bytes(13), at=0)]
    head = len(made("", [Track([everything], two, [])], b"")[1])
    for name, size, wanted in (("whole", 13, []), ("cut", 12, [2, BAD]), ("empty", 0, [2, COUNT])):
        chunks = [Chunk(bytes(13), at=0), Chunk(bytes(size), at=LONGEST - head - size)]
        yield made("longest-" + name, [Track([everything], chunks, wanted)], bytes(LONGEST - head))


# ---- The cases hold


def refusal(call, *given):
    try:
        return call(*given)
    except answers.Refusal as refusal:
        return refusal.number


def check():
    """Each answer is what was told from how the file was made; a track past the last is none."""
    for name, file, tracks in [*[case[:3] for case in cases()], *long_cases()]:
        assert files.judge(file) == (0, 0), (name, files.judge(file))
        for number, (numbers, wanted) in enumerate(tracks, 1):
            assert answers.samples(file, number) == numbers, name
            assert refusal(answers.modes, file, number) == wanted, (name, number, refusal(answers.modes, file, number), wanted)
        for number in (0, len(tracks) + 1):
            assert refusal(answers.samples, file, number) == refusal(answers.modes, file, number) == NONE, name
    # the frames of a dump have the modes of its file
    for name, dump, _ in dumps.cases():
        if name.startswith("0-"):
            file = answers.from_amr(dump)
            found = answers.samples(file, 1)
            assert answers.modes(file, 1) == [], name
            assert b"".join(file[at : at + size] for at, size in zip(found[::2], found[1::2])) == dump[len(answers.codec_of(dump).magic) :], name
