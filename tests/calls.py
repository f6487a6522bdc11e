#!/usr/bin/env python3
"""Writes what the program `test_calls` is run on (crates/test_calls/data) and what it must write (crates/test_calls/stdout).

The answers are those of tests/answers.py, which knows the documents and not the library's code."""
import pathlib
from itertools import groupby

import answers
import cases
import dumps
import files
import forms
import modes
import outlines
import salvages
from files import Box, audio, bitr, d263, damr, esds, h, num, patch, visual, w

ROOT = pathlib.Path(__file__).resolve().parent.parent
CALLS = ROOT / "crates" / "test_calls"
REAL = ROOT / "crates" / "test_parts" / "data"
GROUP = 65536
ROOM = 40000
LONG_ROOM = 1050000
FILL = 0xAA
PLAIN = ["judge", "tracks", "brand"]
NUMBERS = ["track", "record read", "newer"]
BYTES = ["sheet", "table", "record write", "listing", "shift", "replace", "move", "from amr", "salvage", "outline"]
# by the numbers that the program has for them, from 1
KINDS = [*PLAIN, *NUMBERS, "offsets", "part", *BYTES, "samples", "modes"]
# by the numbers that the program has for them, from 0
MINUTES = [0, 1, -1, 60, -60, 61, -61, 839, -839, 840, -840, 841, -841, 71582788, -71582788, 2**63 - 1, -(2**63)]
MINUTES += [2, -2, 2**32, -(2**32)]
HUGE = [2**32, 2**32 + 1, 2**63, 2**64 - 1]
NUMBER_FILL = 0xAAAAAAAAAAAAAAAA
# a room of so many numbers is shown, of a longer one its sum
SHOWN_NUMBERS = 16
MOST_NUMBERS = 131080


# ---- What the program writes of a call


def checksum(numbers):
    total = 7
    for n in numbers:
        total = (total * 31 + n % 2**31) % 2**31
    return total


def value(result):
    """What is said of a result that was given: a number itself, else its length; of a file and its report the file's."""
    if isinstance(result, int):
        return result
    return len(result[0] if isinstance(result, tuple) else result)


def told(call):
    """What a call answers, and its result, None where it is refused."""
    try:
        result = call()
    except answers.Refusal as refusal:
        return ": %d at %d" % (refusal.number, refusal.place), None
    return ": done %d" % value(result), result


def room_of_bytes(written, room):
    return " sum %d" % checksum(written.ljust(room, bytes([FILL])))


def room_of_numbers(written, room):
    return "".join(" %d" % n for n in written + [NUMBER_FILL] * (room - len(written)))


def line_bytes(call, room):
    text, result = told(lambda: answers.fit(call(), room))
    return text + room_of_bytes(result or b"", room)


def line_numbers(call, room):
    text, result = told(lambda: answers.fit(call(), room))
    return text + room_of_numbers(result or [], room)


def line_both(call, room, numbers):
    """Of a call with two rooms: one for a file, one for its report."""
    text, result = told(lambda: answers.fit_both(call(), room, numbers))
    file, report = result or (b"", [])
    return text + room_of_bytes(file, room) + room_of_numbers(report, numbers)


def line_list(call, room):
    text, result = told(lambda: answers.fit(call(), room))
    return text + " sum %d" % checksum(((result or []) + [0xAAAAAAAA] * 200)[:200])


def line_long_numbers(call, room):
    """The sum is that of both halves of each number."""
    text, result = told(lambda: answers.fit(call(), room))
    numbers = (result or []) + [NUMBER_FILL] * (room - len(result or []))
    return text + " sum %d" % checksum(half for n in numbers for half in (n >> 32, n % 2**32))


def line_part(call, files_given):
    """The part of the file that the entry stands in, and the order; an empty part where it is refused."""
    text, result = told(call)
    if result is None:
        return text + " sum %d" % checksum(b"")
    order, chosen, place, size = result
    return ": done %d sum %d" % (order, checksum(files_given[chosen - 1][place : place + size]))


# ---- The calls. Each maker answers (kind, name, room, three numbers, more bytes, the line after the name).


def judge(label, file):
    number, place = files.judge(file)
    return "judge", "judge %s" % label, 0, (), b"", ": %d at %d" % (number, place) if number else ": done 0"


def sheet(label, file, room):
    line = line_bytes(lambda: answers.sheet(file), room)
    return "sheet", "sheet %s room %d" % (label, room), room, (), b"", line


def table(label, given, track, room=600):
    line = line_bytes(lambda: answers.table(given, track), room)
    return "table", "table %s track %d room %d" % (label, track, room), room, (track,), b"", line


def brand(label, file, code):
    name = code if isinstance(code, str) else "0x%x" % code
    code = num(code.encode(), 0) if isinstance(code, str) else code
    return "brand", "brand %s of %s" % (name, label), 0, (code,), b"", told(lambda: answers.brand(file, code))[0]


def tracks(label, file):
    return "tracks", "tracks %s" % label, 0, (), b"", told(lambda: answers.tracks(file))[0]


def track(label, file, number, room=5):
    line = line_numbers(lambda: answers.track(file, number), room)
    return "track", "track %d of %s room %d" % (number, label, room), room, (number,), b"", line


def offsets(label, file, number, room=200):
    line = line_list(lambda: answers.offsets(file, number), room)
    return "offsets", "offsets %d of %s room %d" % (number, label, room), room, (number,), b"", line


def shift(label, file, minutes, room):
    line = line_bytes(lambda: answers.shift(file, minutes), room)
    return "shift", "shift %s by %d room %d" % (label, minutes, room), room, (MINUTES.index(minutes),), b"", line


def move(label, file, room):
    return "move", "move %s room %d" % (label, room), room, (), b"", line_bytes(lambda: answers.move(file), room)


def from_amr(label, dump, room):
    line = line_bytes(lambda: answers.from_amr(dump), room)
    return "from amr", "from amr %s room %d" % (label, room), room, (), b"", line


def salvage(label, file, wideband, room, numbers=4):
    line = line_both(lambda: answers.salvage(file, answers.codec_told(wideband)), room, numbers)
    name = "salvage %s told %d room %d report %d" % (label, wideband, room, numbers)
    return "salvage", name, room, (wideband, numbers), b"", line


def listing(label, file, room):
    line = line_bytes(lambda: answers.listing(file), room)
    if room >= len(answers.listing(file)):
        line += "\n" + answers.listing(file).decode()
    return "listing", "listing %s room %d" % (label, room), room, (), b"", line


def outline(label, file, room, shown=0):
    """Its first number is 1 where the text is shown."""
    line = line_bytes(lambda: answers.outline(file), room)
    if shown:
        line += "\n" + answers.outline(file).decode()
    return "outline", "outline %s room %d" % (label, room), room, (shown,), b"", line


def samples(label, file, number, room):
    line = (line_numbers if room <= SHOWN_NUMBERS else line_long_numbers)(lambda: answers.samples(file, number), room)
    return "samples", "samples %d of %s room %d" % (number, label, room), room, (number,), b"", line


def listen(label, file, number, room):
    line = line_numbers(lambda: answers.modes(file, number), room)
    return "modes", "modes %d of %s room %d" % (number, label, room), room, (number,), b"", line


def replace(label, file, entry, what, record, room):
    line = line_bytes(lambda: answers.replace(file, entry, record), room)
    return "replace", "replace %d of %s by %s room %d" % (entry, label, what, room), room, (entry,), record, line


def record_read(label, entry, room=12, release=6):
    line = line_numbers(lambda: answers.record_read(entry, release), room)
    return "record read", "record read %s release %d room %d" % (label, release, room), room, (release,), b"", line


def record_write(fields, room, release=6):
    line = line_bytes(lambda: answers.record_write(fields, release), room)
    name = "record write %s release %d room %d" % (" ".join(map(str, fields)), release, room)
    return "record write", name, room, (release,), b"", line


def newest(label, first, y, second, z, entry, room=4):
    line = line_numbers(lambda: answers.newest(first, y, second, z, entry), room)
    name = "newer %s %d %d entry %d room %d" % (label, y, z, entry, room)
    return "newer", name, room, (MINUTES.index(y), MINUTES.index(z), entry), w(len(first)), line


def part(label, first, y, second, z, entry):
    line = line_part(lambda: answers.newest(first, y, second, z, entry), (first, second))
    return "part", "part %s %d %d entry %d" % (label, y, z, entry), 0, (MINUTES.index(y), MINUTES.index(z), entry), w(len(first)), line


def both(*given):
    """The newer of two, and its part."""
    return [newest(*given), part(*given)]


# ---- Files. A chunk's offset is counted from the payload of its own mdat.


class At(files.Offset):
    def __init__(self, mdat, more=0):
        self.mdat, self.more = mdat, more

    @property
    def n(self):
        return (self.mdat.place or 0) + self.mdat.head + self.more


def made(file):
    files.lay(file, 0, 0)
    return files.lay(file, 0, 0)


def media(length, first):
    return Box("mdat", bytes((first + 7 * k) % 256 for k in range(length)))


def chunked(number, entries, handler, scale, places, samples=None, delta=160):
    """A track with one sample in each chunk: (mdat, place, size) of each."""
    n = len(places)
    runs = [(1, 1, len(entries))] if n else []
    tables = [files.stts(*([(n, delta)] if n else [])), files.stsc(*runs), files.stsz(*[size for _, _, size in places])]
    tables.append(Box("stco", w(0, n), *[At(mdat, at) for mdat, at, _ in places]))
    return files.trak(number, entries, handler, scale, tables)


def sawb():
    return audio("sawb", damr(0x83FF))


def avc1():
    return visual("avc1", Box("avcC", b"any"), Box("btrt", bytes(12)), name=b"n" * 32)


def other(code="tx3g", rest=b"rest"):
    return Box(code, bytes(6), h(1), rest)


def films():
    """(name, maker of the tracks over the mdats a and b)."""
    yield "h263", lambda a, b: [
        chunked(1, [visual("s263", d263())], b"vide", 15, [(a, 0, 10), (b, 4, 8), (a, 24, 0)]),
        chunked(7, [files.samr()], b"soun", 8000, [(b, 0, 16), (a, 3, 20), (b, 16, 0)]),
    ]
    yield "h263-rates", lambda a, b: [
        chunked(1, [visual("s263", d263(bitr()))], b"vide", 15, [(b, 0, 16), (a, 0, 1)], delta=1),
        chunked(2, [files.samr(period=2, frames=6)], b"soun", 8000, [(a, 23, 1)]),
    ]
    yield "speech", lambda a, b: [
        chunked(3, [files.samr(), other(), sawb()], b"soun", 8000, [(a, 2, 4), (b, 2, 4)], delta=2**32 - 1),
        chunked(2, [other()], b"text", 1000, []),
    ]
    yield "avc", lambda a, b: [
        chunked(1, [avc1()], b"vide", 90000, [(b, 1, 3), (b, 1, 3), (a, 1, 3)]),
        chunked(2, [audio("mp4a", esds(), scale=44100)], b"soun", 44100, [(a, 0, 24)]),
        chunked(3, [other("text")], b"hint", 600, [(b, 16, 0)]),
    ]


def layouts():
    free = Box("free", b"free!")
    yield "front", lambda moov, a, b: [moov, a, b]
    yield "back", lambda moov, a, b: [a, b, moov]
    yield "middle", lambda moov, a, b: [a, moov, b]
    yield "among-free", lambda moov, a, b: [Box("free"), a, free, moov, Box("skip", b"12"), b, Box("udta")]
    yield "free-first", lambda moov, a, b: [free, moov, a, free, b]
    yield "other-way", lambda moov, a, b: [b, free, moov, Box("mdat"), a, free]
    yield "back-and-more", lambda moov, a, b: [a, Box("trak", b"torn"), b, Box("mdat", b"12"), moov, free]


ALL_BRANDS = ("3gp4", "3gp5", "3gp6", "3gr6", "isom")


def set_times(file, *times):
    """Creation and modification times of mvhd, then of tkhd and mdhd of each track, as far as they go."""
    boxes = [files.get(file, "mvhd")]
    for n in range(len(files.boxes_of(boxes_body(file), "trak"))):
        boxes += [files.get(file, "tkhd", n), files.get(file, "mdhd", n)]
    for k, time in enumerate(times[: 2 * len(boxes)]):
        patch(boxes[k // 2], 4 + 4 * (k % 2), w(time))
    return file


def boxes_body(file):
    return files.get(file, "moov").body


def film(tracks_of, layout, brands=ALL_BRANDS, times=None):
    a, b = media(24, 1), media(16, 99)
    moov = Box("moov", files.mvhd(), *tracks_of(a, b))
    file = [files.ftyp(*brands)] + layout(moov, a, b)
    set_times(file, *(times or [10**9 + 12345 * k if k % 4 != 1 else 0 for k in range(20)]))
    if times is None:
        patch(files.get(file, "mvhd"), 8, w(3 * 10**9))
    return file


def all_films():
    for name, tracks_of in films():
        for place, layout in layouts():
            yield name + "-" + place, made(film(tracks_of, layout))


# ---- What each file is lent to


def rooms(n):
    return [n, n - 1, n + 9, 0]


def reads_of(label, file):
    count = answers.tracks(file)
    yield tracks(label, file)
    for n in range(0, count + 2):
        yield track(label, file, n)
        yield offsets(label, file, n)
    for name in answers.BRANDS:
        yield brand(label, file, name)
    for room in rooms(len(answers.sheet(file))):
        yield sheet(label, file, room)
    for room in rooms(len(answers.listing(file))):
        yield listing(label, file, room)
    yield outline(label, file, len(answers.outline(file)))


def edits_of(label, file):
    for minutes in (0, 60, -60, 840, -840, 841):
        yield shift(label, file, minutes, len(file) + 3)
    for room in rooms(len(file)):
        yield shift(label, file, 1, room)
        yield move(label, file, room)


def one(box):
    return files.lay([box], 0, 0)


def records():
    yield "damr", one(damr(0x8001, 0, 15))
    yield "d263", one(d263())
    yield "d263-rates", one(d263(Box("bitr", w(7, 2**32 - 1))))


def replacements_of(label, file):
    found = answers.entries_in(answers.parsed(file))
    for entry in range(0, len(found) + 2):
        for what, record in records():
            yield replace(label, file, entry, what, record, len(file) + 20)
    for entry, (_, code, place, body) in enumerate(found, 1):
        for what, record in records():
            if code in answers.RECORDS and answers.RECORDS[code] in what:
                n = len(answers.replace(file, entry, record))
                for room in (n, n - 1, 0):
                    yield replace(label, file, entry, what, record, room)


def film_groups():
    for label, file in all_films():
        yield file, [*reads_of(label, file), *edits_of(label, file), *replacements_of(label, file)]


def every_call(label, file):
    """Each call once, with room enough and with none."""
    yield tracks(label, file)
    for name in ("3gp4", "3gp5", "3gp6", "3gr6", "mp42"):
        yield brand(label, file, name)
    for number in (0, 1, 5):
        yield track(label, file, number)
        yield offsets(label, file, number)
    for room in (0, 2000):
        yield sheet(label, file, room)
        yield listing(label, file, room)
        yield move(label, file, room)
        yield shift(label, file, 0, room)
    for minutes in (841, -841):
        yield shift(label, file, minutes, 0)
    for entry, what, record in ((1, "damr", one(damr())), (0, "damr", one(damr())), (1, "nothing", b"")):
        yield replace(label, file, entry, what, record, 2000)


def refused_groups():
    """Files that are refused: their number and place come before all else."""
    seen = {}
    for name, parts, _ in files.cases():
        number = name.split("-")[0]
        file = files.build(parts)
        seen[number] = seen.get(number, 0) + 1
        if number != "0" and seen[number] % 23 == 2 and len(file) < 2000:
            yield file, every_call(name, file)


# ---- Brands and what the listing says of handlers and codes


def branded(label, brands, *tracks_given, before=(), after=()):
    file = [files.ftyp(*brands), *before, Box("moov", files.mvhd(), *tracks_given), *after, Box("mdat", bytes(32))]
    return label, files.build(file)


def brand_files():
    def vision(number, *entries):
        return files.visual_track(*(entries or [visual("s263", d263())]), number=number)

    def sound(number, *entries):
        return files.trak(number, list(entries) or None)

    def words(number, handler=b"text", count=1):
        return files.trak(number, [other() for _ in range(count)], handler)

    every = ALL_BRANDS
    yield branded("all", every, sound(1))
    yield branded("no-isom", every[:4], sound(1))
    yield branded("isom-first", ("isom", "3gp5"), sound(1))
    yield branded("isom-only", ("isom",), sound(1))
    yield branded("ISOM", ("3gp6", "ISOM"), sound(1))
    yield branded("repeats", ("3gp6", "isom", "3gp6", "isom", "3gp6"), sound(1))
    yield branded("sixteen", ("mp42",) * 12 + ("isom", "3gp4", "3gp5", "3gr6"), sound(1))
    yield branded("major-only", ("isom", "mp42"), sound(1))
    yield branded("shifted", ("x3gp", "6iso", "misom"[:4], "isom"), sound(1))
    for name in every[:4]:
        yield branded("only-" + name, (name, "isom"), sound(1))
        yield branded("without-" + name, [b for b in every if b != name], sound(1))
    yield branded("three-handlers", every, vision(1), sound(2), words(3))
    yield branded("four-handlers", every, vision(1), sound(2), words(3), words(4, b"hint"))
    yield branded("two-vide", every, vision(1), vision(2))
    yield branded("two-soun", every, sound(1), sound(2))
    yield branded("two-text", every, words(1), words(2))
    yield branded("two-hint", every, words(1, b"hint"), words(2, b"hint"))
    yield branded("two-vide-apart", every, vision(1), sound(2), words(3), vision(4))
    yield branded("two-soun-last", every, vision(1), words(2), sound(3), sound(4))
    yield branded("three-other", every, words(1, b"hint"), words(2, b"hint"), words(3, b"Text"), words(4, b"soun"))
    yield branded("vide-two-entries", every, vision(1, visual("s263", d263()), visual("mp4v", esds())))
    yield branded("soun-two-entries", every, sound(1, files.samr(), files.samr()))
    yield branded("text-two-entries", every, words(1, b"text", 2))
    yield branded("hint-three-entries", every, words(1, b"hint", 3))
    yield branded("text-eight-entries", every, words(1, b"text", 8))
    yield branded("avc1", every, vision(1, avc1()))
    yield branded("avc1-second-track", every, sound(1), vision(2, avc1()))
    yield branded("avc1-second-entry", every, vision(1, visual("s263", d263()), avc1()))
    yield branded("vide-of-other", every, words(1, b"vide"))
    yield branded("AVC1", every, vision(1, other("AVC1")))
    yield branded("free-before-moov", every, sound(1), before=[Box("free")])
    yield branded("mdat-before-moov", every, sound(1), before=[Box("mdat", bytes(32))])
    yield branded("free-after-moov", every, sound(1), after=[Box("free")])
    yield branded("two-soun-free-before", every, sound(1), sound(2), before=[Box("free")])
    yield branded("handler-zero", every, words(1, bytes(4)), words(2, b"\xff\xff\xff\xff"), words(3, b"SOUN"))
    codes = ("mp4v", "mp4a", "samr", "sawb", "s263", "avc1")
    yield branded("codes-in-case", every, files.trak(1, [other(code.upper()) for code in codes], b"text"))


def brand_groups():
    for label, file in brand_files():
        calls = [brand(label, file, name) for name in answers.BRANDS]
        calls += [brand(label, file, name) for name in ("isom", "3gp7", "3GP6")]
        calls += [brand(label, file, n) for n in (0, 2**32 - 1)]
        yield file, calls + [listing(label, file, 900), sheet(label, file, 1500), tracks(label, file)]


# ---- The sheet and the table writer


def entries_of_all_kinds():
    yield "other", other()
    yield "other-8", Box("text", bytes(6), h(9))
    yield "other-zero-code", Box("\0\0\0\0", bytes(6), h(0), b"x")
    yield "mp4v", visual("mp4v", esds(), reference=0)
    yield "mp4a", audio("mp4a", esds(b""), scale=1)
    yield "samr", files.samr()
    yield "sawb", audio("sawb", damr(0x83FF), reference=65535, scale=16000)
    yield "s263", visual("s263", d263())
    yield "s263-rates", visual("s263", d263(bitr()), reference=0)
    yield "avc1", avc1()


def sheet_of(*bodies, edition=None):
    """A sheet of (track, entry's bytes), with places that mean nothing; of the edition that their count asks for, or of another."""
    number, start = edition or answers.edition(len(bodies))
    slots = b""
    for track, body in bodies:
        slots += bytes([answers.kind_of(body[4:8].decode("latin-1")), track, 0, 0]) + w(77, len(body))
    return (bytes([number, len(bodies), 0, 0]) + slots).ljust(start, b"\0") + b"".join(body for _, body in bodies)


def shared(count):
    """So many entries over four tracks."""
    return [(track, SAMR) for track, share in enumerate(files.shares(count, 4), 1) for _ in range(share)]


def bent(given, at, data):
    return given[:at] + bytes(data) + given[at + len(bytes(data)) :]


SAMR, AVC1, OTHER = one(files.samr()), one(avc1()), one(other())


def good_sheets():
    kinds = dict(entries_of_all_kinds())
    for name, entry in kinds.items():
        yield name, sheet_of((1, one(entry)))
    yield "three-tracks", sheet_of((1, SAMR), (1, AVC1), (2, OTHER), (3, SAMR), (3, SAMR))
    yield "four-tracks", sheet_of((1, OTHER), (2, SAMR), (3, AVC1), (4, OTHER))
    yield "eight", sheet_of(*[(1 + k // 2, SAMR) for k in range(8)])
    for count in (8, 9, 31, 32):
        yield "%d-in-one" % count, sheet_of(*[(1, OTHER)] * count)
        yield "%d-over-four" % count, sheet_of(*shared(count))
    three = sheet_of((1, SAMR), (1, AVC1), (2, OTHER))
    for place in (0, 2**32 - 1):
        yield "place-%d" % place, bent(bent(three, 8, w(place)), 20, w(place))


def bent_editions():
    """Sheets of the other edition than their count asks for, of none, and with too many entries."""
    for count, numbers in ((1, (0, 2, 3)), (8, (2, 3)), (9, (0, 1, 3, 255)), (32, (1, 3)), (33, (1, 2, 3)), (255, (2,))):
        for number in numbers:
            for start in (100, 388, 4 + 12 * count):
                yield "edition-%d-of-%d-bodies-at-%d" % (number, count, start), sheet_of(*[(1, OTHER)] * count, edition=(number, start))
    yield "edition-2-of-9-bodies-at-112", sheet_of(*[(1, OTHER)] * 9, edition=(2, 112))
    yield "edition-1-of-8-bodies-at-388", sheet_of(*[(1, OTHER)] * 8, edition=(1, 388))
    nine, most = sheet_of(*shared(9)), sheet_of(*shared(32))
    for at in (2, 3, 6, 7, 99, 100, 102, *range(112, 124), 124, 200, 384, 387):
        yield "nine-byte-%d" % at, bent(nine, at, [1])
    for at in (2, 3, 100, 102, 103, 378, 379, 384):
        yield "most-byte-%d" % at, bent(most, at, [1])
    for value in (0, 1, 8, 10, 32, 33, 255):
        yield "nine-count-%d" % value, bent(nine, 1, [value])
    for value in (8, 31, 33):
        yield "most-count-%d" % value, bent(most, 1, [value])
    for n in (4, 100, 112, 387, 388, 389, len(nine) - 1):
        yield "nine-first-%d" % n, nine[:n]
    yield "nine-byte-after", nine + b"\0"
    yield "most-byte-after", most + b"\0"


def bent_sheets():
    three = sheet_of((1, SAMR), (1, AVC1), (2, OTHER))
    for name, at, values in (("edition", 0, (0, 2, 255)), ("count", 1, (0, 1, 2, 4, 8, 9, 255))):
        for value in values:
            yield "%s-%d" % (name, value), bent(three, at, [value])
    for at in [2, 3, 6, 7, 18, 19, 30, 31, *range(40, 52), 52, 63, 88, 96, 99]:
        yield "byte-%d" % at, bent(three, at, [1])
    yield "byte-255-at-40", bent(three, 40, [255])
    for name, numbers in (
        ("0-1-2", (0, 1, 2)), ("0-0-0", (0, 0, 0)), ("2-2-2", (2, 2, 2)), ("2-1-2", (2, 1, 2)), ("1-2-1", (1, 2, 1)),
        ("1-3-3", (1, 3, 3)), ("1-1-3", (1, 1, 3)), ("1-1-0", (1, 1, 0)), ("1-2-255", (1, 2, 255)), ("255-255-255", (255,) * 3),
    ):
        yield "tracks-" + name, sheet_of(*zip(numbers, (SAMR, AVC1, OTHER)))
    for numbers in ((1, 2, 3, 4, 5), (1, 2, 3, 4, 3), (1, 2, 3, 5, 5), (5, 5, 5, 5, 5), (1, 2, 2, 4, 4)):
        yield "tracks-" + "-".join(map(str, numbers)), sheet_of(*[(n, OTHER) for n in numbers])
    for name, entry in entries_of_all_kinds():
        given = sheet_of((1, one(entry)))
        for kind in range(0, 8):
            if kind != given[4]:
                yield "%s-as-kind-%d" % (name, kind), bent(given, 4, [kind])
        yield name + "-kind-255", bent(given, 4, [255])
        for code in ("samr", "sawb", "avc1", "text", "s263", "mp4v"):
            if answers.kind_of(code) != given[4]:
                yield "%s-of-code-%s" % (name, code), bent(given, 104, code.encode())
        yield name + "-size-more", bent(given, 100, w(num(given, 100) + 1))
        yield name + "-size-less", bent(given, 100, w(num(given, 100) - 1))
        yield name + "-size-0", bent(given, 100, w(0))
        yield name + "-length-more", bent(given, 12, w(num(given, 12) + 1))
        yield name + "-length-less", bent(given, 12, w(num(given, 12) - 1))
        yield name + "-both-more", bent(bent(given, 12, w(num(given, 12) + 1)), 100, w(num(given, 100) + 1))
        yield name + "-byte-after", given + b"\0"
        yield name + "-cut", given[:-1]
        yield name + "-first-byte-of-6", bent(given, 108, [1])
        yield name + "-last-byte-of-6", bent(given, 113, [1])
    for front in ([1, 0], [1, 1], [1, 9], [0, 0], [2, 0], [2, 9]):
        yield "empty-%d-%d" % tuple(front), bytes(front).ljust(100, b"\0")
    two = sheet_of((1, SAMR), (1, OTHER))
    yield "lengths-shifted", bent(bent(two, 12, w(len(SAMR) + 1)), 24, w(len(OTHER) - 1))
    yield "length-0", bent(two, 24, w(0))
    yield "length-huge", bent(two, 24, w(2**32 - 1))
    yield "length-wraps", bent(two, 24, w(2**32 - len(SAMR)))
    yield "box-after", two + one(Box("free"))
    for n in (0, 1, 2, 4, 8, 16, 50, 99, 100, 101, 104, 108, 152, 153, 160):
        yield "first-%d" % n, two[:n]
    yield "other-of-15", sheet_of((1, one(Box("text", bytes(7)))))
    yield "other-of-8", sheet_of((1, one(Box("text"))))
    for what, entry, _, _ in files.entry_cases():
        reference = "reference" in what or "scale" in what or "-for-" in what
        yield ("rule-but-" if reference else "rule-") + what, sheet_of((1, one(entry)))


def table_groups():
    for name, given in good_sheets():
        label, last = "good-" + name, answers.sheet_bodies(given)[-1][0]
        calls = [table(label, given, n) for n in (0, last + 1, 255, 256 + last, *HUGE)]
        for n in range(1, last + 1):
            calls += [table(label, given, n, room) for room in rooms(len(answers.table(given, n)))]
        yield given, calls + [table(label, given, 0, 0), table(label, given, last + 1, 0)]
    for k, (name, given) in enumerate([*bent_sheets(), *bent_editions()]):
        label = "bent-" + name
        calls = [table(label, given, 1)]
        if k % 4 == 0 or name.startswith("empty"):
            calls += [table(label, given, 0), table(label, given, 9, 0), table(label, given, 1, 0)]
        yield given, calls
    for label, file in all_films():
        if label.endswith("-middle"):
            given = answers.sheet(file)
            yield given, [table("of-" + label, given, n) for n in range(0, answers.tracks(file) + 2)]
    yield made(files.movie()), [table("a-file", files.build(files.movie()), 1)]


def most_entries():
    """The file that the program is given, too."""
    return files.build(files.described(*files.shares(files.MOST, 4)))


def described_groups():
    """Files of few and of many entries, and the tables of their sheets."""
    for count, over in ((1, 1), (8, 1), (9, 1), (31, 1), (32, 1), (4, 4), (8, 4), (9, 4), (31, 4), (32, 4)):
        label, file = "described-%d-over-%d" % (count, over), files.build(files.described(*files.shares(count, over)))
        calls = [*reads_of(label, file), *edits_of(label, file)]
        for entry in (0, 1, 8, 9, count, count + 1, 33):
            calls += [replace(label, file, entry, "damr", one(damr(0x8001, 0, 15)), room) for room in (len(file), len(file) - 1)]
        yield file, calls
        yield file + file, [newest(label, file, 0, file, 60, entry) for entry in (8, 9, count, count + 1)]
        given = answers.sheet(file)
        for n in range(0, over + 2):
            told = len(answers.table(given, n)) if 1 <= n <= over else 1
            yield given, [table(label, given, n, room) for room in rooms(told)]


# ---- Shifts


def timed(*times):
    return files.build(set_times(files.movie(files.trak(1), files.trak(2)), *times))


def shift_groups():
    limits = [0, 1, 3599, 3600, 3601, 50400, 50401, 2**31, 2**32 - 50401, 2**32 - 50400, 2**32 - 3600, 2**32 - 1]
    middle = 2**31
    for time in limits:
        for k in range(10):
            if k % 5 != 0 and time not in (0, 3600, 50400, 2**32 - 50400):
                continue
            times = [middle] * 10
            times[k] = time
            file = timed(*times)
            label = "time-%d-at-%d" % (time, k)
            yield file, [shift(label, file, z, len(file)) for z in (60, -60, 840, -840, 839, -839, 0, 61, -61)]
    for time in (0, 1, 50400, 50401, 2**32 - 1, 2**32 - 50401, 3600):
        file = timed(*[time] * 10)
        label = "all-times-%d" % time
        calls = [shift(label, file, z, len(file) + 8) for z in MINUTES]
        yield file, calls + [shift(label, file, z, 0) for z in (841, 0, 60, -840)]
    file = timed(*range(10**6, 10**6 + 10))
    yield file, [shift("apart", file, z, room) for z in MINUTES[:7] for room in (len(file), len(file) - 1, 4000)]
    file = [files.ftyp("isom"), Box("mvhd", w(0, 5, 6, 7)), Box("moov", Box("tkhd", w(0, 1, 1)), files.mvhd(), files.trak(1))]
    file += [Box("mdat", bytes(32))]
    files.get(file, "trak").body[0:0] = [Box("mdhd", w(0, 1, 1)), Box("mvhd", w(0, 9, 9))]
    patch(files.get(file, "mvhd"), 4, w(10**6, 10**6))
    patch(files.get(file, "tkhd"), 4, w(0, 10**6))
    patch(files.get(file, "mdhd"), 4, w(10**6, 0))
    data = files.build(file)
    yield data, [shift("strays", data, z, len(data)) for z in (60, -60, 840)]


# ---- Refusal 23


def marked_file(where, code, payload=b"any"):
    a, b = media(24, 1), media(16, 99)
    file = [files.ftyp(*ALL_BRANDS), a, Box("moov", files.mvhd(), *dict(films())["h263"](a, b)), b]
    set_times(file, *[10**9] * 10)
    box = Box(code, payload)
    if where == "top-last":
        file.append(box)
    elif where == "top-second":
        file.insert(1, box)
    elif where == "mdat":
        file.append(Box("mdat", one(box)))
    elif where == "udta":
        boxes_body(file).append(Box("udta", box))
    elif where == "entry-mdia":
        files.get(file, "mdia", 1).body.append(Box("stbl", box))
    else:
        name, track = where.rsplit("-", 1)
        files.get(file, name, int(track) - 1).body.append(box)
    return made(file)


def marked_files():
    tops, stbls = ("moof", "mfra", "sidx", "meta"), ("co64", "saio")
    for code in tops:
        for where in ("top-last", "top-second"):
            yield code, where
    for where in ("moov-1", "trak-1", "trak-2"):
        yield "meta", where
    for code in stbls:
        for where in ("stbl-1", "stbl-2"):
            yield code, where
    # places that don't count
    for code in ("moof", "mfra", "sidx"):
        for where in ("moov-1", "trak-2", "stbl-1", "mdat"):
            yield code, where
    for where in ("mdia-1", "minf-2", "dinf-1", "stbl-2", "udta", "mdat"):
        yield "meta", where
    for code in stbls:
        for where in ("top-last", "top-second", "moov-1", "trak-1", "mdia-2", "minf-1", "dinf-2", "entry-mdia"):
            yield code, where
    for code in ("MOOF", "meTa", "sidy", "saiz"):
        yield code, "top-last"
        yield code, "stbl-1"


def marked_groups():
    for code, where in marked_files():
        for payload in (b"any", b""):
            if payload == b"" and where not in ("top-last", "stbl-2", "trak-2", "moov-1"):
                continue
            file = marked_file(where, code, payload)
            label = "%s-in-%s-%d" % (code, where, len(payload))
            n = len(file)
            calls = [shift(label, file, 60, n), shift(label, file, 0, n - 1), shift(label, file, 841, n), move(label, file, n)]
            calls += [move(label, file, 0), brand(label, file, "3gp6"), tracks(label, file)]
            for entry, what, record in ((1, "d263", one(d263())), (1, "short", one(d263())[:14]), (2, "d263", one(d263()))):
                calls.append(replace(label, file, entry, what, record, n))
            calls.append(replace(label, file, 1, "d263", one(d263()), 0))
            calls.append(replace(label, file, 2, "83ff", one(damr(0x83FF)), 0))
            yield file, calls
    times = [10**9] * 9
    file = set_times(files.movie(files.trak(1), files.trak(2)), *times, 3599)
    data = files.build(file + [Box("moof")])
    calls = [shift("moof-and-3599", data, z, room) for z in (60, 0, -60, 840, 841) for room in (0, len(data))]
    yield data, calls


# ---- Records that are given


def given_records():
    good = one(damr())
    for what, record in (("damr", good), ("all-modes", one(damr(0x83FF))), ("modes-0", one(damr(0)))):
        yield what, record
    for fields in ((0x81FF, 0, 15), (0x81FF, 0, 16), (0x81FF, 0, 0), (1, 2, 6), (1, 4, 6), (1, 6, 2), (1, 30, 15), (0x4000, 0, 1)):
        yield "damr-%x-%d-%d" % fields, one(damr(*fields))
    yield "vendor", bent(good, 8, b"\xff\xfe\xfd\xfc\xfb")
    for n in range(0, 17):
        yield "damr-first-%d" % n, good[:n]
    yield "damr-and-0", good + b"\0"
    yield "damr-twice", good + good
    for size in (0, 1, 8, 15, 16, 18, 2**32 - 1, 17 + 2**24):
        yield "damr-size-%d" % size, w(size) + good[4:]
    yield "damr-of-18", one(Box("damr", good[8:], b"\0"))
    yield "damr-of-16", one(Box("damr", good[8:-1]))
    for code in ("DAMR", "d263", "damq", "free", "samr"):
        yield "17-of-" + code, bent(good, 4, code.encode())
    yield "code-only", w(8) + b"damr"
    yield "code-only-d263", w(8) + b"d263"
    plain, rates = one(d263()), one(d263(bitr()))
    yield "d263", plain
    yield "d263-rates", rates
    yield "d263-other-rates", one(Box("d263", b"\xff" * 7, Box("bitr", b"\xff" * 8)))
    for n in (7, 8, 14, 16, 22, 23, 30):
        yield "d263-rates-first-%d" % n, rates[:n]
        yield "d263-rates-first-%d-sized" % n, w(n) + rates[4:n]
    yield "d263-and-0", plain + b"\0"
    yield "d263-rates-and-0", rates + b"\0"
    yield "d263-size-15-of-31", w(15) + rates[4:]
    yield "d263-size-31-of-15", w(31) + plain[4:]
    yield "bitr-outside", plain + one(bitr())
    yield "bitr-size-15", bent(rates, 15, w(15))
    yield "bitr-size-17", bent(rates, 15, w(17))
    yield "bitr-code", bent(rates, 19, b"BITR")
    yield "bitr-twice", one(d263(bitr(), bitr()))
    yield "empty", b""


def record_groups():
    a, b = media(24, 1), media(16, 99)
    entries = [files.samr(), sawb(), other(), audio("mp4a", esds())]
    sound = chunked(1, entries, b"soun", 8000, [(a, 0, 1), (b, 0, 1)])
    vision = chunked(2, [visual("s263", d263()), visual("s263", d263(bitr())), avc1()], b"vide", 15, [(a, 4, 4), (b, 5, 5)])
    file = made([files.ftyp(*ALL_BRANDS), a, Box("moov", files.mvhd(), sound, vision), b])
    calls = []
    for what, record in given_records():
        for entry in range(1, 8):
            calls.append(replace("seven", file, entry, what, record, len(file) + 16))
        calls.append(replace("seven", file, 0, what, record, 0))
        calls.append(replace("seven", file, 8, what, record, 0))
        calls.append(replace("seven", file, 1, what, record, 0))
        calls.append(replace("seven", file, 5, what, record, 0))
    for entry in HUGE:
        calls.append(replace("seven", file, entry, "damr", one(damr()), 4000))
    yield file, calls


# ---- The newer of two


def dated(time, *tracks_given):
    file = files.movie(*tracks_given)
    patch(files.get(file, "mvhd"), 4, w(77, time))
    return files.build(file)


def newest_groups():
    """The two files stand one after the other, and the call says where the first ends."""

    def two(time):
        return dated(time, files.trak(1), files.visual_track(avc1(), visual("s263", d263()), number=2))

    pairs = [(10**9, 10**9), (10**9, 10**9 + 1), (10**9 + 1, 10**9), (0, 0), (0, 1), (1, 0), (0, 3600), (3600, 0)]
    pairs += [(2**32 - 1, 0), (0, 2**32 - 1), (50400, 50400), (0, 100800), (100801, 0), (2**31, 2**31 + 60)]
    zones = [(0, 0), (60, 0), (0, 60), (-60, 0), (0, -60), (840, -840), (-840, 840), (840, 840), (-840, -840), (1, 2)]
    zones += [(-1, -2), (841, 0), (0, 841), (0, -841), (-841, 841), (2**63 - 1, -(2**63)), (-(2**63), 0), (0, 2**63 - 1)]
    for first, second in pairs:
        one_file, other_file = two(first), dated(second)
        label, back = "%d-%d" % (first, second), "back-%d-%d" % (first, second)
        calls = [call for y, z in zones for n in (1, 2) for call in both(label, one_file, y, other_file, z, n)]
        calls += [call for n in (0, 3, 4, *HUGE) for call in both(label, one_file, 0, other_file, 0, n)]
        calls += [*both(label, one_file, 841, other_file, 0, 0), *both(label, one_file, 0, other_file, 60, 3)]
        calls += [newest(label, one_file, y, other_file, 0, n, room) for y in (0, 841) for n in (1, 9) for room in (0, 3, 5)]
        yield one_file + other_file, calls
        calls = [call for y, z in zones[:10] for n in (1, 3) for call in both(back, other_file, y, one_file, z, n)]
        yield other_file + one_file, calls
    good = two(10**9)
    bad = {}
    for name, parts, _ in files.cases():
        file = files.build(parts)
        if name[:2] != "0-" and len(file) < 1500:
            bad.setdefault(name.split("-")[0], (name, file))
    for name, file in bad.values():
        label = "good-and-" + name
        yield good + file, [call for y in (0, 841) for n in (0, 1) for call in both(label, good, y, file, 0, n)]
        label = name + "-and-good"
        yield file + good, [call for y in (0, 841) for n in (0, 1) for call in both(label, file, y, good, 0, n)]
    values = list(bad.values())
    for (a, first), (b, second) in zip(values, values[1:] + values[:1]):
        label = "%s-and-%s" % (a, b)
        yield first + second, [*both(label, first, 0, second, 841, 0), newest(label, first, 0, second, 0, 1, 0)]


# ---- Records as numbers

SPEECH = [3, 1, 8000, 0x5658595A, 0, 0x81FF, 0, 1]
WIDE = [4, 2, 16000, 1, 255, 0x83FF, 30, 15]
PICTURE = [5, 1, 176, 144, 0x5658595A, 0, 10, 0, 0, 0, 0]
RATED = PICTURE[:8] + [1, 64000, 128000]


def with_field(fields, at, n):
    return fields[:at] + [n] + fields[at + 1 :]


def changed_fields():
    """Fields of which one is at, or past, what its place holds, and fields that break a rule."""
    for fields in (SPEECH, WIDE, PICTURE, RATED):
        for at in range(len(fields)):
            for n in (0, 1, 2, 3, 4, 5, 6, 255, 256, 2**16 - 1, 2**16, 2**32 - 1, 2**32, fields[at] + 2**32, 2**64 - 1):
                yield with_field(fields, at, n)
    for modes, period, frames in ((0x83FF, 0, 1), (0x81FF, 0, 0), (0x81FF, 0, 16), (1, 4, 6), (1, 2, 6), (0, 6, 2), (0x400, 0, 1)):
        yield [3, *SPEECH[1:5], modes, period, frames]
        yield [4, *SPEECH[1:5], modes, period, frames]
    for rates in ((0, 1, 0), (0, 0, 1), (0, 2**32, 0), (1, 0, 0), (2, 0, 0), (1, 2**32, 0), (1, 0, 2**32)):
        yield PICTURE[:8] + [*rates]
    for n in [*range(0, 13), 20]:
        for fields in (SPEECH, RATED):
            yield (fields + [0] * 20)[:n]


def field_groups():
    for name, _, entry in [*cases.entries(), *cases.heads()]:
        calls = [record_read(name, entry), record_read(name, entry, 0)]
        if told(lambda: answers.record_read(entry, 6))[1]:
            n = len(answers.record_read(entry, 6))
            calls += [record_read(name, entry, room) for room in (1, n - 1, n, n + 1)]
        yield entry, calls
    for fields in (SPEECH, WIDE, PICTURE, RATED):
        n = len(answers.record_write(fields, 6))
        yield numbers_of(fields), [record_write(fields, room) for room in (1, n - 1, n, n + 1)]
    for fields in changed_fields():
        yield numbers_of(fields), [record_write(fields, 0), record_write(fields, 130)]


# ---- Releases

RELEASES = (0, 3, 4, 5, 6, 7, 2**32 + 4, 2**64 - 1)


def release_groups():
    """Frames and periods in records, sheets and files of both releases."""
    for period, frames, _, _ in files.frames_and_periods():
        what, entry = "damr-%d-%d" % (period, frames), one(audio("sawb", damr(0x83FF, period, frames)))
        yield entry, [record_read(what, entry, 12, release) for release in RELEASES[2:5:2]]
        fields = [4, 1, 8000, 0x5658595A, 0, 0x83FF, period, frames]
        yield numbers_of(fields), [record_write(fields, 53, release) for release in RELEASES[2:5:2]]
        given = sheet_of((1, entry))
        yield given, [table(what, given, 1)]
    for frames in (0, 1, 15, 16, 255):
        what, entry = "frames-%d" % frames, one(files.samr(frames=frames))
        yield entry, [record_read(what, entry, room, release) for release in RELEASES for room in (0, 12)]
        fields = [3, 1, 8000, 0x5658595A, 0, 0x81FF, 0, frames]
        yield numbers_of(fields), [record_write(fields, room, release) for release in RELEASES for room in (0, 53)]
    for brands in files.OLD + files.NEW:
        file = files.build([files.ftyp(*brands), *files.movie(files.trak(1), files.trak(2, [sawb(), other()]))[1:]])
        label = "+".join(brands)
        calls = []
        for frames in (0, 1, 15, 16, 255):
            for period in (0, 4, 5, 30):
                for entry in (1, 2, 3):
                    record = one(damr(0x81FF, period, frames))
                    calls.append(replace(label, file, entry, "damr-%d-%d" % (period, frames), record, len(file)))
        yield file, calls
    for brands in files.OLD:
        file = files.build([files.ftyp(*brands), *files.movie(files.trak(1, [files.samr(frames=255)]))[1:]])
        label = "255-of-" + "+".join(brands)
        again = answers.sheet(file)
        yield file, [*reads_of(label, file), *edits_of(label, file), sheet(label, file, len(again))]
        yield again, [table("of-" + label, again, 1), table("of-" + label, again, 1, 68)]


def brand_set_groups():
    """Every set of the four brand codes, with and without `isom` and `avc1`, in a file without and in one with an `avc1` entry."""
    codes = (*answers.BRANDS, "isom", "avc1")
    for what, track_given in (("samr", files.trak(1)), ("avc1", files.visual_track(avc1()))):
        for n in range(64):
            brands = [code for k, code in enumerate(codes) if n >> k & 1]
            file = files.build([files.ftyp(*brands), *files.movie(track_given)[1:]])
            label = "%s-in-%s" % (what, "+".join(brands) or "none")
            yield file, [brand(label, file, name) for name in codes] + [listing(label, file, 300)]


def numbers_of(fields):
    return b"".join(n.to_bytes(8, "big") for n in fields)


# ---- Single files


def plain_files():
    yield "example", files.build(files.movie())
    f = files.movie()
    yield "example-moov-last", files.build([f[0], f[2], f[1]])
    yield "example-free-between", files.build(files.movie()[:1] + [Box("free")] + files.movie()[1:])
    yield "moov-in-place-far", files.build(files.movie() + [Box("free", bytes(300)), Box("mdat", b"more")])
    none = [files.stts(), files.stsc(), files.stsz(), files.stco()]
    yield "no-chunks", files.build(files.movie(files.trak(tables=none))[:2])
    many = [files.stts((150, 3), (0, 9), (50, 2**32 - 1)), files.stsc((1, 1, 1)), Box("stsz", w(0, 1, 200))]
    yield "200-chunks", files.build(files.movie(files.trak(tables=many + [files.stco(*[k % 32 for k in range(200)])])))
    most = [files.stts((65536, 2**32 - 1)), files.stsc((1, 256, 1)), Box("stsz", w(0, 1, 65536)), files.stco(*[0] * 256)]
    yield "65536-samples", files.build(files.movie(files.trak(tables=most), data=256))
    for before in (0, 18, 40):
        mdats = [media(24, k) for k in range(40)]
        moov = Box("moov", files.mvhd(), chunked(1, [files.samr()], b"soun", 8000, [(mdats[7 * k % 40], k % 3, 20) for k in range(40)]))
        yield "chopped-%d-before-moov" % before, made([files.ftyp("isom", "3gp6"), *mdats[:before], moov, *mdats[before:]])
    empty = Box("mdat")
    moov = Box("moov", files.mvhd(), chunked(1, [visual("s263", d263())], b"vide", 15, [(empty, 0, 0)]))
    yield "empty-mdat-before-moov", made([files.ftyp("isom", "3gp6"), Box("free", b"12"), empty, moov])
    empty = Box("mdat")
    moov = Box("moov", files.mvhd(), chunked(1, [visual("s263", d263())], b"vide", 15, [(empty, 0, 0)]))
    yield "empty-mdat-after-moov", made([files.ftyp("isom", "3gp6"), moov, Box("free", b"12"), empty])
    a = media(6, 5)
    moov = Box("moov", files.mvhd(), chunked(1, [visual("s263", d263(bitr()))], b"vide", 15, [(a, 6, 0), (a, 0, 6), (a, 6, 0)]))
    yield "nothing-at-the-end-before-moov", made([files.ftyp("isom", "3gp6"), Box("skip", b"123"), a, moov, media(3, 1)])
    a = media(32, 5)
    moov = Box("moov", files.mvhd(), Box("mdat", b"in moov"), chunked(1, [files.samr()], b"soun", 8000, [(a, 0, 32)]))
    yield "mdat-in-moov", made([files.ftyp("isom", "3gp6"), Box("udta", one(Box("mdat", b"x"))), a, moov])
    yield "four-tracks", files.build(files.movie(files.trak(9), files.trak(2**32 - 1), files.trak(3), files.trak(4)))
    eight = [files.trak(1, [files.samr()] * 3), files.trak(2, [files.samr(), sawb()]), files.trak(3, [other()] * 3, b"text")]
    yield "eight-entries", files.build(files.movie(*eight))
    f = files.movie(files.trak(1), files.visual_track(visual("s263", d263()), number=2))
    files.turned(f[1].body)
    yield "turned", files.build([f[0], f[2], f[1]])
    f = files.movie()
    patch(files.get(f, "tkhd"), 20, w(2**32 - 1))
    patch(files.get(f, "mdhd"), 16, w(2**32 - 2))
    yield "far-ticks", files.build(f)


def plain_groups():
    for label, file in plain_files():
        calls = [*reads_of(label, file), *edits_of(label, file), *replacements_of(label, file)]
        for n in HUGE:
            calls += [track(label, file, n), offsets(label, file, n)]
        for room in range(0, 6):
            calls.append(track(label, file, 1, room))
        for track_number in (0, 1, 9):
            for room in (0, 1, 2, 3, 199):
                calls.append(offsets(label, file, track_number, room))
            calls.append(track(label, file, track_number, 2 if track_number != 1 else 7))
        yield file, calls


def real_groups():
    for path in sorted(REAL.glob("*.3gp")):
        label, file = path.stem, path.read_bytes()
        n = len(file)
        calls = [listing(label, file, 900), listing(label, file, 5), tracks(label, file), sheet(label, file, 600)]
        calls += [brand(label, file, name) for name in answers.BRANDS]
        for k in (1, 2, 3):
            calls += [track(label, file, k), offsets(label, file, k), offsets(label, file, k, 0)]
            calls.append(replace(label, file, k, "damr", one(damr()), n))
        calls += [shift(label, file, z, n) for z in (0, 60, -60, 840)]
        calls += [move(label, file, n), move(label, file, n - 1), move(label, file, n + 100)]
        yield file, calls


# ---- Wide and open boxes


def film_of(way):
    return film(dict(films())["h263"], dict(layouts())[way])


def formed_films():
    """(name, file) of films with one box wide, with all of them wide, and with the last one open."""
    for n, name in enumerate(forms.NAMES):
        yield "wide-" + name, made(forms.widened(film_of("middle"), name, n % 2))
    for way in ("front", "back", "middle", "among-free", "other-way"):
        yield "wide-all-" + way, made(forms.all_wide(film_of(way)))
    for what, way in (("mdat", "front"), ("moov", "back"), ("mdat", "middle"), ("udta", "among-free"), ("free", "back-and-more")):
        yield "open-%s-%s" % (what, way), made(forms.opened(film_of(way)))
    for what, way in (("moov", "back"), ("mdat", "middle")):
        yield "wide-and-open-%s-%s" % (what, way), made(forms.opened(forms.all_wide(film_of(way))))


def edit(what, label, file):
    """A call that is accepted, and the file that it has to give."""
    if what == "shift":
        return shift(label, file, 60, len(file)), answers.shift(file, 60)
    if what == "move":
        return move(label, file, len(file)), answers.move(file)
    record = dict(records())[what]
    return replace(label, file, 1, what, record, len(file) + 16), answers.replace(file, 1, record)


RUNS = [("d263-rates", "move", "d263"), ("move", "shift", "d263-rates"), ("shift", "d263-rates", "move")]


def run_groups(label, file):
    """Edits in turn, each on what the one before it has to give."""
    for run in RUNS:
        name, given = label, file
        for what in run:
            call, result = edit(what, name, given)
            yield given, [call]
            name, given = name + "-then-" + what, result


def refused_edits(label, file):
    """A shift by 0, edits with a byte of room too few, and what isn't taken in them."""
    n, rates = len(file), dict(records())["d263-rates"]
    yield from (shift(label, file, 0, n), shift(label, file, -60, n - 1), shift(label, file, 841, n), move(label, file, n - 1))
    yield replace(label, file, 1, "d263-rates", rates, n + 15)
    yield replace(label, file, 2, "wide-damr", one(Box("damr", *damr().body, wide=True)), n + 8)


def form_groups():
    found = dict(formed_films())
    for label, file in found.items():
        edits = [edit(what, label, file)[0] for what in ("shift", "move", "d263-rates")]
        yield file, [listing(label, file, 400), sheet(label, file, 400), *edits]
    for label in ("wide-tkhd", "wide-mdhd", "wide-stco", "wide-all-middle", "open-moov-back"):
        file = found[label]
        yield file, [call(label, file, n) for call in (track, offsets) for n in (1, 2)]
    for label in ("wide-all-front", "wide-all-back", "wide-all-middle", "open-mdat-front", "open-moov-back", "wide-and-open-moov-back"):
        yield from run_groups(label, found[label])
    for label in ("wide-all-middle", "open-moov-back"):
        file, second = found[label], dated(10**9)
        yield file, refused_edits(label, file)
        yield file + second, [call for y in (0, -1) for call in both(label + "-and-plain", file, y, second, 0, 1)]
        yield second + file, both("plain-and-" + label, second, 0, file, 0, 2)
    for code in ("meta", "moof"):
        file = made([*forms.opened(film_of("back")), Box(code)])
        label = "open-moov-over-" + code
        yield file, [shift(label, file, 60, len(file)), move(label, file, len(file))]


def form_table_groups():
    """Sheets of files whose `stsd` is wide, and bodies that are wide or have such a box in them."""
    found = dict(formed_films())
    for label in ("wide-stsd", "wide-all-back"):
        given = answers.sheet(found[label])
        yield given, [table("of-" + label, given, n) for n in (1, 2)]
    bodies = {what: entry for what, entry, _, _ in forms.entry_cases()}
    bodies["wide-samr"] = Box("samr", *files.samr().body, wide=True)
    for what, entry in bodies.items():
        given = sheet_of((1, one(entry)))
        yield given, [table("form-" + what, given, 1)]


# ---- Dumps


def dump_groups():
    """Each dump, with rooms exact and others where it becomes a file."""
    for name, given, _ in dumps.cases():
        n = len(answers.from_amr(given)) if name.startswith("0-") else 2000
        yield given, [from_amr(name, given, room) for room in (rooms(n) if name.startswith("0-") else (n, 0))]


# the files of these dumps go to the other calls
RESULTS = ("none-amr", "none-wideband", "amr-type-0-quality-1", "wideband-type-14-quality-0", "amr-all-types", "wideband-all-types")
RESULTS += ("a09_5.15k", "a10_8.85k")


def speech_groups(label, file):
    """A file that was made of frames: judged, read, listed and edited, alone and in turn."""
    calls = [judge(label, file), *reads_of(label, file), *edits_of(label, file), *replacements_of(label, file)]
    yield file, calls + [from_amr(label, file, 2000), salvage(label, file, 0, 2000)]
    for what in ("shift", "damr", "move"):
        call, result = edit(what, label, file)
        yield file, [call]
        label, file = label + "-then-" + what, result
    yield file, [judge(label, file), listing(label, file, 400)]
    yield file + dated(0), both(label + "-and-dated-0", file, 0, dated(0), 0, 1)


def dumped_groups():
    """Files that dumps become."""
    for name, given, _ in dumps.cases():
        if name[2:] in RESULTS:
            yield from speech_groups("speech-" + name[2:], answers.from_amr(given))


def long_dump_groups():
    """(start, whole length, calls) of dumps of many frames."""
    for name, start, length, _ in dumps.long_dumps():
        given = start.ljust(length, b"\0")
        n = len(answers.from_amr(given)) if name.startswith("0-") else files.LONGEST
        yield start, length, [from_amr(name, given, room) for room in (n, n - 1, 0)]


# ---- What a recorder leaves that died


def saved(file, wideband):
    return answers.salvage(file, answers.codec_told(wideband))[0]


def salvage_fitting(name, file, wideband):
    """With as much room as it needs, or with some where it is refused."""
    return salvage(name, file, wideband, len(saved(file, wideband)) if name.startswith("0-") else 2000)


def salvage_groups():
    """Each file once, with all that is told of it."""
    for file, same in groupby(salvages.cases(), lambda case: case[2]):
        yield file, [salvage_fitting(name, file, wideband) for name, wideband, _, _ in same]


# these are lent rooms of every length; what comes of those that are done goes to the other calls
ROOMED = ("0-amr-size-0", "0-wideband-padding-80-frame-2", "0-left-of-a09_5.15k.amr-first-77-size-0")
REFUSED = ("1-empty", "60-amr-size-9", "61-amr-magic")


def salvage_rooms(name, wideband, file):
    """Either room exact, too short, longer and empty, and both of them too short."""
    n = len(saved(file, wideband))
    for room in rooms(n):
        for numbers in (4, 3, 5, 0):
            yield salvage(name, file, wideband, room, numbers)
    yield salvage(name, file, wideband, n, 1)
    yield salvage(name, file, wideband, ROOM, 16)


def salvage_room_groups():
    """Rooms of every length; those of a refused file don't count."""
    for name, wideband, file, _ in salvages.cases():
        if name in ROOMED:
            yield file, salvage_rooms(name, wideband, file)
        if name in REFUSED:
            yield file, [salvage(name, file, wideband, *lent) for lent in ((0, 4), (2000, 3), (0, 0))]


def told_groups():
    """What is told as a number: 0 is AMR, any other is wideband."""
    for label, payload in (("zeros", bytes(234)), ("amr", salvages.GOOD), ("wideband", salvages.several(answers.WIDEBAND))):
        file = salvages.left(payload)
        yield file, [salvage("told-" + label, file, n, 1000) for n in (0, 1, 2, 255, 256, 65536, 2**31, *HUGE)]


def saved_groups():
    """Files that were saved."""
    for name, wideband, file, _ in salvages.cases():
        if name in ROOMED:
            yield from speech_groups("saved-" + name[2:], saved(file, wideband))


def long_salvage_groups():
    """(start, whole length, calls) of files of many frames."""
    for name, wideband, start, length, _ in salvages.long_salvages():
        file = start.ljust(length, b"\0")
        if name.startswith("0-"):
            n = len(saved(file, wideband))
            yield start, length, [salvage(name, file, wideband, *lent) for lent in ((n, 4), (n - 1, 4), (n, 3))]
        else:
            yield start, length, [salvage(name, file, wideband, *lent) for lent in ((ROOM, 4), (0, 0))]


# ---- Outlines


# these are lent rooms of every length
LENT = ("empty-moov", "moov-in-udta", "nest-all-16-loose", "code-byte-7f", "size-7-first", "broken-levels-15", "zeros-8", "open-moov")
LENT += ("wide-movie", "open-movie", "many-2000", "nest-16-with-60-each", "f33_h264_aac", "c05_faststart_cut")
# the texts of these are shown
SHOWN = ("empty-moov", "udta-of-eight-zeros-in-movie", "nest-all-17-free", "nest-broken-behind-17", "all-strange-codes", "size-7-in-all")
SHOWN += ("every-list-torn", "wide-in-turns", "open-moov-over-moov", "zeros-8", "eight-bits", "f02_amrnb_time", "c05_faststart_cut")


def outline_calls(name, file):
    """With as much room as it needs; a file that is refused is lent some and none."""
    if name.startswith("1-"):
        return [outline(name, file, room) for room in (2000, 0)]
    n = len(answers.outline(file))
    shown = outline(name, file, n, int(name in SHOWN))
    return [shown, *[outline(name, file, room) for room in rooms(n)[1:] if name in LENT]]


def outline_groups():
    for name, file, _ in outlines.cases():
        yield file, outline_calls(name, file)


def long_outline_groups():
    """(start, whole length, calls) of files at the limits of length."""
    for name, start, length, _ in outlines.long_outlines():
        yield start, length, outline_calls(name, start.ljust(length, b"\0"))


# ---- Samples and modes


# these are lent rooms of every length
HEARD = ("amr-type-0-quality-0", "amr-type-0-no-bits", "wideband-257-frames-of-1-middle", "codecs-wideband-in-amr", "empty-chunks")
HEARD += ("runs-one-in-many", "most-samples-last", "no-samples-amr", "all-kinds")


def track_calls(label, file, number, numbers, wanted):
    """With as much room as each needs; what is refused is lent some."""
    return [listen(label, file, number, 2 if wanted == modes.NONE else len(wanted)), samples(label, file, number, len(numbers))]


def room_calls(label, file, number, numbers):
    for room in (0, 1, 2, 3, SHOWN_NUMBERS):
        yield listen(label, file, number, room)
    for room in sorted({0, 1, 2, 3, SHOWN_NUMBERS, max(len(numbers) - 1, 0), len(numbers), len(numbers) + 5}):
        yield samples(label, file, number, room)


def no_track_calls(label, file):
    """Tracks that aren't there, with room and with none."""
    for number in (0, answers.tracks(file) + 1, 5, 255, 256, *HUGE):
        for room in (0, SHOWN_NUMBERS):
            yield from (listen(label, file, number, room), samples(label, file, number, room))


def heard_calls(label, file, tracks, walked):
    for number, (numbers, wanted) in enumerate(tracks, 1):
        yield from track_calls(label, file, number, numbers, wanted)[: 2 if walked else 1]
        if label in HEARD:
            yield from room_calls(label, file, number, numbers)
    if label in ("amr-type-0-no-bits", "all-kinds"):
        yield from no_track_calls(label, file)


def all_heard(label, file):
    """Each track of a file that was not made for this."""
    for number in range(1, answers.tracks(file) + 1):
        yield listen(label, file, number, 2)
        yield samples(label, file, number, len(answers.samples(file, number)))


def heard_elsewhere():
    """(name, file) of the other tests: films, files of wide and open boxes, real ones, and those that were made of frames."""
    yield from list(all_films())[::3]
    yield from list(plain_files())
    yield from list(formed_films())[::4]
    for path in sorted(REAL.glob("*.3gp")):
        if files.judge(path.read_bytes()) == (0, 0):
            yield path.stem, path.read_bytes()
    for name, given, _ in dumps.cases():
        if name[2:] in RESULTS:
            yield "speech-" + name[2:], answers.from_amr(given)
    for name, wideband, file, _ in salvages.cases():
        if name in ROOMED:
            yield "saved-" + name[2:], saved(file, wideband)


def heard_refused():
    """(name, file) of files that are refused by each rule, real ones too."""
    seen = {}
    for name, parts, _ in [*files.cases(), *forms.cases()]:
        number = name.split("-")[0]
        seen[number] = seen.get(number, 0) + 1
        if number != "0" and seen[number] % 60 == 1:
            yield name, files.build(parts)
    for path in sorted(REAL.glob("*.3gp")):
        if files.judge(path.read_bytes()) != (0, 0):
            yield path.stem, path.read_bytes()


def heard_groups():
    """(start, whole length, calls)."""
    for name, file, tracks, walked in modes.cases():
        yield file, len(file), heard_calls(name, file, tracks, walked)
    for label, file in heard_elsewhere():
        yield file, len(file), all_heard(label, file)
    for label, file in heard_refused():
        calls = [call(label, file, *lent) for call in (listen, samples) for lent in ((1, SHOWN_NUMBERS), (0, 0))]
        yield file, len(file), calls
    for name, file, tracks in modes.long_cases():
        yield file.rstrip(b"\0"), len(file), heard_calls(name, file, tracks, True)
    for label, length in (("zeros-over", files.LONGEST + 1), ("zeros-longest", files.LONGEST)):
        yield b"", length, [call(label, bytes(length), 1, 2) for call in (listen, samples)]


def short_groups():
    """(a file, the calls on it)."""
    yield from plain_groups()
    yield from film_groups()
    yield from refused_groups()
    yield from brand_groups()
    yield from table_groups()
    yield from described_groups()
    yield from shift_groups()
    yield from marked_groups()
    yield from record_groups()
    yield from newest_groups()
    yield from field_groups()
    yield from release_groups()
    yield from brand_set_groups()
    yield from real_groups()
    yield from form_groups()
    yield from form_table_groups()
    yield from dump_groups()
    yield from dumped_groups()
    yield from salvage_groups()
    yield from salvage_room_groups()
    yield from told_groups()
    yield from saved_groups()
    yield from outline_groups()


# ---- Files and sheets at the limits of length: a start, and zeros behind it


def long_film(total):
    """A film whose last box, a `free`, fills the file; the start of it."""
    file = film(dict(films())["h263"], lambda moov, a, b: [Box("free", b"12"), a, moov, b])
    return made(file + [Box("free", size=total - len(made(file)))])


def long_edits(label, file):
    n, plain, rates = len(file), one(d263()), one(d263(bitr()))
    yield move(label, file, n)
    yield shift(label, file, -60, n)
    for room in (0, n - 1):
        yield move(label, file, room)
        yield shift(label, file, 840, room)
    for room in (0, n, n + 15, n + 16):
        yield replace(label, file, 1, "d263", plain, room)
        yield replace(label, file, 1, "d263-rates", rates, room)
    yield replace(label, file, 1, "bitr-code", bent(rates, 19, b"BITR"), 0)
    yield replace(label, file, 3, "d263-rates", rates, 0)
    yield shift(label, file, 841, 0)
    yield sheet(label, file, 400)
    yield listing(label, file, 400)
    yield tracks(label, file)
    yield brand(label, file, "3gp6")
    yield track(label, file, 2)
    yield offsets(label, file, 2)
    yield newest(label + "-and-nothing", file, 841, b"", 0, 0)


def long_open_films(total):
    """Films of that length whose last box is open: a `free`, and a `moov` that ends in a `free`."""
    yield "free", made([*film_of("middle"), Box("free", size=0)])
    file = forms.opened(film_of("back"))
    length = len(made(file))
    boxes_body(file).append(Box("free", size=total - length))
    yield "moov", made(file)


def long_open_groups():
    for total in (files.LONGEST - 16, files.LONGEST - 15):
        for what, start in long_open_films(total):
            label, file = "open-%s-%d" % (what, total), start.ljust(total, b"\0")
            calls = [move(label, file, total), shift(label, file, -60, total)]
            yield start, total, [*calls, replace(label, file, 1, "d263-rates", dict(records())["d263-rates"], total + 16)]


def long_groups():
    """(start, whole length, calls)."""
    longest = files.LONGEST
    for more in (-17, -16, -15, 0, 1):
        total = longest + more
        start = long_film(total)
        file = start.ljust(total, b"\0")
        yield start, total, long_edits("film-%d" % total, file)
        first = made(film(dict(films())["speech"], lambda moov, a, b: [a, moov, b]))
        label = "film-and-%d" % total
        calls = [call for y in (0, 840, -840) for n in (0, 1, 3) for call in both(label, first, y, file, 0, n)]
        yield first + start, len(first) + total, calls
    for size in (longest - 16, longest - 15):
        start = sheet_of((1, OTHER), (2, one(Box("tx3g", bytes(8))).ljust(size, b"\0")))
        start = bent(start, start.index(b"tx3g", 120) - 4, w(size))
        given = start.ljust(100 + len(OTHER) + size, b"\0")
        label, start = "body-%d" % size, start.rstrip(b"\0")
        calls = [table(label, given, track, room) for track in (0, 1, 2, 3) for room in (0, longest - 1, longest, longest + 20)]
        yield start, len(given), calls
        yield start, len(given) + 1, [table(label + "-more", given + b"\0", 2, room) for room in (0, longest)]
        yield start, len(given) - 1, [table(label + "-less", given[:-1], 2, room) for room in (0, longest)]


# ---- The data of the program


def behind_length(data):
    return w(len(data)) + data


def packed(call):
    kind, name, room, numbers, more, _ = call
    most = {"samples": MOST_NUMBERS, "modes": SHOWN_NUMBERS}.get(kind, LONG_ROOM)
    assert len(name) < 256 and room <= most, name
    start = bytes([1 + KINDS.index(kind)]) + w(room)
    for n in (tuple(numbers) + (0, 0, 0))[:3]:
        start += n.to_bytes(8, "big")
    return behind_length(start + bytes([len(name)]) + name.encode() + more)


def all_groups():
    for group in (files, forms):
        for name, start, length in files.checked(group.cases(), group.long_files()):
            yield start, length, [judge(name, start.ljust(length, b"\0"))]
    for file, calls in short_groups():
        yield file, len(file), calls
    yield from long_groups()
    yield from long_open_groups()
    yield from long_dump_groups()
    yield from long_salvage_groups()
    yield from long_outline_groups()
    yield from heard_groups()


def fresh(start, length, calls, seen):
    """The calls that were not made before; a name stands for one call."""
    for call in calls:
        assert seen.get(call[1], (start, length, call)) == (start, length, call), call[1]
        if call[1] not in seen:
            yield call
        seen[call[1]] = (start, length, call)


def split(start, length, calls):
    """Groups of a file, each with as many of its calls as go into one."""
    group = head = w(length, len(start)) + start
    for call in map(packed, calls):
        if len(group) + len(call) > GROUP:
            yield group
            group = head
        group += call
    yield group


def check_reader():
    files.check_builder()
    dumps.check()
    salvages.check()
    outlines.check()
    modes.check()
    assert {*LENT, *SHOWN} <= {name for name, _, _ in outlines.cases()}
    assert {*HEARD} <= {case[0] for case in [*modes.cases(), *modes.long_cases()]}
    example = b"file 0\ntrack 1 soun 160/8000\nentry 1 track 1 samr place 397 size 53\n"
    example += b"brand 3gp4 no\nbrand 3gp5 no\nbrand 3gp6 yes\nbrand 3gr6 no\n"
    assert answers.listing(files.build(files.movie(files.trak()))) == example
    for label, file in [*all_films(), *plain_files(), *formed_films()]:
        assert files.judge(file) == (0, 0), label
        assert files.judge(answers.move(file)) == (0, 0), label
        assert answers.move(answers.move(file)) == answers.move(file), label
    for _, given in good_sheets():
        answers.sheet_bodies(given)


def main():
    check_reader()
    seen, groups, lines = {}, [], []
    for start, length, calls in all_groups():
        new = list(fresh(start, length, calls, seen))
        groups += split(start, length, new)
        lines += [call[1] + call[5] for call in new]
    assert max(map(len, groups)) <= GROUP
    (CALLS / "data").mkdir(exist_ok=True)
    (CALLS / "data" / "groups").write_bytes(w(len(groups)) + b"".join(map(behind_length, groups)))
    (CALLS / "data" / "most_entries").write_bytes(most_entries())
    (CALLS / "stdout").write_text("\n".join(lines) + "\n")
    kinds = [call[0] for _, _, call in seen.values()]
    print(len(kinds), "calls in", len(groups), "groups:", {kind: kinds.count(kind) for kind in KINDS})


if __name__ == "__main__":
    main()
