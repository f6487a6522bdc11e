"""What the calls of the library have to answer, worked out from the documents alone, apart from the library's code.

A call answers its result (bytes, a list of numbers or a number), or raises its refusal. The room that a caller lends is
looked at last, by `fit`."""
from itertools import islice

import files
from files import Box, h, num, tiles, w

KINDS = ["other", "mp4v", "mp4a", "samr", "sawb", "s263", "avc1"]
BRANDS = ["3gp4", "3gp5", "3gp6", "3gr6"]
HANDLERS = {b"vide": "vide", b"soun": "soun", b"text": "text"}
RECORDS = {"samr": "damr", "sawb": "damr", "s263": "d263"}
HEADS = {"samr": 36, "sawb": 36, "s263": 86}


class Refusal(Exception):
    def __init__(self, number, place=0):
        self.number, self.place = number, place


def ask(holds, number):
    if not holds:
        raise Refusal(number)


def parsed(file):
    """The boxes of an accepted file."""
    number, place = files.judge(file)
    if number != 0:
        raise Refusal(number, place)
    top = files.whole_file(file)
    files.tree(top)
    return top


def tracks_in(top):
    return top.one("moov").all("trak")


def entries_in(top):
    """(track, code, place, the entry's bytes) of each sample entry in file order."""
    found = []
    for number, trak in enumerate(tracks_in(top), 1):
        stsd = trak.one("mdia/minf/stbl/stsd")
        for at, _, code, payload in tiles(stsd.payload[8:])[0]:
            found.append((number, code, stsd.start + 8 + at, w(8 + len(payload)) + code.encode("latin-1") + payload))
    return found


def kind_of(code):
    return KINDS.index(code) if code in KINDS[1:] else 0


def named_track(top, track):
    ask(1 <= track <= len(tracks_in(top)), 20)
    return tracks_in(top)[track - 1]


def handler_of(trak):
    return trak.one("mdia/hdlr").payload[8:12]


# ---- Reads


def tracks(file):
    return len(tracks_in(parsed(file)))


def media_ticks(trak):
    return sum(count * delta for count, delta in files.rows(trak.one("mdia/minf/stbl/stts").payload, 2))


def scale_of(trak):
    return num(trak.one("mdia/mdhd").payload, 12)


def track(file, number):
    trak = named_track(parsed(file), number)
    return [num(handler_of(trak), 0), media_ticks(trak), scale_of(trak), num(trak.one("tkhd").payload, 20)]


def offsets(file, number):
    trak = named_track(parsed(file), number)
    return [row[0] for row in files.rows(trak.one("mdia/minf/stbl/stco").payload, 1)]


def brand_in(top, brand):
    """Whether the answer for one of the four brands is yes."""
    listed = files.brands_in(top)
    beside = {"3gp4": [], "3gp5": ["isom"]}.get(brand, ["isom", "avc1"])
    if brand not in listed or beside and not set(beside) & set(listed):
        return False
    if brand == "3gr6":
        return top.inside[1].code == "moov"
    handlers = [handler_of(trak) for trak in tracks_in(top)]
    if any(handlers.count(handler) > 1 for handler in HANDLERS):
        return False
    codes = [[code for track, code, _, _ in entries_in(top) if track == n] for n in range(1, len(handlers) + 1)]
    if any(handler in (b"vide", b"soun") and len(own) != 1 for handler, own in zip(handlers, codes)):
        return False
    return brand == "3gp6" or not any("avc1" in own for own in codes)


def brand(file, code):
    top = parsed(file)
    return sum(brand_in(top, name) for name in BRANDS if code == num(name.encode(), 0))


def edition(count):
    """The edition of a sheet of so many entries: byte 0, and where the bodies start."""
    return (1, 100) if count <= 8 else (2, 388)


def sheet(file):
    found = entries_in(parsed(file))
    number, start = edition(len(found))
    slots = [bytes([kind_of(code), track, 0, 0]) + w(place, len(body)) for track, code, place, body in found]
    bodies = [body for _, _, _, body in found]
    return (bytes([number, len(found), 0, 0]) + b"".join(slots)).ljust(start, b"\0") + b"".join(bodies)


def listing(file):
    number, place = files.judge(file)
    if number != 0:
        return b"file %d at %d\n" % (number, place)
    top = parsed(file)
    lines = ["file 0"]
    for n, trak in enumerate(tracks_in(top), 1):
        name = HANDLERS.get(handler_of(trak), "other")
        lines.append("track %d %s %d/%d" % (n, name, media_ticks(trak), scale_of(trak)))
    for n, (track, code, place, body) in enumerate(entries_in(top), 1):
        lines.append("entry %d track %d %s place %d size %d" % (n, track, KINDS[kind_of(code)], place, len(body)))
    for name in BRANDS:
        lines.append("brand %s %s" % (name, "yes" if brand_in(top, name) else "no"))
    return "".join(line + "\n" for line in lines).encode()


# ---- The table writer


def most_frames(release):
    """The most frames in a sample; any number but 4 reads as 6."""
    return files.FRAMES[4 if release == 4 else 6]


def body_fits(code, p, release):
    """The rule of an entry of a release apart from TimeScale, data reference and handler."""
    handler = b"soun" if code in ("mp4a", "samr", "sawb") else b"vide"
    return len(p) >= 8 and files.entry_fits(code, p[:6] + b"\0\1" + p[8:], handler, num(p, 24, 2), 1, most_frames(release))


def sheet_bodies(sheet):
    """(track, body) of each slot; a sheet of another form is refused."""
    ask(len(sheet) >= 4 and 1 <= sheet[1] <= 32, 30)
    number, start_of_bodies = edition(sheet[1])
    ask(len(sheet) >= start_of_bodies and sheet[0] == number and sheet[2:4] == b"\0\0", 30)
    found, at, last = [], start_of_bodies, 0
    for slot in range(sheet[1]):
        start = 4 + 12 * slot
        kind, track, size = sheet[start], sheet[start + 1], num(sheet, start + 8)
        ask(sheet[start + 2 : start + 4] == b"\0\0" and last <= track <= last + 1 and 1 <= track <= 4, 30)
        body = sheet[at : at + size]
        code = body[4:8].decode("latin-1")
        ask(size >= 8 and len(body) == size and num(body, 0) == size, 30)
        ask(kind_of(code) == kind and body_fits(code, body[8:], 4), 30)
        found.append((track, body))
        at, last = at + size, track
    ask(at == len(sheet) and not any(sheet[4 + 12 * sheet[1] : start_of_bodies]), 30)
    return found


def table(sheet, track):
    found = sheet_bodies(sheet)
    ask(1 <= track <= found[-1][0], 20)
    bodies = [body for number, body in found if number == track]
    ask(16 + sum(map(len, bodies)) <= files.LONGEST, 24)
    return w(16 + sum(map(len, bodies))) + b"stsd" + w(0, len(bodies)) + b"".join(bodies)


# ---- Records as numbers


SPEECH = ((14, 2), (32, 2), (44, 4), (48, 1), (49, 2), (51, 1), (52, 1))
PICTURE = ((14, 2), (32, 2), (34, 2), (94, 4), (98, 1), (99, 1), (100, 1))
RATES = ((109, 4), (113, 4))


def record_read(entry, release):
    """The fields of an entry of a release, kind first; of a picture the rates last, behind 1 where it has them."""
    code = entry[4:8].decode("latin-1")
    ask(code in RECORDS and num(entry, 0) == len(entry) and body_fits(code, entry[8:], release), 21)
    fields = [kind_of(code)] + [num(entry, at, width) for at, width in (PICTURE if code == "s263" else SPEECH)]
    if code != "s263":
        return fields
    return fields + ([1] + [num(entry, at, width) for at, width in RATES] if len(entry) > 101 else [0, 0, 0])


def blank(fields):
    """An entry of the kind that fields say, and where each of them goes."""
    if len(fields) == 8 and fields[0] in (3, 4):
        return files.audio(KINDS[fields[0]], files.damr()), list(zip(fields[1:], SPEECH))
    ask(len(fields) == 11 and fields[0] == 5, 21)
    rates = [files.bitr()] if fields[8] else []
    return files.visual("s263", files.d263(*rates)), list(zip(fields[1:8] + fields[9:], PICTURE + RATES * len(rates)))


def record_write(fields, release):
    """The entry of fields: it has to read back as these fields."""
    box, placed = blank(fields)
    entry = bytearray(files.lay([box], 0, 0))
    for n, (at, width) in placed:
        ask(n < 256**width, 21)
        entry[at : at + width] = n.to_bytes(width, "big")
    ask(record_read(bytes(entry), release) == fields, 21)
    return bytes(entry)


# ---- Edits


def not_editable(top):
    moov = top.one("moov")
    if any(b.code in ("moof", "mfra", "sidx", "meta") for b in top.inside) or moov.all("meta"):
        return True
    for trak in tracks_in(top):
        stbl = trak.one("mdia/minf/stbl")
        if trak.all("meta") or stbl.all("co64") or stbl.all("saio"):
            return True
    return False


def put(data, at, n):
    data[at : at + 4] = w(n)


def put_size(data, b, more):
    """The size of a box that grows by so much, in the form of its header; an open one gets a plain header."""
    if b.start - b.at == 16:
        data[b.at + 8 : b.at + 16] = (b.end - b.at + more).to_bytes(8, "big")
    else:
        put(data, b.at, b.end - b.at + more)


def closed(file, top):
    """The file to be changed: its `moov` has its true size."""
    out = bytearray(file)
    put_size(out, top.one("moov"), 0)
    return out


def time_places(top):
    for b in files.in_order(top):
        if b.path in ("moov/mvhd", "moov/trak/tkhd", "moov/trak/mdia/mdhd"):
            yield from (b.start + 4, b.start + 8)


def minutes_right(minutes):
    return -840 <= minutes <= 840


def shift(file, minutes):
    top = parsed(file)
    ask(minutes_right(minutes), 22)
    out = closed(file, top)
    for at in time_places(top):
        time = num(file, at)
        if time != 0:
            ask(1 <= time - 60 * minutes <= 2**32 - 1, 22)
            put(out, at, time - 60 * minutes)
    ask(not not_editable(top), 23)
    return bytes(out)


def chunks(top):
    """(where its offset stands, its offset, its mdat) of each chunk of the file."""
    for trak in tracks_in(top):
        stbl = trak.one("mdia/minf/stbl")
        stco, left = stbl.one("stco"), files.sizes(stbl.one("stsz").payload)
        for k, ((offset,), count) in enumerate(zip(files.rows(stco.payload, 1), files.per_chunk(stbl))):
            end = offset + sum(left[:count])
            left = left[count:]
            homes = [b for b in top.all("mdat") if b.start <= offset and end <= b.end]
            assert len(homes) == 1
            yield stco.start + 8 + 4 * k, offset, homes[0]


def move(file):
    top = parsed(file)
    ask(not not_editable(top), 23)
    moov = top.one("moov")
    order = [top.inside[0], moov] + [b for b in top.inside[1:] if b is not moov]
    places, at = {}, 0
    for b in order:
        places[b.at] = at
        at += b.end - b.at
    out = closed(file, top)
    for where, offset, mdat in chunks(top):
        put(out, where, offset + places[mdat.at] - mdat.at)
    return b"".join(bytes(out[b.at : b.end]) for b in order)


def record_fits(code, record, release):
    return files.d263_fits(record) if code == "s263" else files.damr_fits(code, record, most_frames(release))


def around(top, track):
    """The boxes from `moov` down to the `stsd` of a track."""
    box = tracks_in(top)[track - 1]
    yield from (top.one("moov"), box)
    for code in ("mdia", "minf", "stbl", "stsd"):
        box = box.one(code)
        yield box


def replace(file, entry, record):
    top = parsed(file)
    ask(1 <= entry <= len(entries_in(top)), 20)
    track, code, place, body = entries_in(top)[entry - 1]
    ask(code in RECORDS, 20)
    ask(len(record) < 8 or record[4:8] == RECORDS[code].encode(), 20)
    ask(record_fits(code, record, files.release_of(top)), 21)
    ask(not not_editable(top), 23)
    more = len(record) - (len(body) - HEADS[code])
    ask(len(file) + more <= files.LONGEST, 24)
    out = bytearray(file)
    for b in around(top, track):
        put_size(out, b, more)
    put(out, place, len(body) + more)
    for where, offset, mdat in chunks(top):
        put(out, where, offset + (more if mdat.at > top.one("moov").at else 0))
    return bytes(out[: place + HEADS[code]] + record + out[place + len(body) :])


# ---- The newer of two


def changed(top, minutes):
    return num(top.one("moov/mvhd").payload, 8) - 60 * minutes


def newest(first, y, second, z, entry):
    """Earlier, same, later as 0, 1, 2; the file of the entry; the entry's place and length."""
    tops = []
    for number, file in ((1, first), (2, second)):
        try:
            tops.append(parsed(file))
        except Refusal as refusal:
            raise Refusal(256 * number + refusal.number, refusal.place)
    ask(minutes_right(y) and minutes_right(z), 22)
    one, two = changed(tops[0], y), changed(tops[1], z)
    order = 0 if one < two else 1 if one == two else 2
    chosen = 2 if order == 0 else 1
    found = entries_in(tops[chosen - 1])
    ask(1 <= entry <= len(found), 20)
    return [order, chosen, found[entry - 1][2], len(found[entry - 1][3])]


# ---- From a dump


class Codec:
    """What a dump opens with, the sample entry, ticks in a second and in a frame, and the data bytes of each type of frame."""

    def __init__(self, magic, code, scale, delta, sizes, bare):
        self.magic, self.code, self.scale, self.delta = magic, code, scale, delta
        self.data = {**dict(enumerate(sizes)), **{kind: 0 for kind in bare}}


AMR = Codec(b"#!AMR\n", "samr", 8000, 160, (12, 13, 15, 17, 19, 20, 26, 31, 5), (15,))
WIDEBAND = Codec(b"#!AMR-WB\n", "sawb", 16000, 320, (17, 23, 32, 36, 40, 46, 50, 58, 60, 5), (14, 15))
PADDING = 0x83
MOST_FRAMES = 65536


def type_of(header):
    """The four bits of a frame's header behind its first."""
    return header >> 3 & 15


def codec_of(dump):
    found = [codec for codec in (AMR, WIDEBAND) if dump.startswith(codec.magic)]
    ask(found, 40)
    return found[0]


def good_frames(data, at, codec):
    """The frames from a place on, up to the first that is bad."""
    while at < len(data):
        kind = type_of(data[at])
        end = at + 1 + codec.data.get(kind, 0)
        if data[at] & PADDING or kind not in codec.data or len(data) < end:
            return
        yield data[at:end]
        at = end


def frames_of(dump, codec):
    """The frames behind the magic; the first that is bad is refused at its header."""
    frames = list(good_frames(dump, len(codec.magic), codec))
    end = len(codec.magic) + sum(map(len, frames))
    if end < len(dump):
        raise Refusal(41, end)
    return frames


UNIT = w(0x10000, 0, 0, 0, 0x10000, 0, 0, 0, 0x40000000)


def speech_entry(codec, frames):
    modes = sum(1 << kind for kind in {type_of(frame[0]) for frame in frames} - {14})
    damr = Box("damr", bytes(4), bytes(1), h(modes), bytes([0, 1]))
    return Box(codec.code, bytes(6), h(1), bytes(8), h(2, 16, 0, 0, codec.scale, 0), damr)


def speech_file(codec, frames):
    """The file of frames; what it says of none is that there is no run and no chunk."""
    n, ticks = len(frames), codec.delta * len(frames)
    runs = [files.stts((n, codec.delta)), files.stsc((1, n, 1))] if n else [files.stts(), files.stsc()]
    sizes = Box("stsz", w(0, 0, n), w(*map(len, frames)))
    stbl = Box("stbl", files.listed("stsd", speech_entry(codec, frames)), *runs, sizes, files.stco(*[0] * min(n, 1)))
    dinf = Box("dinf", files.listed("dref", Box("url ", w(1))))
    minf = Box("minf", Box("smhd", w(0), h(0, 0)), dinf, stbl)
    mdhd = Box("mdhd", w(0, 0, 0, codec.scale, ticks), h(0x55C4, 0))
    mdia = Box("mdia", mdhd, Box("hdlr", w(0, 0), b"soun", w(0, 0, 0), bytes(1)), minf)
    tkhd = Box("tkhd", w(7, 0, 0, 1, 0, ticks), w(0, 0), h(0, 0, 0x100, 0), UNIT, w(0, 0))
    mvhd = Box("mvhd", w(0, 0, 0, codec.scale, ticks, 0x10000), h(0x100, 0), w(0, 0), UNIT, bytes(24), w(2))
    moov = Box("moov", mvhd, Box("trak", tkhd, mdia))
    return files.build([Box("ftyp", b"3gp6", w(0), b"3gp6", b"isom"), moov, Box("mdat", b"".join(frames))])


def short_enough(file):
    ask(len(file) <= files.LONGEST, 24)
    return file


def from_amr(dump):
    codec = codec_of(dump)
    frames = frames_of(dump, codec)
    ask(len(frames) <= MOST_FRAMES, 42)
    return short_enough(speech_file(codec, frames))


# ---- What a recorder that died leaves


def codec_told(wideband):
    return WIDEBAND if wideband else AMR


def unended(file):
    """The size field of the `mdat` that nobody ended, and where its payload starts; both boxes have headers of 8 bytes."""
    ask(8 <= len(file) <= files.LONGEST, 1)
    at = num(file, 0)
    ask(file[4:8] == b"ftyp" and 8 <= at <= len(file) - 8 and file[at + 4 : at + 8] == b"mdat", 60)
    field = num(file, at)
    ask(field == 0 or at + field > len(file), 60)
    return field, at + 8


def salvage(file, codec):
    """The file of the frames that are kept; the old size field, how many these are, the bytes that are dropped and where they start."""
    field, start = unended(file)
    frames = list(islice(good_frames(file, start, codec), MOST_FRAMES))
    ask(frames, 61)
    end = start + sum(map(len, frames))
    return short_enough(speech_file(codec, frames)), [field, len(frames), len(file) - end, end]


# ---- An outline


# the six containers of the rules, and `udta`
OPENED = ["moov", "trak", "mdia", "minf", "stbl", "dinf", "udta"]
DEEPEST = 16


def code_printed(code):
    """A code as it is, or in hexadecimal where a byte of it is none of the printed ones."""
    letters = code.encode("latin-1")
    return letters if all(0x20 <= letter <= 0x7E for letter in letters) else b"0x" + letters.hex().upper().encode()


def outline_of_box(at, head, code, payload, depth):
    """The line of a box, and those of the list that it holds."""
    line = b"box %s place %d size %d depth %d\n" % (code_printed(code), at, head + len(payload), depth)
    opened = code in OPENED and depth < DEEPEST
    return line + (outline_of_list(payload, at + head, depth + 1) if opened else b"")


def outline_of_list(part, start, depth):
    """The lines of the boxes of a part that starts at a place of the file; what doesn't fit ends them. Only at the top a box may be open."""
    boxes, torn = tiles(part, files.WIDE, *([files.OPEN] if depth == 1 else []))
    lines = [outline_of_box(start + at, head, code, payload, depth) for at, head, code, payload in boxes]
    return b"".join(lines) + (b"" if torn is None else b"broken place %d\n" % (start + torn))


def outline(file):
    ask(8 <= len(file) <= files.LONGEST, 1)
    return outline_of_list(file, 0, 1)


# ---- Samples, and the modes of speech


def samples_in(trak):
    """(place, length, description) of each sample in turn, descriptions from 1."""
    stbl = trak.one("mdia/minf/stbl")
    runs, left = files.rows(stbl.one("stsc").payload, 3), iter(files.sizes(stbl.one("stsz").payload))
    for chunk, (at,) in enumerate(files.rows(stbl.one("stco").payload, 1), 1):
        _, count, description = [run for run in runs if run[0] <= chunk][-1]
        for size in islice(left, count):
            yield at, size, description
            at += size


def samples(file, track):
    """The place and the length of each sample in turn."""
    return [n for place, size, _ in samples_in(named_track(parsed(file), track)) for n in (place, size)]


BY_CODE = {codec.code: codec for codec in (AMR, WIDEBAND)}
BAD_FRAME, WRONG_COUNT, BIT_NOT_SET = 1, 2, 3


def failing(sample, entry, last):
    """Why a sample of this description fails, or None; the last of its track may have fewer frames."""
    codec, mode_set, most = BY_CODE[entry[4:8].decode()], num(entry, 49, 2), entry[52]
    frames = list(good_frames(sample, 0, codec))
    if sum(map(len, frames)) < len(sample):
        return BAD_FRAME
    if not (1 if last else most) <= len(frames) <= most:
        return WRONG_COUNT
    if any(not mode_set >> kind & 1 for kind in {type_of(frame[0]) for frame in frames} - {14}):
        return BIT_NOT_SET


def modes(file, track):
    """The first sample that fails and why; nothing where none does."""
    top = parsed(file)
    found = list(samples_in(named_track(top, track)))
    described = [(code, entry) for number, code, _, entry in entries_in(top) if number == track]
    ask(all(code in BY_CODE for code, _ in described), 20)
    for number, (place, size, description) in enumerate(found, 1):
        why = failing(file[place : place + size], described[description - 1][1], number == len(found))
        if why:
            return [number, why]
    return []


def fit(result, room):
    ask(len(result) <= room, 25)
    return result


def fit_both(result, room, numbers):
    """A file and its report, each into a room of its own."""
    return fit(result[0], room), fit(result[1], numbers)
