/* The library's face for C. Make the archive with `bin/archive`: target/staticlib/libthreegp.a (x86-64).

   A part is a pointer and then its length in elements; an empty part may have any pointer. No function asks anything of the
   caller but that each part can be read, and an output written, as far as its length says, and that an output overlaps no
   other part. What lies past a result or a report stays as it was.

   Every answer is number * 2^32 + value. Number 0: done, and the value is what the function says. Else the number is the refusal
   and the value its place in the file (of 41: in the dump; 0 for all others from 20 on), and nothing was written. Each function names its refusals in the order in
   which they are asked, and the first that applies is given:
      1  the length is not 8 to 1,048,576 bytes
      2  boxes do not tile the file or a container from here on
      3  a box that must be here is missing, or is here too often
      4  a brand list, a header or a track ID is not as it must be
      5  a list of entries is not as its count says, or there are more than 32 sample entries
      6  a sample table is not as long as its count says
      7  the sample tables of a track do not agree
      8  a chunk lies outside every mdat
      9  a data reference is not to this very file
     10  a sample entry breaks its rule
     20  no such entry or track, or one that takes no such record
     21  the record is not one whole box that meets its rule
     22  minutes outside -840 to 840, or a time that would leave 1 to 4,294,967,295
     23  no edit takes this file, for a moof, mfra, sidx, meta, co64 or saio in it
     24  the result would pass 1,048,576 bytes
     25  the room is shorter than the result
     30  the sheet is malformed
     40  this is no dump of AMR or wideband AMR with one channel
     41  the frame here has a padding bit set, is of an unknown type or is cut short
     42  there are more than 65,536 frames
     60  this is not an ftyp and right after it one mdat with size 0 or past the end, and nothing else
     61  no whole good frame stands at the start of the mdat

   A box may have a 64-bit size (size field 1, 16 bytes of header), and the last box of the file may have size 0, which reaches to the
   file's end; inside `stsd`, `dref` and entries only the 8-byte header is read. An edit keeps the form of every header, but
   writes its true size into a `moov` of size 0.

   The library needs three symbols of the C library, memcpy, memmove and memset, and no heap. Stack is the most bytes that a call took when it was measured,
   with an older kit (docs/PERFORMANCE.md says on which files), and no bound; some 16,400 of it are touched only where a file has more than 16 boxes
   at its top. */
#ifndef THREEGP_H
#define THREEGP_H

#include <stddef.h>
#include <stdint.h>

#ifdef __cplusplus
extern "C" {
#endif

/* The refusal number of an answer, 0 where there is none, and its value or place. */
static inline uint32_t threegp_number(uint64_t answer) { return (uint32_t)(answer >> 32); }
static inline uint32_t threegp_value(uint64_t answer) { return (uint32_t)answer; }

/* Judges a file: value 0 where it is accepted.
   Refusals: 1 to 10. Stack: 18256. */
uint64_t threegp_judge(const uint8_t *file, size_t length);

/* How many tracks the file has.
   Refusals: 1 to 10. Stack: 18352. */
uint64_t threegp_tracks(const uint8_t *file, size_t length);

/* What a track (from 1) says: out[0..4] are its handler code, its length in media ticks, their time scale, and its length in movie
   ticks, which is another unit. Value 4.
   Refusals: 1 to 10, 20, 25 (out has fewer than 4 numbers). Stack: 20544. */
uint64_t threegp_track(const uint8_t *file, size_t length, uint64_t track, uint64_t *out, size_t room);

/* Whether the file may call itself by a brand, `3gp4`, `3gp5`, `3gp6` or `3gr6` as a big-endian number: value 1 or 0, and 0 for
   any other code.
   Refusals: 1 to 10. Stack: 20496. */
uint64_t threegp_brand(const uint8_t *file, size_t length, uint32_t code);

/* The chunk offsets of a track (from 1) in order. Value: how many.
   Refusals: 1 to 10, 20, 25. Stack: 19184. */
uint64_t threegp_offsets(const uint8_t *file, size_t length, uint64_t track, uint32_t *list, size_t room);

/* The samples of a track (from 1) in order: out[2k] and out[2k + 1] are the place and the length of sample k + 1. Value: how many numbers these are;
   131,072 suffice, since a track has at most 65,536 samples.
   Refusals: 1 to 10, 20, 25. Stack: 19200. */
uint64_t threegp_samples(const uint8_t *file, size_t length, uint64_t track, uint64_t *out, size_t room);

/* The first sample of a track (from 1) of AMR or wideband AMR that isn't as its description says: out[0] is its number (from 1), out[1] why. Asked in turn are
   1, a bad frame: one with a padding bit set, of an unknown type or cut short; 2, a wrong count of frames: none, more than frames_per_sample, or, but for
   the track's last sample, fewer; 3, a frame of a type t whose bit, 2^t of mode_set, is not set, but for type 14. Value: 2, or 0 where every sample passes.
   docs/MODES.md has more.
   Refusals: 1 to 10, 20 (also where an entry of the track is no `samr` or `sawb`), 25 (a sample fails, and out has fewer than 2 numbers). Stack: 19376. */
uint64_t threegp_modes(const uint8_t *file, size_t length, uint64_t track, uint64_t *out, size_t room);

/* The sheet of the file's sample entries, which is of edition 1, with 8 slots, where there are at most 8 of them, and else of edition 2, with 32.
   Byte 0 is the edition, byte 1 the count of entries, bytes 2 and 3 are 0; then the slots of 12 bytes, one for each entry in file order: its kind
   (0 other, 1 mp4v, 2 mp4a, 3 samr, 4 sawb, 5 s263, 6 avc1), its track from 1, two zeros, its place in the file (4 bytes) and its length (4);
   unused slots are zero. After them, from byte 100 or 388 on, the entries, whole boxes in slot order. Value: its length.
   A room of 388 bytes and the file's length suffices.
   Refusals: 1 to 10, 25. Stack: 20704. */
uint64_t threegp_sheet(const uint8_t *file, size_t length, uint8_t *out, size_t room);

/* The `stsd` box of a track (from 1) of a sheet of either edition: 16 bytes, 8 of them its header, and then that track's entries. Value: its length.
   A room of the sheet's length suffices. Records with up to 255 frames are taken, as in release 4: a sheet doesn't say which release its file had.
   Refusals: 30, 20, 24, 25. Stack: 6296. */
uint64_t threegp_table(const uint8_t *sheet, size_t length, uint64_t track, uint8_t *out, size_t room);

/* The fields of a `samr`, `sawb` or `s263` entry. For the first two 8 numbers: kind (3, 4), data reference, TimeScale, vendor, decoder
   version, mode_set, mode_change_period, frames_per_sample. For `s263` 11: kind (5), data reference, width, height, vendor,
   decoder version, level, profile, 1 where a `bitr` follows and else 0, average rate, maximum rate. Value: 8 or 11; 11 numbers suffice.
   The release is 4, where a sample has 1 to 255 frames, or 6, where it has 1 to 15; any other number is read as 6.
   Refusals: 21 (not such an entry, or one that breaks its rule), 25. Stack: 200. */
uint64_t threegp_record_read(const uint8_t *entry, size_t length, uint64_t release, uint64_t *out, size_t room);

/* The entry of such fields, in a release as above. Value: its length; 117 bytes suffice.
   Refusals: 21 (another count of fields, a number that doesn't fit, or a broken rule), 25. Stack: 360. */
uint64_t threegp_record_write(const uint64_t *fields, size_t count, uint64_t release, uint8_t *out, size_t room);

/* The printed listing of a file; a refused one has a listing of one line. Value: the text's length; 4,096 bytes suffice.
   Refusals: 25. Stack: 20416. */
uint64_t threegp_listing(const uint8_t *file, size_t length, uint8_t *out, size_t room);

/* The outline of a file, also of one that is refused by 2 to 10: a line `box CODE place P size S depth D` for each box in file order, and `broken place P`
   where a box doesn't fit, which ends its list; the list around it goes on. Opened are `moov`, `trak`, `mdia`, `minf`, `stbl`, `dinf` and `udta`, wherever
   they stand, but not at depth 16; the top is depth 1. A code with a byte outside 0x20 to 0x7E is printed as `0x` and 8 hexadecimal digits in capitals, and
   the size is the box's true length, with its header. Value: the text's length; 8 bytes for each byte of the file, and 13 more, suffice.
   docs/OUTLINE.md has more. Refusals: 1, 25. Stack: 2752. */
uint64_t threegp_outline(const uint8_t *file, size_t length, uint8_t *out, size_t room);

/* The file with 60 times the minutes taken from each of its times that is not 0. Value: the length of the result, which is the file's.
   Refusals: 1 to 10, 22, 23 (of `moof`, `mfra`, `sidx` and `meta` at the top, `meta` in `moov` or `trak`, `co64` and `saio` in an `stbl`),
   25. Stack: 18624. */
uint64_t threegp_shift(const uint8_t *file, size_t length, int64_t minutes, uint8_t *out, size_t room);

/* The file with the decoder record of an entry (from 1, in file order) replaced by the given `damr` or `d263`. Value: the length of
   the result; 16 bytes more than the file's length suffice. The record is held to the file's release: 4 where its compatible list has `3gp4`
   and none of `3gp5`, `3gp6`, `3gr6`, else 6.
   Refusals: 1 to 10, 20 (also a given record of another code), 21, 23, 24, 25. Stack: 18832. */
uint64_t threegp_replace(const uint8_t *file, size_t length, uint64_t entry, const uint8_t *record, size_t size, uint8_t *out, size_t room);

/* The file with `moov` right after `ftyp`. Value: the length of the result, which is the file's.
   Refusals: 1 to 10, 23, 25. Stack: 18608. */
uint64_t threegp_move(const uint8_t *file, size_t length, uint8_t *out, size_t room);

/* The file that a dump becomes: AMR or wideband AMR with one channel, its magic and then frames in storage format (RFC 3267). It has one track,
   one frame per sample; docs/FROM_AMR.md has all of its fields. Value: the length of the result, which is 526 without frames; with them 550,
   4 for each frame, and the bytes of the frames. A room of 1,048,576 bytes suffices.
   Refusals: 40 (another magic, that of several channels too), 41 (its place is that of the first bad frame's header in the dump, modulo 2^32),
   42, 24, 25. Stack: 1232. */
uint64_t threegp_from_amr(const uint8_t *dump, size_t length, uint8_t *out, size_t room);

/* The file of what a recorder that died left: an `ftyp`, and right after it one `mdat` whose size is 0 or past the end, both with 8-byte headers,
   and nothing else. Kept are the whole good frames from the start of the `mdat`'s payload up to the first bad one, at most 65,536; they are read as
   AMR where wideband is 0, and as wideband AMR where it is any other number. The result is the file that a dump of them becomes.
   report[0..4] are the old size field of the `mdat`, the frames kept, the bytes dropped, and the place of the first of these in the file (the file's
   length where none is). Value: the length of the result. A room of 1,048,576 bytes and a report of 4 numbers suffice; docs/SALVAGE.md has more.
   Refusals: 1, 60, 61, 24, 25 (report has fewer than 4 numbers, or out is shorter than the result). Stack: 1296. */
uint64_t threegp_salvage(const uint8_t *file, size_t length, uint64_t wideband, uint8_t *out, size_t room, uint64_t *report, size_t numbers);

/* Which of two files is newer, each with its clock's minutes ahead of universal time. out[0] says whether the first is earlier (0),
   the same (1) or later (2); out[1] is the file of the entry, 1 or 2: the later one, the first on same; out[2] and out[3] are the
   place in it and the length of the entry of that number (from 1). Value 4.
   Refusals: 257 to 266 (256 and 1 to 10: of the first file, with the place in it), 513 to 522 (of the second), 22 (of the minutes
   alone), 20, 25 (out has fewer than 4 numbers). Stack: 18528. */
uint64_t threegp_newer(const uint8_t *first, size_t length, int64_t minutes, const uint8_t *second, size_t second_length,
                       int64_t second_minutes, uint64_t entry, uint64_t *out, size_t room);

#ifdef __cplusplus
}
#endif

#endif
