/* How long the library's functions take, and how much stack: tables in Markdown over the files of shapes.h, each at three lengths.

     bench           the time of each call, its ratio to one memcpy of the file, its growth from the next smaller length; the stack
     bench dumps     the same of files made of dumps, and of what a recorder leaves that died
     bench outlines  the same of outlines of files with many boxes
     bench modes     the same of the samples and the modes of files of much speech
     bench chopped   judgements of files with many `mdat`s, their chunks in every order
     bench worst     one judgement of the slowest file that we know

   A time is the processor's for one call: the shortest of five rounds, each of so many calls that it takes 20 ms or more. After a
   second no further round begins; the time then has a star. */
#define _GNU_SOURCE
#include <stdio.h>
#include <string.h>
#include <time.h>
#include <ucontext.h>

#include "shapes.h"
#include "threegp.h"

/* A file is shorter by the rates that a `d263` can have, so that the longest can grow by them, too. */
enum { LENGTHS = 3, RATES = 16 };
static const size_t lengths[LENGTHS] = {4096 - RATES, 65536 - RATES, LONGEST - RATES};

/* ---- Calls */

/* No outline is 7 times as long as its file: the most text is that of containers of 9 bytes, 60 for each and the broken byte in it. */
enum { TEXT = 7 * LONGEST };
static uint8_t out[TEXT], sheet[TEXT];
static uint32_t list[LONGEST / 4];
static uint64_t numbers[16];
/* As many samples as a track may have, and the numbers of them. */
enum { MOST_SAMPLES = 65536 };
static uint64_t places[2 * MOST_SAMPLES];
static size_t sheet_length;
static bool grows; /* a replacement makes the file longer */

static const uint8_t damr[17] = "\0\0\0\021damrABCD\0\x81\xFF\0\1";
static const uint8_t d263[31] = "\0\0\0\037d263ABCD\0\012\0\0\0\0\020bitr\0\0\xFA\0\0\0\xFA\0";
static const uint64_t fields[11] = {5, 1, 176, 144, 0x41424344, 0, 10, 0, 1, 64000, 64000};

static uint64_t call_nothing(void) { return 0; }
static uint64_t call_memcpy(void) { return memcpy(out, file, length) == NULL; }
static uint64_t call_judge(void) { return threegp_judge(file, length); }
static uint64_t call_tracks(void) { return threegp_tracks(file, length); }
static uint64_t call_track(void) { return threegp_track(file, length, 1, numbers, 16); }
static uint64_t call_brand(void) { return threegp_brand(file, length, 0x33677034); }
static uint64_t call_offsets(void) { return threegp_offsets(file, length, 1, list, LONGEST / 4); }
static uint64_t call_listing(void) { return threegp_listing(file, length, out, LONGEST); }
static uint64_t call_sheet(void) { return threegp_sheet(file, length, sheet, LONGEST); }
static uint64_t call_newer(void) { return threegp_newer(file, length, 60, file, length, 0, 1, numbers, 16); }
static uint64_t call_shift(void) { return threegp_shift(file, length, 60, out, LONGEST); }
static uint64_t call_move(void) { return threegp_move(file, length, out, LONGEST); }
static uint64_t call_outline(void) { return threegp_outline(file, length, out, TEXT); }
static uint64_t call_samples(void) { return threegp_samples(file, length, 1, places, 2 * MOST_SAMPLES); }
/* Of the files of shapes.h the first sample fails: it isn't of whole frames. */
static uint64_t call_modes(void) { return threegp_modes(file, length, 1, numbers, 16); }
static uint64_t call_table(void) { return threegp_table(sheet, sheet_length, 1, out, LONGEST); }
static uint64_t call_record_read(void) { return threegp_record_read(sheet + (sheet[0] == 1 ? 100 : 388), 53, 6, numbers, 16); }
static uint64_t call_record_write(void) { return threegp_record_write(fields, 11, 6, out, LONGEST); }

static uint64_t call_replace(void)
{
    return grows ? threegp_replace(file, length, 2, d263, sizeof d263, out, LONGEST)
                 : threegp_replace(file, length, 1, damr, sizeof damr, out, LONGEST);
}

/* The first TIMED take a file and are timed, the last of these are OUTLINE and those of samples; the stack is measured of all but memcpy. */
static const struct call {
    const char *name;
    uint64_t (*make)(void);
} calls[] = {
    {"`memcpy`", call_memcpy}, {"judge", call_judge}, {"tracks", call_tracks}, {"track", call_track}, {"brand", call_brand},
    {"offsets", call_offsets}, {"listing", call_listing}, {"sheet", call_sheet}, {"newer", call_newer}, {"shift", call_shift},
    {"replace", call_replace}, {"move", call_move}, {"outline", call_outline}, {"samples", call_samples},
    {"modes", call_modes}, {"table", call_table}, {"record_read", call_record_read}, {"record_write", call_record_write},
};
enum { CALLS = sizeof calls / sizeof *calls, TIMED = CALLS - 3, OUTLINE = TIMED - 3, SAMPLES, MODES };

static void check(const char *name, uint64_t answer)
{
    if (threegp_number(answer) == 0)
        return;
    fprintf(stderr, "bench: %s: refused by %u at %u\n", name, threegp_number(answer), threegp_value(answer));
    exit(1);
}

/* The file has to be accepted, and every call done. */
static void check_calls(const struct shape *shape)
{
    check(shape->name, call_judge());
    grows = shape->plan.tracks > 1;
    sheet_length = threegp_value(call_sheet());
    for (size_t k = 0; k < CALLS; k++)
        check(calls[k].name, calls[k].make());
}

/* ---- Times, in nanoseconds */

enum { ROUNDS = 5, ROUND = 20000000, SECOND = 1000000000 };

/* Of one call; few where not all rounds were made. */
struct time {
    double shortest;
    bool few;
};

static double now(void)
{
    struct timespec time;
    clock_gettime(CLOCK_PROCESS_CPUTIME_ID, &time);
    return (double)time.tv_sec * SECOND + (double)time.tv_nsec;
}

static double time_round(uint64_t (*make)(void), size_t count)
{
    double start = now();
    for (size_t k = 0; k < count; k++)
        make();
    return now() - start;
}

static struct time time_call(uint64_t (*make)(void))
{
    double start = now(), shortest;
    size_t count = 1, rounds = 1;
    while ((shortest = time_round(make, count)) < ROUND)
        count *= 2;
    for (; rounds < ROUNDS && now() - start < SECOND; rounds++) {
        double round = time_round(make, count);
        shortest = round < shortest ? round : shortest;
    }
    return (struct time){shortest / (double)count, rounds < ROUNDS};
}

/* ---- Stack, in bytes */

enum { WORDS = 1 << 20 };
static const uint64_t UNTOUCHED = 0xA55AC33C0FF0965A;
static uint64_t stack[WORDS];
static uint64_t (*made_there)(void);
static size_t most[CALLS];

static void make_there(void)
{
    made_there();
}

/* How much a call touches of a stack of its own. */
static size_t touched(uint64_t (*make)(void))
{
    ucontext_t here, there;
    for (size_t k = 0; k < WORDS; k++)
        stack[k] = UNTOUCHED;
    getcontext(&there);
    there.uc_stack = (stack_t){.ss_sp = stack, .ss_size = sizeof stack};
    there.uc_link = &here;
    made_there = make;
    makecontext(&there, make_there, 0);
    swapcontext(&here, &there);
    size_t left = 0;
    while (left < WORDS && stack[left] == UNTOUCHED)
        left++;
    return (WORDS - left) * sizeof *stack;
}

static void measure_stack(void)
{
    size_t without = touched(call_nothing);
    for (size_t k = 1; k < CALLS; k++) {
        size_t taken = touched(calls[k].make) - without;
        most[k] = taken > most[k] ? taken : most[k];
    }
}

/* ---- Tables */

static void print_number(double number)
{
    printf("%.*f", number < 9.995 ? 2 : number < 99.95 ? 1 : 0, number);
}

static void print_time(struct time time)
{
    static const char *const units[] = {"ns", "µs", "ms", "s"};
    size_t unit = 0;
    for (; unit < 3 && time.shortest >= 999.5; unit++)
        time.shortest /= 1000;
    print_number(time.shortest);
    printf(" %s%s", units[unit], time.few ? "*" : "");
}

static void print_row(const char *name, const struct time *times, const struct time *copies)
{
    printf("| %s", name);
    for (size_t k = 0; k < LENGTHS; k++) {
        printf(" | ");
        print_time(times[k]);
        printf(" | ");
        print_number(times[k].shortest / copies[k].shortest);
        if (k == 0)
            continue;
        printf(" | ");
        print_number(times[k].shortest / times[k - 1].shortest);
    }
    printf(" |\n");
}

static void measure_shape(const struct shape *shape)
{
    struct time times[TIMED][LENGTHS];
    printf("\n**%s**:", shape->name);
    for (size_t k = 0; k < LENGTHS; k++) {
        printf("%s %zu", k == 0 ? "" : k == 1 ? "," : " and", build_fitting(shape, lengths[k]));
        check_calls(shape);
        for (size_t call = 0; call < TIMED; call++)
            times[call][k] = time_call(calls[call].make);
        measure_stack();
    }
    printf(" %s\n\n| call | 4 KiB | ratio | 64 KiB | ratio | growth | 1 MiB | ratio | growth |\n", shape->counted);
    printf("|---|--:|--:|--:|--:|--:|--:|--:|--:|\n");
    for (size_t call = 0; call < TIMED; call++)
        print_row(calls[call].name, times[call], times[0]);
    fflush(stdout);
}

/* ---- Dumps, and what a recorder leaves that died */

/* The bytes of a file besides its frames, and those of its table for each frame. */
enum { AROUND = 550, LISTED = 4 };

static size_t made;
static uint64_t wideband;

static void put_magic(void) { put_text(wideband ? "#!AMR-WB\n" : "#!AMR\n"); }

/* An `ftyp`, and the header of an `mdat` that nobody closed. */
static void put_unended(void)
{
    close_box(open_box("ftyp"));
    open_box("mdat");
}

static uint64_t call_from_amr(void) { return threegp_from_amr(file, length, out, LONGEST); }
static uint64_t call_salvage(void) { return threegp_salvage(file, length, wideband, out, LONGEST, numbers, 16); }
static uint64_t call_copy(void) { return memcpy(sheet, out, made) == NULL; }

/* Those that make a file of frames: what they take before these, and the most stack that they took. */
static struct maker {
    const char *name;
    void (*open)(void);
    uint64_t (*make)(void);
    size_t most;
} from_amr = {"from_amr", put_magic, call_from_amr, 0}, salvage = {"salvage", put_unended, call_salvage, 0};

/* Frames of one type: their codec, their header and how long they are. */
static const struct dump {
    const char *name;
    struct maker *maker;
    uint64_t wideband;
    uint8_t header;
    size_t frame;
} dumps[] = {
    {"AMR, type 0", &from_amr, 0, 0x04, 13},
    {"AMR, type 7", &from_amr, 0, 0x3C, 32},
    {"wideband, type 8", &from_amr, 1, 0x44, 61},
    {"salvaged AMR, type 0", &salvage, 0, 0x04, 13},
    {"salvaged wideband, type 8", &salvage, 1, 0x44, 61},
};
enum { DUMPS = sizeof dumps / sizeof *dumps };

/* Builds the dump of the longest file that fits, and answers how many frames it has. */
static size_t build_dump(const struct dump *dump, size_t limit)
{
    size_t count = (limit - AROUND) / (LISTED + dump->frame);
    wideband = dump->wideband;
    length = 0;
    dump->maker->open();
    for (size_t k = 0; k < count; k++) {
        put(dump->header, 1);
        put_zeros(dump->frame - 1);
    }
    return count;
}

/* The file that the dump becomes has to be accepted. */
static void check_dump(const struct dump *dump)
{
    uint64_t answer = dump->maker->make();
    check(dump->name, answer);
    made = threegp_value(answer);
    check(dump->name, threegp_judge(out, made));
}

static void measure_dump(const struct dump *dump, struct time *times, struct time *copies, size_t *counts)
{
    for (size_t k = 0; k < LENGTHS; k++) {
        counts[k] = build_dump(dump, lengths[k]);
        check_dump(dump);
        times[k] = time_call(dump->maker->make);
        copies[k] = time_call(call_copy);
        size_t taken = touched(dump->maker->make) - touched(call_nothing);
        dump->maker->most = taken > dump->maker->most ? taken : dump->maker->most;
    }
}

static void measure_dumps(void)
{
    struct time times[DUMPS][LENGTHS], copies[DUMPS][LENGTHS];
    size_t counts[DUMPS][LENGTHS];
    printf("\n**Dumps**, by the length of the file that they become:");
    for (size_t k = 0; k < DUMPS; k++) {
        measure_dump(&dumps[k], times[k], copies[k], counts[k]);
        printf("%s %zu, %zu and %zu frames of %s", k == 0 ? "" : ";", counts[k][0], counts[k][1], counts[k][2], dumps[k].name);
    }
    printf("\n\n| dump | 4 KiB | ratio | 64 KiB | ratio | growth | 1 MiB | ratio | growth |\n|---|--:|--:|--:|--:|--:|--:|--:|--:|\n");
    print_row("`memcpy`", copies[0], copies[0]);
    for (size_t k = 0; k < DUMPS; k++)
        print_row(dumps[k].name, times[k], copies[k]);
    fflush(stdout);
}

/* ---- Outlines */

/* Empty boxes, as many as fit. */
static size_t build_many(size_t limit)
{
    size_t count = (limit - 8) / 8, start = open_box("moov");
    put_empties(count);
    close_box(start);
    return 1 + count;
}

/* Containers of 9 bytes: the byte in each of them is broken. */
static size_t build_broken(size_t limit)
{
    size_t count = (limit - 8) / 9, start = open_box("moov");
    for (size_t k = 0; k < count; k++) {
        size_t inner = open_box("trak");
        put_zeros(1);
        close_box(inner);
    }
    close_box(start);
    return 1 + 2 * count;
}

/* 16 containers in each other, the last of them empty; in the others empty boxes before and behind the next. */
static size_t build_nested(size_t limit)
{
    static const char *const codes[] = {"moov", "trak", "mdia", "minf", "stbl", "dinf", "udta"};
    enum { DEPTH = 16 };
    size_t starts[DEPTH], count = (limit / 8 - DEPTH) / (2 * (DEPTH - 1));
    for (size_t k = 0; k < DEPTH; k++) {
        starts[k] = open_box(codes[k % 7]);
        put_empties(k == DEPTH - 1 ? 0 : count);
    }
    for (size_t k = DEPTH; k != 0; k--) {
        put_empties(k == DEPTH ? 0 : count);
        close_box(starts[k - 1]);
    }
    return DEPTH + 2 * (DEPTH - 1) * count;
}

/* Builds a file up to a length, and answers how many lines its outline has. */
static const struct drawing {
    const char *name;
    size_t (*build)(size_t limit);
} drawings[] = {
    {"many empty boxes in one `moov`", build_many},
    {"many broken boxes in one `moov`", build_broken},
    {"empty boxes in 15 of 16 nested containers", build_nested},
};
enum { DRAWINGS = sizeof drawings / sizeof *drawings };

/* The text has to have so many lines. */
static void check_outline(const char *name, size_t lines)
{
    uint64_t answer = call_outline();
    check(name, answer);
    made = threegp_value(answer);
    size_t found = 0;
    for (size_t k = 0; k < made; k++)
        found += out[k] == '\n';
    if (found == lines && out[made - 1] == '\n')
        return;
    fprintf(stderr, "bench: %s: %zu lines for %zu\n", name, found, lines);
    exit(1);
}

static void measure_drawing(const struct drawing *drawing, struct time *times, struct time *copies, size_t *lines)
{
    for (size_t k = 0; k < LENGTHS; k++) {
        length = 0;
        lines[k] = drawing->build(lengths[k]);
        check_outline(drawing->name, lines[k]);
        times[k] = time_call(call_outline);
        copies[k] = time_call(call_copy);
        size_t taken = touched(call_outline) - touched(call_nothing);
        most[OUTLINE] = taken > most[OUTLINE] ? taken : most[OUTLINE];
    }
}

static void measure_outlines(void)
{
    struct time times[DRAWINGS][LENGTHS], copies[DRAWINGS][LENGTHS];
    size_t lines[DRAWINGS][LENGTHS];
    printf("\n**Outlines**, by the length of the file; the ratio is to one copy of the text:");
    for (size_t k = 0; k < DRAWINGS; k++) {
        measure_drawing(&drawings[k], times[k], copies[k], lines[k]);
        printf("%s %zu, %zu and %zu lines of %s", k == 0 ? "" : ";", lines[k][0], lines[k][1], lines[k][2], drawings[k].name);
    }
    printf("\n\n| file | 4 KiB | ratio | 64 KiB | ratio | growth | 1 MiB | ratio | growth |\n|---|--:|--:|--:|--:|--:|--:|--:|--:|\n");
    print_row("`memcpy`", copies[0], copies[0]);
    for (size_t k = 0; k < DRAWINGS; k++)
        print_row(drawings[k].name, times[k], copies[k]);
    fflush(stdout);
}

/* ---- Samples and modes */

/* Zeros are frames of type 0, so long in AMR. */
enum { FRAME = 13 };

/* One track of speech in one chunk, as long as fits: a frame in each sample, or all of them in one. Answers how many frames it has. */
static size_t build_speech(bool one, size_t limit)
{
    struct plan plan = {.mdats = 1, .tracks = 1, .chunks = 1, .samples = 1, .bytes = FRAME};
    build(&plan, 0);
    size_t count = 1 + (limit - length) / FRAME;
    count = one || count < MOST_SAMPLES ? count : MOST_SAMPLES;
    *(one ? &plan.bytes : &plan.samples) *= count;
    build(&plan, 0);
    return count;
}

static const struct speech {
    const char *name;
    bool one;
    size_t call;
} speeches[] = {
    {"samples, of a frame each", false, SAMPLES},
    {"modes, of a frame each", false, MODES},
    {"samples, one of all frames", true, SAMPLES},
    {"modes, one of all frames", true, MODES},
};
enum { SPEECHES = sizeof speeches / sizeof *speeches };

/* Every sample has to be found; those of one frame pass, and one of many has a wrong count. */
static void check_speech(const struct speech *speech, size_t frames)
{
    size_t samples = speech->one ? 1 : frames;
    uint64_t found = call_samples(), heard = call_modes();
    check(speech->name, found);
    check(speech->name, heard);
    bool all = threegp_value(found) == 2 * samples && places[2 * samples - 2] == places[0] + (samples - 1) * FRAME;
    if (all && (speech->one ? threegp_value(heard) == 2 && numbers[0] == 1 && numbers[1] == 2 : threegp_value(heard) == 0))
        return;
    fprintf(stderr, "bench: %s: another answer\n", speech->name);
    exit(1);
}

static void measure_speech(const struct speech *speech, struct time *times, struct time *copies, size_t *frames)
{
    for (size_t k = 0; k < LENGTHS; k++) {
        frames[k] = build_speech(speech->one, lengths[k]);
        check_speech(speech, frames[k]);
        times[k] = time_call(calls[speech->call].make);
        copies[k] = time_call(call_memcpy);
        size_t taken = touched(calls[speech->call].make) - touched(call_nothing);
        most[speech->call] = taken > most[speech->call] ? taken : most[speech->call];
    }
}

static void measure_modes(void)
{
    struct time times[SPEECHES][LENGTHS], copies[SPEECHES][LENGTHS];
    size_t frames[SPEECHES][LENGTHS];
    for (size_t k = 0; k < SPEECHES; k++)
        measure_speech(&speeches[k], times[k], copies[k], frames[k]);
    printf("\n**Speech**, by the length of the file: %zu, %zu and %zu samples of a frame each; one sample of %zu, %zu and %zu frames",
           frames[0][0], frames[0][1], frames[0][2], frames[SPEECHES - 1][0], frames[SPEECHES - 1][1], frames[SPEECHES - 1][2]);
    printf("\n\n| call | 4 KiB | ratio | 64 KiB | ratio | growth | 1 MiB | ratio | growth |\n|---|--:|--:|--:|--:|--:|--:|--:|--:|\n");
    print_row("`memcpy`", copies[0], copies[0]);
    for (size_t k = 0; k < SPEECHES; k++)
        print_row(speeches[k].name, times[k], copies[k]);
    fflush(stdout);
}

static void print_stack(void)
{
    printf("\n**Stack**: the most bytes over all these files\n\n| call | bytes |\n|---|--:|\n");
    for (size_t k = 1; k < CALLS; k++)
        printf("| %s | %zu |\n", calls[k].name, most[k]);
    printf("| %s | %zu |\n| %s | %zu |\n", from_amr.name, from_amr.most, salvage.name, salvage.most);
}

static void measure_chopped(void)
{
    printf("\n| chunks | in each | `mdat`s | 64 KiB | `mdat`s | 1 MiB | growth |\n|---|---|--:|--:|--:|--:|--:|\n");
    for (size_t k = 0; k < CHOPPED; k++) {
        struct time times[LENGTHS];
        printf("| %s | %s", chopped[k].name, chopped[k].counted);
        for (size_t n = 1; n < LENGTHS; n++) {
            printf(" | %zu | ", build_fitting(&chopped[k], lengths[n]));
            check(chopped[k].name, call_judge());
            times[n] = time_call(call_judge);
            print_time(times[n]);
        }
        printf(" | ");
        print_number(times[2].shortest / times[1].shortest);
        printf(" |\n");
    }
}

/* A box more or less before the first `mdat` changes how many are looked at. */
static void measure_worst(void)
{
    size_t boxes = build_fitting(&worst, LONGEST), chunks = worst.plan.tracks * worst.plan.chunks;
    struct time taken = {0, false};
    for (size_t fewer = 0; fewer < 32; fewer++) {
        struct plan plan = plan_of(&worst, boxes - fewer);
        build(&plan, 0);
        double start = now();
        check(worst.name, call_judge());
        double once = now() - start;
        taken.shortest = once > taken.shortest ? once : taken.shortest;
    }
    printf("\n**%s**: %zu chunks in two `mdat`s by turns, %zu empty boxes: judge takes ", worst.name, chunks, boxes);
    print_time(taken);
    printf("\n");
}

int main(int count, char **words)
{
    if (count == 2 && strcmp(words[1], "worst") == 0) {
        measure_worst();
        return 0;
    }
    if (count == 2 && strcmp(words[1], "chopped") == 0) {
        measure_chopped();
        return 0;
    }
    if (count == 2 && strcmp(words[1], "dumps") == 0) {
        measure_dumps();
        printf("\nStack: %s %zu, %s %zu\n", from_amr.name, from_amr.most, salvage.name, salvage.most);
        return 0;
    }
    if (count == 2 && strcmp(words[1], "outlines") == 0) {
        measure_outlines();
        printf("\nStack: %s %zu\n", calls[OUTLINE].name, most[OUTLINE]);
        return 0;
    }
    if (count == 2 && strcmp(words[1], "modes") == 0) {
        measure_modes();
        printf("\nStack: %s %zu, %s %zu\n", calls[SAMPLES].name, most[SAMPLES], calls[MODES].name, most[MODES]);
        return 0;
    }
    if (count != 1) {
        fprintf(stderr, "bench, bench dumps, bench outlines, bench modes, bench chopped, or bench worst\n");
        return 1;
    }
    for (size_t k = 0; k < SHAPES; k++)
        measure_shape(&shapes[k]);
    measure_dumps();
    measure_outlines();
    measure_modes();
    print_stack();
    return 0;
}
