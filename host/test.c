/* Plays the stored calls (crates/test_calls/data/groups) through include/threegp.h, and writes what crates/test_calls/stdout
   holds: of each call its name, its answer, and what it left in its rooms.

     test GROUPS end      every part ends right before pages that nobody may touch; an empty one points at them
     test GROUPS start    every part begins right behind such pages; an empty one has a null pointer

   On its other side a room has guard bytes, and while a call runs its inputs can't be written. A call that touches what isn't its
   own is named on standard error, and so is an answer of the header that no call has had; the status is then 1. */
#define _GNU_SOURCE
#include <signal.h>
#include <stdbool.h>
#include <stdio.h>
#include <stdlib.h>
#include <string.h>
#include <sys/mman.h>
#include <unistd.h>

#include "threegp.h"

/* The kinds of calls, by their numbers in the data. PART is threegp_newer too: the bytes of the entry that it finds. */
enum kind {
    JUDGE = 1, TRACKS, BRAND, TRACK, RECORD_READ, NEWER, OFFSETS, PART,
    SHEET, TABLE, RECORD_WRITE, LISTING, SHIFT, REPLACE, MOVE, FROM_AMR, SALVAGE, OUTLINE, SAMPLES, MODES
};

struct bytes {
    const uint8_t *at;
    size_t length;
};

/* What a call says; its kind tells what the three numbers and the bytes behind its name are. */
struct call {
    enum kind kind;
    size_t room;
    uint64_t numbers[3];
    struct bytes name;
    struct bytes more;
};

static struct bytes current; /* the name of the call that is made */

/* Ends the program; a signal may come here. */
static _Noreturn void fail(const char *what)
{
    bool told = write(2, current.at, current.length) >= 0 && write(2, ": ", current.length == 0 ? 0 : 2) >= 0;
    _exit(told && write(2, what, strlen(what)) >= 0 && write(2, "\n", 1) >= 0 ? 1 : 2);
}

static void caught(int which)
{
    fail(which == SIGILL ? "stopped" : "touched what isn't its own");
}

/* ---- Where parts lie */

/* PAGE is one or more of any machine's pages; SPACE is longer than any part and its guard. */
enum { PAGE = 65536, SPACE = 17 * PAGE, GUARD = 4096, GUARD_BYTE = 0x5C, FILL = 0xAA };

/* Memory between pages that nobody may touch. */
struct plot {
    uint8_t *start;
    uint8_t *end;
    uint8_t *beside; /* the guard of the room that was lent last */
};

static struct plot first_input, second_input, output, second_output;
static bool at_end; /* parts lie at the end of their plots, else at the start */

static void protect(struct plot plot, int how)
{
    if (mprotect(plot.start, SPACE, how) != 0)
        fail("memory can't be protected");
}

static struct plot fenced(void)
{
    uint8_t *all = mmap(NULL, PAGE + SPACE + PAGE, PROT_NONE, MAP_PRIVATE | MAP_ANONYMOUS, -1, 0);
    if (all == MAP_FAILED)
        fail("no memory");
    struct plot plot = {all + PAGE, all + PAGE + SPACE, NULL};
    protect(plot, PROT_READ | PROT_WRITE);
    return plot;
}

static void *place(struct plot plot, size_t length)
{
    if (length > SPACE - GUARD)
        fail("a part is too long for this program");
    if (at_end)
        return plot.end - length;
    return length == 0 ? NULL : plot.start;
}

/* Lays an input, which can be read and not written from then on. */
static const void *lay(struct plot plot, struct bytes bytes)
{
    void *at = place(plot, bytes.length);
    protect(plot, PROT_READ | PROT_WRITE);
    if (bytes.length != 0)
        memcpy(at, bytes.at, bytes.length);
    protect(plot, PROT_READ);
    return at;
}

/* Lends a room of so many bytes, filled, beside its guard. */
static void *lend(struct plot *plot, size_t length)
{
    void *room = place(*plot, length);
    plot->beside = at_end ? plot->end - length - GUARD : plot->start + length;
    memset(plot->beside, GUARD_BYTE, GUARD);
    if (length != 0)
        memset(room, FILL, length);
    return room;
}

static void check_guard(struct plot plot)
{
    for (size_t k = 0; k < GUARD; k++)
        if (plot.beside[k] != GUARD_BYTE)
            fail(at_end ? "wrote before its room" : "wrote behind its room");
}

/* ---- What is written of a call */

static void put_answer(uint64_t answer)
{
    if (threegp_number(answer) == 0)
        printf(": done %u", threegp_value(answer));
    else
        printf(": %u at %u", threegp_number(answer), threegp_value(answer));
}

static uint32_t mix(uint32_t sum, uint32_t number)
{
    return (uint32_t)((sum * UINT64_C(31) + number % 0x80000000) % 0x80000000);
}

static void put_sum(const uint8_t *bytes, size_t length)
{
    uint32_t sum = 7;
    for (size_t k = 0; k < length; k++)
        sum = mix(sum, bytes[k]);
    printf(" sum %u", sum);
}

static void put_numbers(const uint64_t *numbers, size_t count)
{
    for (size_t k = 0; k < count; k++)
        printf(" %llu", (unsigned long long)numbers[k]);
}

/* The sum of 200 numbers: those of the list, and fill behind it. */
static void put_list_sum(const uint32_t *list, size_t length)
{
    uint32_t sum = 7;
    for (size_t k = 0; k < 200; k++)
        sum = mix(sum, k < length ? list[k] : 0xAAAAAAAA);
    printf(" sum %u", sum);
}

/* The sum of both halves of each number. */
static void put_halves_sum(const uint64_t *numbers, size_t count)
{
    uint32_t sum = 7;
    for (size_t k = 0; k < count; k++)
        sum = mix(mix(sum, (uint32_t)(numbers[k] >> 32)), (uint32_t)numbers[k]);
    printf(" sum %u", sum);
}

/* ---- The data: numbers with their highest byte first, parts behind their lengths */

/* Takes so many bytes from the front of what is left. */
static const uint8_t *take(struct bytes *left, size_t length)
{
    if (length > left->length)
        fail("the data ends too early");
    const uint8_t *at = left->at;
    *left = (struct bytes){at + length, left->length - length};
    return at;
}

static uint64_t take_number(struct bytes *left, size_t width)
{
    uint64_t number = 0;
    for (; width != 0; width--)
        number = number << 8 | *take(left, 1);
    return number;
}

static struct bytes take_part(struct bytes *left, size_t width)
{
    size_t length = take_number(left, width);
    return (struct bytes){take(left, length), length};
}

static int64_t minutes(uint64_t k)
{
    static const int64_t list[] = {0, 1, -1, 60, -60, 61, -61, 839, -839, 840, -840, 841, -841, 71582788, -71582788,
                                   INT64_MAX, INT64_MIN, 2, -2, 4294967296, -4294967296};
    if (k >= sizeof list / sizeof *list)
        fail("no such minutes");
    return list[k];
}

/* ---- The calls */

static uint64_t play_plain(struct bytes file, const struct call *call)
{
    const uint8_t *at = lay(first_input, file);
    uint64_t answer = call->kind == JUDGE    ? threegp_judge(at, file.length)
                      : call->kind == TRACKS ? threegp_tracks(at, file.length)
                                             : threegp_brand(at, file.length, (uint32_t)call->numbers[0]);
    put_answer(answer);
    return answer;
}

/* Two files stand one after the other, and the call has the length of the first. */
static uint64_t newer(struct bytes second, const struct call *call, uint64_t *out, size_t room)
{
    struct bytes more = call->more, first = {second.at, take_number(&more, 4)};
    take(&second, first.length);
    const uint8_t *first_at = lay(first_input, first), *second_at = lay(second_input, second);
    return threegp_newer(first_at, first.length, minutes(call->numbers[0]), second_at, second.length, minutes(call->numbers[1]),
                         call->numbers[2], out, room);
}

static uint64_t play_part(struct bytes file, const struct call *call)
{
    uint64_t *out = lend(&output, 4 * sizeof *out);
    uint64_t answer = newer(file, call, out, 4);
    if (threegp_number(answer) != 0) {
        put_answer(answer);
        put_sum(NULL, 0);
        return answer;
    }
    struct bytes more = call->more;
    take(&file, out[1] == 1 ? 0 : take_number(&more, 4));
    take(&file, out[2]);
    put_answer(out[0]);
    put_sum(take(&file, out[3]), out[3]);
    return answer;
}

static uint64_t ask_numbers(struct bytes file, const struct call *call, uint64_t *out)
{
    if (call->kind == NEWER)
        return newer(file, call, out, call->room);
    const uint8_t *at = lay(first_input, file);
    switch (call->kind) {
    case TRACK: return threegp_track(at, file.length, call->numbers[0], out, call->room);
    case SAMPLES: return threegp_samples(at, file.length, call->numbers[0], out, call->room);
    case MODES: return threegp_modes(at, file.length, call->numbers[0], out, call->room);
    default: return threegp_record_read(at, file.length, call->numbers[0], out, call->room);
    }
}

/* A room of up to 16 numbers is written whole, of a longer one the sum. */
static uint64_t play_numbers(struct bytes file, const struct call *call)
{
    uint64_t *out = lend(&output, call->room * sizeof *out);
    uint64_t answer = ask_numbers(file, call, out);
    put_answer(answer);
    if (call->room <= 16)
        put_numbers(out, call->room);
    else
        put_halves_sum(out, call->room);
    return answer;
}

static uint64_t play_offsets(struct bytes file, const struct call *call)
{
    uint32_t *list = lend(&output, call->room * sizeof *list);
    uint64_t answer = threegp_offsets(lay(first_input, file), file.length, call->numbers[0], list, call->room);
    put_answer(answer);
    put_list_sum(list, call->room);
    return answer;
}

/* The file is a list of numbers. */
static uint64_t record_write(struct bytes file, uint64_t release, uint8_t *out, size_t room)
{
    uint64_t fields[64];
    size_t count = 0;
    for (; file.length >= 8 && count < 64; count++)
        fields[count] = take_number(&file, 8);
    return threegp_record_write(lay(first_input, (struct bytes){(uint8_t *)fields, 8 * count}), count, release, out, room);
}

static uint64_t ask_bytes(struct bytes file, const struct call *call, uint8_t *out)
{
    const uint8_t *at = lay(first_input, file), *more = lay(second_input, call->more);
    switch (call->kind) {
    case SHEET: return threegp_sheet(at, file.length, out, call->room);
    case TABLE: return threegp_table(at, file.length, call->numbers[0], out, call->room);
    case RECORD_WRITE: return record_write(file, call->numbers[0], out, call->room);
    case LISTING: return threegp_listing(at, file.length, out, call->room);
    case SHIFT: return threegp_shift(at, file.length, minutes(call->numbers[0]), out, call->room);
    case REPLACE: return threegp_replace(at, file.length, call->numbers[0], more, call->more.length, out, call->room);
    case MOVE: return threegp_move(at, file.length, out, call->room);
    case FROM_AMR: return threegp_from_amr(at, file.length, out, call->room);
    case OUTLINE: return threegp_outline(at, file.length, out, call->room);
    default: fail("no such call");
    }
}

/* Whether a call's text is written, too: of listings all, of outlines those whose first number is 1. */
static bool shown(const struct call *call)
{
    return call->kind == LISTING || (call->kind == OUTLINE && call->numbers[0] == 1);
}

static uint64_t play_bytes(struct bytes file, const struct call *call)
{
    uint8_t *out = lend(&output, call->room);
    uint64_t answer = ask_bytes(file, call, out);
    put_answer(answer);
    put_sum(out, call->room);
    if (shown(call) && threegp_number(answer) == 0) {
        putchar('\n');
        fwrite(out, 1, threegp_value(answer), stdout);
    }
    return answer;
}

/* The codec is the call's first number, and how long the report's room is its second. */
static uint64_t play_salvage(struct bytes file, const struct call *call)
{
    uint8_t *out = lend(&output, call->room);
    size_t count = call->numbers[1];
    uint64_t *report = lend(&second_output, count * sizeof *report);
    uint64_t answer = threegp_salvage(lay(first_input, file), file.length, call->numbers[0], out, call->room, report, count);
    put_answer(answer);
    put_sum(out, call->room);
    put_numbers(report, count);
    return answer;
}

static uint64_t play_kind(struct bytes file, const struct call *call)
{
    switch (call->kind) {
    case JUDGE: case TRACKS: case BRAND: return play_plain(file, call);
    case TRACK: case RECORD_READ: case NEWER: case SAMPLES: case MODES: return play_numbers(file, call);
    case OFFSETS: return play_offsets(file, call);
    case PART: return play_part(file, call);
    case SALVAGE: return play_salvage(file, call);
    default: return play_bytes(file, call);
    }
}

/* ---- Every answer of the header */

#define RULES " 1 2 3 4 5 6 7 8 9 10"
#define RULES_OF_BOTH " 257 258 259 260 261 262 263 264 265 266 513 514 515 516 517 518 519 520 521 522"

/* The numbers of each function's answers, 0 for done. */
static const struct {
    const char *name, *numbers;
} functions[] = {
    [JUDGE] = {"judge", "0" RULES},
    [TRACKS] = {"tracks", "0" RULES},
    [BRAND] = {"brand", "0" RULES},
    [TRACK] = {"track", "0" RULES " 20 25"},
    [RECORD_READ] = {"record_read", "0 21 25"},
    [NEWER] = {"newer", "0" RULES_OF_BOTH " 22 20 25"},
    [OFFSETS] = {"offsets", "0" RULES " 20 25"},
    [PART] = {"newer with room", "0" RULES_OF_BOTH " 22 20"},
    [SHEET] = {"sheet", "0" RULES " 25"},
    [TABLE] = {"table", "0 30 20 24 25"},
    [RECORD_WRITE] = {"record_write", "0 21 25"},
    [LISTING] = {"listing", "0 25"},
    [SHIFT] = {"shift", "0" RULES " 22 23 25"},
    [REPLACE] = {"replace", "0" RULES " 20 21 23 24 25"},
    [MOVE] = {"move", "0" RULES " 23 25"},
    [FROM_AMR] = {"from_amr", "0 40 41 42 24 25"},
    [SALVAGE] = {"salvage", "0 1 60 61 24 25"},
    [OUTLINE] = {"outline", "0 1 25"},
    [SAMPLES] = {"samples", "0" RULES " 20 25"},
    [MODES] = {"modes", "0" RULES " 20 25"},
};

static bool given[MODES + 1][523];

static void check_given(void)
{
    for (size_t kind = JUDGE; kind <= MODES; kind++) {
        const char *next = functions[kind].numbers;
        while (*next != 0) {
            unsigned long number = strtoul(next, (char **)&next, 10);
            if (!given[kind][number]) {
                fprintf(stderr, "threegp_%s: no call has had the answer %lu\n", functions[kind].name, number);
                exit(1);
            }
        }
    }
}

/* ---- All of it */

static void play(struct bytes file, const struct call *call)
{
    current = call->name;
    fwrite(current.at, 1, current.length, stdout);
    lend(&output, 0);
    lend(&second_output, 0);
    uint64_t answer = play_kind(file, call);
    check_guard(output);
    check_guard(second_output);
    putchar('\n');
    if (threegp_number(answer) >= sizeof *given)
        fail("a number that no function gives");
    given[call->kind][threegp_number(answer)] = true;
    current.length = 0;
}

static struct call call_of(struct bytes left)
{
    struct call call = {.kind = take_number(&left, 1)};
    call.room = take_number(&left, 4);
    for (int k = 0; k < 3; k++)
        call.numbers[k] = take_number(&left, 8);
    call.name = take_part(&left, 1);
    call.more = left;
    return call;
}

/* A group is a file, as a start that zeros follow, and then the calls that it is lent to. Answers how many these are. */
static unsigned play_group(struct bytes left)
{
    size_t length = take_number(&left, 4);
    struct bytes start = take_part(&left, 4);
    uint8_t *file = calloc(length + 1, 1);
    if (file == NULL || start.length > length)
        fail("no such file");
    memcpy(file, start.at, start.length);
    unsigned made = 0;
    for (; left.length != 0; made++) {
        struct call call = call_of(take_part(&left, 4));
        play((struct bytes){file, length}, &call);
    }
    free(file);
    return made;
}

static struct bytes read_whole(const char *path)
{
    static uint8_t bytes[1 << 26];
    FILE *file = fopen(path, "rb");
    size_t length = file == NULL ? 0 : fread(bytes, 1, sizeof bytes, file);
    if (length == 0 || !feof(file) || fclose(file) != 0)
        fail("the data can't be read whole");
    return (struct bytes){bytes, length};
}

int main(int count, char **words)
{
    if (count != 3)
        fail("test GROUPS end, or test GROUPS start");
    at_end = strcmp(words[2], "end") == 0;
    signal(SIGSEGV, caught);
    signal(SIGBUS, caught);
    signal(SIGILL, caught);
    first_input = fenced();
    second_input = fenced();
    output = fenced();
    second_output = fenced();
    struct bytes left = read_whole(words[1]);
    unsigned made = 0;
    for (uint64_t groups = take_number(&left, 4); groups != 0; groups--)
        made += play_group(take_part(&left, 4));
    if (left.length != 0 || fflush(stdout) != 0)
        fail("the data goes on, or the answers can't be written");
    check_given();
    fprintf(stderr, "%u calls\n", made);
    return 0;
}
