/* Accepted files of several shapes, made in memory: `ftyp`, `mdat`s and `moov`, which stands last as a recorder leaves it. */
#ifndef SHAPES_H
#define SHAPES_H

#include <stdbool.h>
#include <stdint.h>
#include <stdio.h>
#include <stdlib.h>

enum { LONGEST = 1048576 };

static uint8_t file[LONGEST];
static size_t length;

/* ---- Boxes, put at the end of the file; what doesn't fit is counted and not written */

static void put(uint64_t number, size_t width)
{
    for (; width != 0; width--, length++)
        if (length < LONGEST)
            file[length] = (uint8_t)(number >> 8 * (width - 1));
}

static void put_zeros(size_t count)
{
    for (; count != 0; count--)
        put(0, 1);
}

static void put_text(const char *text)
{
    for (; *text != 0; text++)
        put((uint8_t)*text, 1);
}

/* Numbers in hexadecimal, each as wide as it is written, a space between any two. */
static void put_hex(const char *text)
{
    for (char *end; *text != 0; text = end + (*end == ' ')) {
        uint64_t number = strtoull(text, &end, 16);
        put(number, (size_t)(end - text) / 2);
    }
}

/* Answers where the box starts. */
static size_t open_box(const char *code)
{
    size_t start = length;
    put(0, 4);
    put_text(code);
    return start;
}

static void close_box(size_t start)
{
    size_t end = length;
    length = start;
    put(end - start, 4);
    length = end;
}

/* Opens a box that begins with these 32-bit numbers. */
#define OPEN_TABLE(code, ...) open_table(code, (const size_t[]){__VA_ARGS__}, sizeof((size_t[]){__VA_ARGS__}) / sizeof(size_t))

static size_t open_table(const char *code, const size_t *numbers, size_t count)
{
    size_t start = open_box(code);
    for (size_t k = 0; k < count; k++)
        put(numbers[k], 4);
    return start;
}

static void put_empties(size_t count)
{
    for (; count != 0; count--)
        close_box(open_box("free"));
}

/* ---- A file by its plan */

enum { SAMPLE = 32, TIME = 1600000000 };

/* The order in which the chunks of a track stand in the file. */
enum order { RISING, FALLING, JUMPING };

/* What a file has. The chunks of its tracks take turns, and every `mdat` has as many turns. */
struct plan {
    size_t outside, between, inside; /* empty boxes before the first `mdat`, between any two, and in `moov` before the tracks */
    size_t mdats, tracks;
    size_t chunks, samples; /* of a track, of a chunk */
    size_t bytes;           /* of a sample; 0: SAMPLE */
    size_t turns;           /* of an `mdat`; 0: as the chunks are spread over all of them */
    size_t entries;         /* of the last kind of track; 0: as many as the kind says */
    enum order order;
    bool listed;            /* the size of every sample is listed, else it is common */
    bool same;              /* every `mdat` has one turn, and the chunks go round among them */
};

#define REFERENCE "000000000000 0001 "
#define ZEROS "0000000000000000 0000000000000000 "

/* The tracks in their order, with how many entries each has: together the most that a sheet of edition 1 may have. */
static const struct {
    const char *handler;
    size_t entries;
    const char *code, *payload;
} kinds[] = {
    {"soun", 1, "samr",
     REFERENCE "0000000000000000 0002 0010 00000000 1F40 0000 00000011 64616D72 5658595A 00 81FF 00 01"},
    {"vide", 1, "s263",
     REFERENCE ZEROS "00B0 0090 00480000 00480000 00000000 0001 " ZEROS ZEROS "0018 FFFF 0000000F 64323633 5658595A 00 0A 00"},
    {"text", 3, "tx3g", REFERENCE ZEROS},
    {"data", 3, "tx3g", REFERENCE ZEROS},
};
enum { KINDS = sizeof kinds / sizeof *kinds };

static size_t bytes_of(const struct plan *plan)
{
    return plan->bytes != 0 ? plan->bytes : SAMPLE;
}

static size_t turns_of(const struct plan *plan)
{
    return plan->same ? 1 : plan->turns != 0 ? plan->turns : plan->chunks / plan->mdats;
}

/* Which turn a chunk has. */
static size_t turn_of(const struct plan *plan, size_t chunk)
{
    if (plan->same)
        return chunk % plan->mdats;
    switch (plan->order) {
    case FALLING:
        return plan->chunks - 1 - chunk;
    case JUMPING:
        return chunk * 7919 % plan->chunks;
    default:
        return chunk;
    }
}

static size_t chunk_place(const struct plan *plan, size_t payload, size_t track, size_t chunk)
{
    size_t turn = turn_of(plan, chunk);
    return payload + (turn * plan->tracks + track) * plan->samples * bytes_of(plan) + turn / turns_of(plan) * 8 * (1 + plan->between);
}

static void put_entries(const struct plan *plan, size_t track)
{
    size_t count = track == KINDS - 1 && plan->entries != 0 ? plan->entries : kinds[track].entries;
    size_t table = OPEN_TABLE("stsd", 0, count);
    for (size_t k = 0; k < count; k++) {
        size_t entry = open_box(kinds[track].code);
        put_hex(kinds[track].payload);
        close_box(entry);
    }
    close_box(table);
}

static void put_tables(const struct plan *plan, size_t payload, size_t track)
{
    size_t samples = plan->chunks * plan->samples, outer = open_box("stbl");
    put_entries(plan, track);
    close_box(OPEN_TABLE("stts", 0, 1, samples, 160));
    close_box(OPEN_TABLE("stsc", 0, 1, 1, plan->samples, 1));
    size_t table = OPEN_TABLE("stsz", 0, plan->listed ? 0 : bytes_of(plan), samples);
    for (size_t k = 0; plan->listed && k < samples; k++)
        put(bytes_of(plan), 4);
    close_box(table);
    table = OPEN_TABLE("stco", 0, plan->chunks);
    for (size_t chunk = 0; chunk < plan->chunks; chunk++)
        put(chunk_place(plan, payload, track, chunk), 4);
    close_box(table);
    close_box(outer);
}

/* A header with its times, a number behind them, and zeros as far as its payload goes. */
static void put_header(const char *code, size_t number, size_t bytes)
{
    size_t start = OPEN_TABLE(code, 0, TIME, TIME, number);
    put_zeros(bytes - 16);
    close_box(start);
}

static void put_references(void)
{
    size_t outer = open_box("dinf"), table = OPEN_TABLE("dref", 0, 1);
    close_box(OPEN_TABLE("url ", 1));
    close_box(table);
    close_box(outer);
}

static void put_track(const struct plan *plan, size_t payload, size_t track)
{
    size_t outer = open_box("trak");
    put_header("tkhd", track + 1, 84);
    size_t media = open_box("mdia");
    put_header("mdhd", 8000, 24);
    size_t handler = OPEN_TABLE("hdlr", 0, 0);
    put_text(kinds[track].handler);
    put_zeros(13);
    close_box(handler);
    size_t information = open_box("minf");
    put_references();
    put_tables(plan, payload, track);
    close_box(information);
    close_box(media);
    close_box(outer);
}

/* The last `mdat` has some bytes that no chunk has. Answers where the first payload starts. */
static size_t put_media(const struct plan *plan, size_t spare)
{
    size_t payload = length + 8;
    for (size_t left = plan->mdats; left != 0; left--) {
        if (left != plan->mdats)
            put_empties(plan->between);
        size_t start = open_box("mdat");
        put_zeros(turns_of(plan) * plan->tracks * plan->samples * bytes_of(plan) + (left == 1 ? spare : 0));
        close_box(start);
    }
    return payload;
}

static void build(const struct plan *plan, size_t spare)
{
    length = 0;
    size_t start = open_box("ftyp");
    put_text("3gp6");
    put_zeros(4);
    put_text("3gp43gp53gp63gr6isom");
    close_box(start);
    put_empties(plan->outside);
    size_t payload = put_media(plan, spare);
    start = open_box("moov");
    put_header("mvhd", 1000, 100);
    put_empties(plan->inside);
    for (size_t track = 0; track < plan->tracks; track++)
        put_track(plan, payload, track);
    close_box(start);
}

/* ---- Shapes */

/* In a plan: the number of what makes the file long. */
#define MANY SIZE_MAX

struct shape {
    const char *name, *counted;
    struct plan plan;
};

static const struct shape shapes[] = {
    {"One chunk", "samples in it",
     {.mdats = 1, .tracks = 1, .chunks = 1, .samples = MANY}},
    {"A chunk per sample", "of them",
     {.mdats = 1, .tracks = 1, .chunks = MANY, .samples = 1}},
    {"Four tracks", "chunks of four samples in each track, sizes listed",
     {.mdats = 1, .tracks = 4, .chunks = MANY, .samples = 4, .listed = true}},
    {"Many `mdat`s", "of them, a chunk of eight samples in each",
     {.mdats = MANY, .tracks = 1, .chunks = MANY, .samples = 8}},
    {"Many empty boxes", "`free`s of 8 bytes before the `mdat`, one sample",
     {.outside = MANY, .mdats = 1, .tracks = 1, .chunks = 1, .samples = 1}},
    {"Many empty boxes in `moov`", "`free`s of 8 bytes before four tracks of one sample",
     {.inside = MANY, .mdats = 1, .tracks = 4, .chunks = 1, .samples = 1}},
    {"The most entries", "samples in the one chunk of each of four tracks",
     {.mdats = 1, .tracks = 4, .chunks = 1, .samples = MANY, .entries = 27}},
};
enum { SHAPES = sizeof shapes / sizeof *shapes };

/* Many `mdat`s, whose chunks are looked up in every order. */
static const struct shape chopped[] = {
    {"rising", "one", {.mdats = MANY, .tracks = 1, .chunks = MANY, .samples = 1}},
    {"falling", "one", {.mdats = MANY, .tracks = 1, .chunks = MANY, .samples = 1, .order = FALLING}},
    {"jumping", "one", {.mdats = MANY, .tracks = 1, .chunks = MANY, .samples = 1, .order = JUMPING}},
    {"two tracks in turn", "one", {.mdats = MANY, .tracks = 2, .chunks = MANY, .samples = 1}},
    {"rising", "ten", {.mdats = MANY, .tracks = 1, .chunks = MANY, .samples = 1, .turns = 10}},
    {"falling", "ten", {.mdats = MANY, .tracks = 1, .chunks = MANY, .samples = 1, .turns = 10, .order = FALLING}},
    {"jumping", "ten", {.mdats = MANY, .tracks = 1, .chunks = MANY, .samples = 1, .turns = 10, .order = JUMPING}},
};
enum { CHOPPED = sizeof chopped / sizeof *chopped };

/* The slowest that we know: the chunks of two tracks go back and forth between two `mdat`s, and the empty boxes of a whole stride stand before each. */
static const struct shape worst = {
    "The slowest file that we know", "",
    {.outside = MANY, .between = 31, .mdats = 2, .tracks = 2, .chunks = 65536, .samples = 1, .same = true}};

static struct plan plan_of(const struct shape *shape, size_t number)
{
    struct plan plan = shape->plan;
    size_t *counts[] = {&plan.outside, &plan.inside, &plan.mdats, &plan.chunks, &plan.samples};
    for (size_t k = 0; k < sizeof counts / sizeof *counts; k++)
        if (*counts[k] == MANY)
            *counts[k] = number * (counts[k] == &plan.chunks && plan.turns != 0 ? plan.turns : 1);
    return plan;
}

/* Builds the file with the highest number that fits, and answers that; what is left of the length goes into the last `mdat`. */
static size_t build_fitting(const struct shape *shape, size_t limit)
{
    size_t low = 1, high = limit / 8;
    while (low < high) {
        size_t middle = (low + high + 1) / 2;
        struct plan plan = plan_of(shape, middle);
        build(&plan, 0);
        if (length <= limit)
            low = middle;
        else
            high = middle - 1;
    }
    struct plan plan = plan_of(shape, low);
    build(&plan, 0);
    if (length > limit) {
        fprintf(stderr, "%s: no file of %zu bytes has this shape\n", shape->name, limit);
        exit(1);
    }
    build(&plan, limit - length);
    return low;
}

#endif
