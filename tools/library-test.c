/* Tries every status of every call of zemirako.h. tools/library-test.sh builds it with sanitizers, and runs it. */
#include "zemirako.h"

#include <stdio.h>
#include <stdlib.h>
#include <string.h>

static int failures;

static void expect(int holds, const char *what, const char *row)
{
    if (!holds) {
        failures++;
        printf("failed: %s: %s\n", what, row);
    }
}

/* ---- Memory that runs out: the linker sends the library's calls here. */

static long left_before_none = -1; /* how many calls still get memory; below 0: all */
static long taken;                 /* blocks that were not given back */

void *__real_malloc(size_t size);
void *__real_realloc(void *old, size_t size);
void __real_free(void *old);

static int has_memory(void)
{
    if (left_before_none == 0)
        return 0;
    if (left_before_none > 0)
        left_before_none--;
    return 1;
}

void *__wrap_malloc(size_t size)
{
    void *block = has_memory() ? __real_malloc(size) : NULL;
    taken += block != NULL;
    return block;
}

void *__wrap_realloc(void *old, size_t size)
{
    return has_memory() ? __real_realloc(old, size) : NULL;
}

void __wrap_free(void *old)
{
    taken -= old != NULL;
    __real_free(old);
}

/* ---- G.711 */

static const struct {
    uint8_t code;
    int16_t alaw, ulaw;
} law_rows[] = {
    {0x00, -5504, -32124}, {0x55, -8, -716},      {0x2a, -32256, -5372}, {0x7f, -848, 0},
    {0x80, 5504, 32124},   {0xd5, 8, 716},        {0xaa, 32256, 5372},   {0xff, 848, 0},
};

typedef uint32_t decode_law(const uint8_t *, size_t, int16_t *, size_t);
typedef uint32_t encode_law(const int16_t *, size_t, uint8_t *, size_t);

static void try_law(const char *row, decode_law *decode, encode_law *encode, int codes_of_zero)
{
    uint8_t codes[256], again[257];
    int16_t samples[257];
    int same = 0;
    for (int i = 0; i < 256; i++)
        codes[i] = (uint8_t)i;
    for (size_t room = 0; room <= 257; room += room == 0 ? 255 : 1) {
        for (int i = 0; i < 257; i++)
            samples[i] = 77;
        uint32_t status = decode(codes, 256, samples, room);
        expect(status == (room < 256 ? ZEMIRAKO_TOO_SMALL : ZEMIRAKO_DONE), "status of decoding", row);
        expect(samples[256] == 77, "nothing behind the samples", row);
        if (room < 256)
            expect(samples[0] == 77 && samples[254] == 77, "nothing where it is too small", row);
    }
    memset(again, 7, sizeof again);
    expect(encode(samples, 256, again, 255) == ZEMIRAKO_TOO_SMALL, "status of encoding, too small", row);
    expect(again[0] == 7 && again[254] == 7, "no code where it is too small", row);
    expect(encode(samples, 256, again, 257) == ZEMIRAKO_DONE, "status of encoding", row);
    expect(again[256] == 7, "nothing behind the codes", row);
    for (int i = 0; i < 256; i++)
        same += again[i] == codes[i];
    expect(same == 256 - codes_of_zero, "codes come back", row);
    expect(decode(codes, 0, samples, 0) == ZEMIRAKO_DONE, "no codes", row);
    expect(encode(samples, 0, again, 0) == ZEMIRAKO_DONE, "no samples", row);
}

static void try_laws(void)
{
    try_law("A-law", zemirako_alaw_decode, zemirako_alaw_encode, 0);
    try_law("mu-law", zemirako_ulaw_decode, zemirako_ulaw_encode, 1);
    for (size_t i = 0; i < sizeof law_rows / sizeof *law_rows; i++) {
        int16_t sample = 0;
        zemirako_alaw_decode(&law_rows[i].code, 1, &sample, 1);
        expect(sample == law_rows[i].alaw, "value", "A-law");
        zemirako_ulaw_decode(&law_rows[i].code, 1, &sample, 1);
        expect(sample == law_rows[i].ulaw, "value", "mu-law");
    }
}

/* ---- FLAC: the first example file of RFC 9639 (appendix D.1): one sample of each of two channels. */

static const uint8_t example[] = {
    0x66, 0x4c, 0x61, 0x43, 0x80, 0x00, 0x00, 0x22, 0x10, 0x00, 0x10, 0x00, 0x00, 0x00, 0x0f, 0x00, 0x00, 0x0f, 0x0a,
    0xc4, 0x42, 0xf0, 0x00, 0x00, 0x00, 0x01, 0x3e, 0x84, 0xb4, 0x18, 0x07, 0xdc, 0x69, 0x03, 0x07, 0x58, 0x6a, 0x3d,
    0xad, 0x1a, 0x2e, 0x0f, 0xff, 0xf8, 0x69, 0x18, 0x00, 0x00, 0xbf, 0x03, 0x58, 0xfd, 0x03, 0x12, 0x8b, 0xaa, 0x9a,
};
#define HEAD 42
#define FRAME (sizeof example - HEAD)

static zemirako_flac_description example_description(void)
{
    zemirako_flac_description d;
    memset(&d, 0, sizeof d);
    expect(zemirako_flac_read_description(example, sizeof example, &d) == ZEMIRAKO_DONE, "read", "example");
    return d;
}

static void try_descriptions(void)
{
    static const struct {
        const char *row;
        size_t count;
        int at, byte; /* the byte that is changed, and its value */
        uint32_t status;
    } rows[] = {
        {"whole", HEAD, 0, 'f', ZEMIRAKO_DONE},
        {"with a frame behind", sizeof example, 0, 'f', ZEMIRAKO_DONE},
        {"not the last block", HEAD, 4, 0x00, ZEMIRAKO_DONE},
        {"a byte short", HEAD - 1, 0, 'f', ZEMIRAKO_REFUSED},
        {"empty", 0, 0, 'f', ZEMIRAKO_REFUSED},
        {"another mark", HEAD, 0, 'F', ZEMIRAKO_REFUSED},
        {"another type of block", HEAD, 4, 0x81, ZEMIRAKO_REFUSED},
        {"another length", HEAD, 7, 0x23, ZEMIRAKO_REFUSED},
        {"another depth", HEAD, 21, 0x70, ZEMIRAKO_DONE},
        {"depth of 2", HEAD, 21, 0x10, ZEMIRAKO_REFUSED},
    };
    zemirako_flac_description d = example_description(), old;
    expect(d.total == 1 && d.min_block == 4096 && d.max_block == 4096, "total and blocks", "example");
    expect(d.min_frame == 15 && d.max_frame == 15 && d.rate == 44100, "frames and rate", "example");
    expect(d.channels == 2 && d.depth == 16 && d.md5[0] == 0x3e && d.md5[15] == 0x0f, "the rest", "example");
    for (size_t i = 0; i < sizeof rows / sizeof *rows; i++) {
        uint8_t bytes[sizeof example];
        memcpy(bytes, example, sizeof example);
        bytes[rows[i].at] = (uint8_t)rows[i].byte;
        if (i == 9)
            bytes[20] = 0x42;
        memset(&d, 5, sizeof d);
        old = d;
        expect(zemirako_flac_read_description(bytes, rows[i].count, &d) == rows[i].status, "description", rows[i].row);
        if (rows[i].status != ZEMIRAKO_DONE)
            expect(memcmp(&d, &old, sizeof d) == 0, "description stays", rows[i].row);
    }
    uint8_t no_rate[HEAD];
    memcpy(no_rate, example, HEAD);
    no_rate[18] = no_rate[19] = 0;
    no_rate[20] = 0x02;
    expect(zemirako_flac_read_description(no_rate, HEAD, &d) == ZEMIRAKO_REFUSED, "description", "no rate");
}

static void try_written(const char *row, zemirako_flac_description d, uint32_t status)
{
    uint8_t bytes[ZEMIRAKO_FLAC_DESCRIPTION_SIZE + 1];
    for (size_t room = 0; room <= sizeof bytes; room += room == 0 ? sizeof bytes - 2 : 1) {
        zemirako_flac_description again;
        size_t size = 99, small = room < ZEMIRAKO_FLAC_DESCRIPTION_SIZE;
        memset(bytes, 7, sizeof bytes);
        uint32_t got = zemirako_flac_write_description(&d, bytes, room, &size);
        expect(got == (status == ZEMIRAKO_DONE && small ? ZEMIRAKO_TOO_SMALL : status), "writing a description", row);
        expect(size == (status == ZEMIRAKO_DONE ? ZEMIRAKO_FLAC_DESCRIPTION_SIZE : 99), "size of a description", row);
        expect(bytes[ZEMIRAKO_FLAC_DESCRIPTION_SIZE] == 7, "nothing behind a description", row);
        if (got != ZEMIRAKO_DONE) {
            expect(bytes[0] == 7 && bytes[41] == 7, "nothing where it is not written", row);
            continue;
        }
        memset(&again, 5, sizeof again);
        expect(zemirako_flac_read_description(bytes, size, &again) == ZEMIRAKO_DONE, "read again", row);
        expect(again.total == d.total && again.min_block == d.min_block && again.max_block == d.max_block &&
                   again.min_frame == d.min_frame && again.max_frame == d.max_frame && again.rate == d.rate &&
                   again.channels == d.channels && again.depth == d.depth && !memcmp(again.md5, d.md5, 16),
               "the same again", row);
    }
}

static void try_written_descriptions(void)
{
    zemirako_flac_description d = example_description(), most, it;
    uint8_t bytes[HEAD];
    size_t size;
    try_written("example", d, ZEMIRAKO_DONE);
    zemirako_flac_write_description(&d, bytes, sizeof bytes, &size);
    expect(!memcmp(bytes, example, HEAD), "bytes of a description", "example");
    memset(&most, 0xff, sizeof most);
    most.total = 0xfffffffffu;
    most.min_block = most.max_block = 0xffff;
    most.min_frame = most.max_frame = 0xffffff;
    most.rate = 0xfffff;
    most.channels = 8;
    most.depth = 32;
    try_written("all at most", most, ZEMIRAKO_DONE);
    memset(&it, 0, sizeof it);
    it.rate = it.channels = 1;
    it.depth = 4;
    try_written("all at least", it, ZEMIRAKO_DONE);
    static const struct {
        const char *row;
        size_t at; /* the field that is changed */
        uint32_t value;
    } rows[] = {
        {"min_block", offsetof(zemirako_flac_description, min_block), 0x10000},
        {"max_block", offsetof(zemirako_flac_description, max_block), 0x10000},
        {"min_frame", offsetof(zemirako_flac_description, min_frame), 0x1000000},
        {"max_frame", offsetof(zemirako_flac_description, max_frame), 0x1000000},
        {"rate of 0", offsetof(zemirako_flac_description, rate), 0},
        {"rate of 2^20", offsetof(zemirako_flac_description, rate), 0x100000},
        {"no channels", offsetof(zemirako_flac_description, channels), 0},
        {"nine channels", offsetof(zemirako_flac_description, channels), 9},
        {"depth of 3", offsetof(zemirako_flac_description, depth), 3},
        {"depth of 33", offsetof(zemirako_flac_description, depth), 33},
    };
    for (size_t i = 0; i < sizeof rows / sizeof *rows; i++) {
        it = most;
        memcpy((char *)&it + rows[i].at, &rows[i].value, sizeof rows[i].value);
        try_written(rows[i].row, it, ZEMIRAKO_INVALID);
    }
    most.total = 0x1000000000u;
    try_written("total of 2^36", most, ZEMIRAKO_INVALID);
}

/* What a row of the calls that read a frame changes of the example. */
static const struct {
    const char *row;
    size_t count;   /* how many bytes of the example's frame and of a zero behind it */
    int at, byte;   /* the byte that is changed, and its value */
    uint32_t channels, depth;
    uint32_t end, decode, next; /* the statuses */
} frame_rows[] = {
    {"whole", FRAME, 0, 0xff, 2, 16, ZEMIRAKO_DONE, ZEMIRAKO_DONE, ZEMIRAKO_DONE},
    {"a byte behind", FRAME + 1, 0, 0xff, 2, 16, ZEMIRAKO_DONE, ZEMIRAKO_REFUSED, ZEMIRAKO_DONE},
    {"a byte short", FRAME - 1, 0, 0xff, 2, 16, ZEMIRAKO_REFUSED, ZEMIRAKO_REFUSED, ZEMIRAKO_NEED_MORE},
    {"empty", 0, 0, 0xff, 2, 16, ZEMIRAKO_REFUSED, ZEMIRAKO_REFUSED, ZEMIRAKO_NEED_MORE},
    {"no mark", FRAME, 0, 0xfe, 2, 16, ZEMIRAKO_REFUSED, ZEMIRAKO_REFUSED, ZEMIRAKO_REFUSED},
    {"another sum", FRAME, FRAME - 1, 0x9b, 2, 16, ZEMIRAKO_REFUSED, ZEMIRAKO_REFUSED, ZEMIRAKO_REFUSED},
    {"another sample", FRAME, 8, 0x59, 2, 16, ZEMIRAKO_REFUSED, ZEMIRAKO_REFUSED, ZEMIRAKO_REFUSED},
    {"another channel count", FRAME, 0, 0xff, 1, 16, ZEMIRAKO_REFUSED, ZEMIRAKO_REFUSED, ZEMIRAKO_REFUSED},
    {"another depth", FRAME, 0, 0xff, 2, 24, ZEMIRAKO_REFUSED, ZEMIRAKO_REFUSED, ZEMIRAKO_REFUSED},
    {"depth of 0", FRAME, 0, 0xff, 2, 0, ZEMIRAKO_INVALID, ZEMIRAKO_INVALID, ZEMIRAKO_INVALID},
    {"depth of 33", FRAME, 0, 0xff, 2, 33, ZEMIRAKO_INVALID, ZEMIRAKO_INVALID, ZEMIRAKO_INVALID},
};

static void try_frames(void)
{
    zemirako_flac_description d = example_description();
    for (size_t i = 0; i < sizeof frame_rows / sizeof *frame_rows; i++) {
        uint8_t *bytes = calloc(frame_rows[i].count + 1, 1);
        size_t whole = frame_rows[i].count < FRAME ? frame_rows[i].count : FRAME;
        memcpy(bytes, example + HEAD, whole);
        bytes[frame_rows[i].at] = (uint8_t)frame_rows[i].byte;
        d.channels = frame_rows[i].channels;
        d.depth = frame_rows[i].depth;
        uint64_t end = 99;
        uint32_t block = 99;
        int32_t samples[3] = {5, 6, 7};
        uint32_t status = zemirako_flac_frame_end(bytes, frame_rows[i].count, &d, &end);
        expect(status == frame_rows[i].end, "status of an end", frame_rows[i].row);
        expect(end == (status == ZEMIRAKO_DONE ? FRAME : 99), "end", frame_rows[i].row);
        status = zemirako_flac_decode_frame(bytes, frame_rows[i].count, &d, samples, 3, &block);
        expect(status == frame_rows[i].decode, "status of a frame", frame_rows[i].row);
        if (status == ZEMIRAKO_DONE)
            expect(samples[0] == 25588 && samples[1] == 10416 && block == 1, "samples", frame_rows[i].row);
        else
            expect(samples[0] == 5 && samples[1] == 6 && block == 99, "samples stay", frame_rows[i].row);
        expect(samples[2] == 7, "nothing behind the samples", frame_rows[i].row);
        size_t size = 99;
        samples[0] = 5, samples[1] = 6, block = 99;
        status = zemirako_flac_decode_next(bytes, frame_rows[i].count, &d, samples, 3, &block, &size);
        expect(status == frame_rows[i].next, "status of the next frame", frame_rows[i].row);
        if (status == ZEMIRAKO_DONE)
            expect(samples[0] == 25588 && samples[1] == 10416 && block == 1 && size == FRAME, "next", frame_rows[i].row);
        else
            expect(samples[0] == 5 && samples[1] == 6 && block == 99 && size == 99, "next stays", frame_rows[i].row);
        expect(samples[2] == 7, "nothing behind the next samples", frame_rows[i].row);
        free(bytes);
    }
}

/* A file that flac 1.4.2 wrote: 40 samples of one channel of 16 bits at 8 kHz, in three frames at 137, 165 and 194. Behind
 * the description are a seek table of two points at 46, and tags. */
static const uint8_t file[] = {
    0x66, 0x4c, 0x61, 0x43, 0x00, 0x00, 0x00, 0x22, 0x00, 0x10, 0x00, 0x10, 0x00, 0x00, 0x14, 0x00, 0x00, 0x1d, 0x01,
    0xf4, 0x00, 0xf0, 0x00, 0x00, 0x00, 0x28, 0xee, 0xf7, 0x0c, 0x9f, 0x32, 0x33, 0x0b, 0x12, 0xe9, 0xa3, 0x1b, 0x56,
    0x87, 0xbe, 0x5c, 0xb1, 0x03, 0x00, 0x00, 0x24, 0x00, 0x00, 0x00, 0x00, 0x00, 0x00, 0x00, 0x00, 0x00, 0x00, 0x00,
    0x00, 0x00, 0x00, 0x00, 0x00, 0x00, 0x10, 0x00, 0x00, 0x00, 0x00, 0x00, 0x00, 0x00, 0x10, 0x00, 0x00, 0x00, 0x00,
    0x00, 0x00, 0x00, 0x1c, 0x00, 0x10, 0x84, 0x00, 0x00, 0x33, 0x20, 0x00, 0x00, 0x00, 0x72, 0x65, 0x66, 0x65, 0x72,
    0x65, 0x6e, 0x63, 0x65, 0x20, 0x6c, 0x69, 0x62, 0x46, 0x4c, 0x41, 0x43, 0x20, 0x31, 0x2e, 0x34, 0x2e, 0x32, 0x20,
    0x32, 0x30, 0x32, 0x32, 0x31, 0x30, 0x32, 0x32, 0x01, 0x00, 0x00, 0x00, 0x07, 0x00, 0x00, 0x00, 0x54, 0x49, 0x54,
    0x4c, 0x45, 0x3d, 0x78, 0xff, 0xf8, 0x64, 0x08, 0x00, 0x0f, 0xce, 0x10, 0x01, 0x84, 0x77, 0xd6, 0x04, 0x03, 0xa6,
    0xae, 0x87, 0xf7, 0x23, 0x36, 0x35, 0x98, 0x85, 0xb3, 0x3d, 0xf0, 0xb3, 0xe1, 0xff, 0xf8, 0x64, 0x08, 0x01, 0x0f,
    0xdb, 0x12, 0xff, 0xb5, 0x01, 0xaf, 0x1c, 0x92, 0xd2, 0x0e, 0xb8, 0x5c, 0x89, 0x72, 0x0b, 0x8c, 0x3c, 0x84, 0x6e,
    0xeb, 0x80, 0x68, 0x52, 0xff, 0xf8, 0x64, 0x08, 0x02, 0x07, 0xdc, 0x10, 0x01, 0xa0, 0x4d, 0x78, 0x81, 0x70, 0x45,
    0x7e, 0x11, 0x00, 0x38, 0x58,
};
#define FIRST 137

static void try_heads(void)
{
    static const struct {
        const char *row;
        int at, byte;            /* the byte that is changed, and its value */
        size_t more;             /* of fewer bytes more are wanted */
        uint32_t status;         /* from so many on */
        size_t frame, seek, points;
    } rows[] = {
        {"whole", 0, 'f', FIRST, ZEMIRAKO_DONE, FIRST, 46, 2},
        {"description alone", 4, 0x80, 42, ZEMIRAKO_DONE, 42, 0, 0},
        {"seek table last", 42, 0x83, 82, ZEMIRAKO_DONE, 82, 46, 2},
        {"another block for the seek table", 42, 0x01, FIRST, ZEMIRAKO_DONE, FIRST, 0, 0},
        {"another mark", 0, 'F', 1, ZEMIRAKO_REFUSED, 0, 0, 0},
        {"another type of block", 4, 0x01, 5, ZEMIRAKO_REFUSED, 0, 0, 0},
        {"another length", 7, 0x23, 8, ZEMIRAKO_REFUSED, 0, 0, 0},
        {"depth of 1", 21, 0x00, 22, ZEMIRAKO_REFUSED, 0, 0, 0},
    };
    for (size_t i = 0; i < sizeof rows / sizeof *rows; i++)
        for (size_t count = 0; count <= sizeof file; count++) {
            uint8_t *bytes = malloc(count + 1);
            memcpy(bytes, file, count);
            if ((size_t)rows[i].at < count)
                bytes[rows[i].at] = (uint8_t)rows[i].byte;
            zemirako_flac_description d = example_description(), old = d, read;
            zemirako_flac_places places = {7, 8, 9};
            uint32_t status = zemirako_flac_read_head(bytes, count, &d, &places);
            uint32_t wanted = count < rows[i].more ? ZEMIRAKO_NEED_MORE : rows[i].status;
            expect(status == wanted, "status of a head", rows[i].row);
            if (status == ZEMIRAKO_DONE) {
                expect(zemirako_flac_read_description(bytes, count, &read) == ZEMIRAKO_DONE, "described", rows[i].row);
                expect(!memcmp(&d, &read, sizeof d), "the head's description", rows[i].row);
                expect(places.first_frame == rows[i].frame, "the first frame", rows[i].row);
                expect(places.seek_table == rows[i].seek && places.seek_points == rows[i].points, "seek table", rows[i].row);
            } else {
                expect(!memcmp(&d, &old, sizeof d), "description stays", rows[i].row);
                expect(places.first_frame == 7 && places.seek_table == 8 && places.seek_points == 9, "places stay", rows[i].row);
            }
            free(bytes);
        }
}

static void try_next_frames(void)
{
    static const struct {
        const char *row;
        size_t count, from;
        int at, byte; /* the byte that is changed, and its value */
        uint32_t depth;
        uint32_t status;
        size_t place;
    } rows[] = {
        {"from the first byte", 214, 0, 0, 'f', 16, ZEMIRAKO_DONE, 137},
        {"at a frame", 214, 137, 0, 'f', 16, ZEMIRAKO_DONE, 137},
        {"behind a frame's first byte", 214, 138, 0, 'f', 16, ZEMIRAKO_DONE, 165},
        {"the last frame", 214, 166, 0, 'f', 16, ZEMIRAKO_DONE, 194},
        {"no frame", 214, 195, 0, 'f', 16, ZEMIRAKO_NEED_MORE, 213},
        {"from the end", 214, 214, 0, 'f', 16, ZEMIRAKO_NEED_MORE, 214},
        {"from behind the end", 214, 300, 0, 'f', 16, ZEMIRAKO_NEED_MORE, 300},
        {"a header that is cut", 171, 138, 0, 'f', 16, ZEMIRAKO_NEED_MORE, 165},
        {"a header that is just whole", 172, 138, 0, 'f', 16, ZEMIRAKO_DONE, 165},
        {"another sum of a header", 214, 138, 171, 0xda, 16, ZEMIRAKO_DONE, 194},
        {"another depth", 214, 0, 0, 'f', 24, ZEMIRAKO_NEED_MORE, 213},
        {"depth of 0", 214, 0, 0, 'f', 0, ZEMIRAKO_INVALID, 99},
        {"depth of 33", 214, 0, 0, 'f', 33, ZEMIRAKO_INVALID, 99},
    };
    for (size_t i = 0; i < sizeof rows / sizeof *rows; i++) {
        uint8_t *bytes = malloc(rows[i].count);
        memcpy(bytes, file, rows[i].count);
        bytes[rows[i].at] = (uint8_t)rows[i].byte;
        zemirako_flac_description d;
        zemirako_flac_places places;
        expect(zemirako_flac_read_head(file, sizeof file, &d, &places) == ZEMIRAKO_DONE, "head", "file");
        d.depth = rows[i].depth;
        size_t place = 99;
        uint32_t status = zemirako_flac_next_frame(bytes, rows[i].count, rows[i].from, &d, &place);
        expect(status == rows[i].status, "status of the next frame's place", rows[i].row);
        expect(place == rows[i].place, "the next frame's place", rows[i].row);
        free(bytes);
    }
}

static void try_small_rooms(void)
{
    zemirako_flac_description d = example_description();
    for (size_t room = 0; room < 2; room++) {
        int32_t samples[2] = {5, 6};
        uint32_t block = 99;
        uint32_t status = zemirako_flac_decode_frame(example + HEAD, FRAME, &d, samples, room, &block);
        expect(status == ZEMIRAKO_TOO_SMALL && block == 1, "status of a small room", "frame");
        expect(samples[0] == 5 && samples[1] == 6, "samples stay", "small room");
        size_t size = 99;
        status = zemirako_flac_decode_next(example + HEAD, FRAME, &d, samples, room, &block, &size);
        expect(status == ZEMIRAKO_TOO_SMALL && block == 1 && size == FRAME, "status of a small room", "next");
        expect(samples[0] == 5 && samples[1] == 6, "samples stay", "next in a small room");
    }
}

/* ---- Blocks */

#define BLOCK 40

static int32_t sample_of(unsigned depth, unsigned i)
{
    int64_t most = ((int64_t)1 << (depth - 1)) - 1;
    switch (i % 5) {
    case 0:
        return (int32_t)(most - i % 16);
    case 1:
        return (int32_t)(-most - 1 + i % 16);
    default:
        return (int32_t)((int64_t)(i * 7 % 64) * most / 70);
    }
}

/* Of a frame's first bytes more are wanted, whichever they are; the whole frame is decoded, whatever stands behind it. */
static void try_next(const uint8_t *frame, size_t size, const zemirako_flac_description *d, const int32_t *samples,
                     size_t count, const char *row)
{
    int32_t again[8 * BLOCK];
    for (size_t bytes = 0; bytes < size; bytes++) {
        uint8_t *exact = malloc(bytes + 1);
        memcpy(exact, frame, bytes);
        uint32_t block = 99;
        size_t taken_bytes = 99;
        uint32_t status = zemirako_flac_decode_next(exact, bytes, d, again, count, &block, &taken_bytes);
        expect(status == ZEMIRAKO_NEED_MORE && block == 99 && taken_bytes == 99, "more bytes are wanted", row);
        free(exact);
    }
    for (size_t behind = 0; behind < 3; behind++) {
        uint8_t *exact = malloc(size + behind);
        memcpy(exact, frame, size);
        memset(exact + size, 0x55, behind);
        uint32_t block = 0;
        size_t taken_bytes = 0;
        uint32_t status = zemirako_flac_decode_next(exact, size + behind, d, again, count, &block, &taken_bytes);
        expect(status == ZEMIRAKO_DONE && block == BLOCK && taken_bytes == size, "the next frame", row);
        expect(!memcmp(again, samples, sizeof *again * count), "the next samples", row);
        free(exact);
    }
}

static void try_block(zemirako_flac_format f, uint32_t number)
{
    int32_t samples[8 * BLOCK], again[8 * BLOCK];
    uint8_t bytes[8 * (BLOCK * 5 + 8) + 32];
    size_t count = (size_t)f.channels * BLOCK, size = 0;
    uint32_t block = 0;
    uint64_t end = 0;
    char row[64];
    snprintf(row, sizeof row, "channels %d, depth %d, level %d", f.channels, f.depth, f.level);
    for (size_t i = 0; i < count; i++)
        samples[i] = sample_of(f.depth, (unsigned)(number % 2 ? i : i % BLOCK + i / BLOCK));
    uint32_t status = zemirako_flac_encode_block(&f, BLOCK, number, samples, count, bytes, sizeof bytes, &size);
    expect(status == ZEMIRAKO_DONE && size > 0, "coded", row);
    expect(size <= zemirako_flac_most_bytes(&f, BLOCK), "within the most bytes", row);
    uint8_t *exact = malloc(size);
    memset(exact, 7, size);
    size_t need = 0;
    status = zemirako_flac_encode_block(&f, BLOCK, number, samples, count, exact, size - 1, &need);
    expect(status == ZEMIRAKO_TOO_SMALL && need == size, "a byte too small", row);
    expect(exact[0] == 7 && exact[size - 1] == 7, "nothing where it is too small", row);
    status = zemirako_flac_encode_block(&f, BLOCK, number, samples, count, exact, size, &need);
    expect(status == ZEMIRAKO_DONE && memcmp(bytes, exact, size) == 0, "coded exactly", row);

    zemirako_flac_description d = {0, BLOCK, BLOCK, 0, 0, f.rate, f.channels, f.depth, {0}};
    status = zemirako_flac_frame_end(exact, size, &d, &end);
    expect(status == ZEMIRAKO_DONE && end == size, "the frame's end", row);
    status = zemirako_flac_decode_frame(exact, size, &d, again, count, &block);
    expect(status == ZEMIRAKO_DONE && block == BLOCK, "decoded", row);
    int same = 1;
    for (size_t i = 0; i < count; i++)
        same &= again[i] == samples[i % f.channels * BLOCK + i / f.channels];
    expect(same, "samples come back", row);
    try_next(exact, size, &d, again, count, row);
    free(exact);
}

static void try_blocks(void)
{
    static const uint8_t depths[] = {8, 16, 24, 32};
    for (int d = 0; d < 4; d++)
        for (int channels = 1; channels <= 8; channels++)
            for (int level = 0; level <= 8; level++) {
                zemirako_flac_format f = {44100, (uint8_t)channels, depths[d], (uint8_t)level};
                try_block(f, 0);
                try_block(f, 0x7fffffff);
            }
}

static void try_invalid(void)
{
    static const struct {
        const char *row;
        zemirako_flac_format f;
        uint32_t block, number;
        size_t count;
        int32_t first;
    } rows[] = {
        {"no channels", {8000, 0, 16, 5}, 2, 0, 0, 0},
        {"nine channels", {8000, 9, 16, 5}, 2, 0, 18, 0},
        {"depth of 12", {8000, 1, 12, 5}, 2, 0, 2, 0},
        {"depth of 0", {8000, 1, 0, 5}, 2, 0, 2, 0},
        {"level of 9", {8000, 1, 16, 9}, 2, 0, 2, 0},
        {"no block", {8000, 1, 16, 5}, 0, 0, 0, 0},
        {"a long block", {8000, 1, 16, 5}, 65536, 0, 65536, 0},
        {"a sample short", {8000, 2, 16, 5}, 2, 0, 3, 0},
        {"a sample more", {8000, 2, 16, 5}, 2, 0, 5, 0},
        {"number of 2^31", {8000, 1, 16, 5}, 2, 0x80000000u, 2, 0},
        {"a sample too great", {8000, 1, 16, 5}, 2, 0, 2, 32768},
        {"a sample too small", {8000, 1, 8, 5}, 2, 0, 2, -129},
    };
    static int32_t samples[65536];
    for (size_t i = 0; i < sizeof rows / sizeof *rows; i++) {
        uint8_t bytes[4] = {7, 7, 7, 7};
        size_t size = 99;
        samples[0] = rows[i].first;
        uint32_t status = zemirako_flac_encode_block(&rows[i].f, rows[i].block, rows[i].number, samples, rows[i].count,
                                                     bytes, sizeof bytes, &size);
        expect(status == ZEMIRAKO_INVALID, "invalid", rows[i].row);
        expect(size == 99 && bytes[0] == 7 && bytes[3] == 7, "all stays", rows[i].row);
    }
}

/* ---- Frames with changed bytes, whose sums are made right again */

static uint64_t seed = 1;

static uint32_t any(uint32_t below)
{
    seed = seed * 6364136223846793005u + 1442695040888963407u;
    return (uint32_t)(seed >> 33) % below;
}

static uint32_t sum_of(const uint8_t *bytes, size_t count, uint32_t bits, uint32_t polynomial)
{
    uint32_t sum = 0;
    for (size_t i = 0; i < 8 * count; i++) {
        uint32_t top = sum >> (bits - 1) ^ (bytes[i / 8] >> (7 - i % 8) & 1u);
        sum = ((sum << 1) ^ (top ? polynomial : 0)) & ((1u << bits) - 1);
    }
    return sum;
}

/* The header of a frame that try_broken makes: a number in one byte, the block size in one, and the rate by its code. */
#define HEADER_SUM 6

/* Where broken frames are written with what they came to, for tools/library-frames.py: of each its description, its status,
 * the frame's size in four bytes, the frame, and where it is one its block in four bytes, and its samples in four each. */
static FILE *kept;

static void keep_number(uint32_t number)
{
    for (int i = 0; i < 4; i++)
        putc((int)(number >> 8 * i & 255), kept);
}

static void keep(const zemirako_flac_description *d, uint32_t status, const uint8_t *frame, size_t size, uint32_t block,
                 const int32_t *samples)
{
    uint8_t head[HEAD];
    size_t count;
    expect(zemirako_flac_write_description(d, head, sizeof head, &count) == ZEMIRAKO_DONE, "description", "broken frame");
    fwrite(head, 1, sizeof head, kept);
    putc((int)status, kept);
    keep_number((uint32_t)size);
    fwrite(frame, 1, size, kept);
    if (status != ZEMIRAKO_DONE)
        return;
    keep_number(block);
    for (size_t i = 0; i < (size_t)block * d->channels; i++)
        keep_number((uint32_t)samples[i]);
}

static void try_broken(void)
{
    static int32_t all[3 * 65535];
    static const uint8_t depths[] = {8, 16, 24, 32};
    long accepted = 0;
    for (int n = 0; n < 100000; n++) {
        zemirako_flac_format f = {44100, (uint8_t)(1 + n % 3), depths[n / 3 % 4], (uint8_t)(n % 9)};
        int32_t samples[3 * BLOCK], again[3 * BLOCK] = {0};
        uint8_t bytes[3 * (BLOCK * 4 + 1) + 32];
        size_t count = (size_t)f.channels * BLOCK, size = 0;
        for (size_t i = 0; i < count; i++)
            samples[i] = n % 2 ? sample_of(f.depth, (unsigned)i) : (int32_t)any(100) - 50;
        zemirako_flac_encode_block(&f, BLOCK, 1, samples, count, bytes, sizeof bytes, &size);
        for (uint32_t changes = any(3) + 1; changes > 0; changes--)
            bytes[any((uint32_t)size - 2)] ^= (uint8_t)(1u << any(8));
        if (any(10) == 0)
            size -= any((uint32_t)size - HEADER_SUM - 3);
        bytes[HEADER_SUM] = (uint8_t)sum_of(bytes, HEADER_SUM, 8, 0x07);
        uint32_t sum = sum_of(bytes, size - 2, 16, 0x8005);
        bytes[size - 2] = (uint8_t)(sum >> 8);
        bytes[size - 1] = (uint8_t)sum;

        zemirako_flac_description d = {0, BLOCK, BLOCK, 0, 0, f.rate, f.channels, f.depth, {0}};
        uint8_t *exact = malloc(size);
        memcpy(exact, bytes, size);
        uint32_t block = 0;
        uint64_t end = 0;
        uint32_t status = zemirako_flac_decode_frame(exact, size, &d, again, count, &block);
        uint32_t found = zemirako_flac_frame_end(exact, size, &d, &end);
        int is_frame = status == ZEMIRAKO_DONE || status == ZEMIRAKO_TOO_SMALL;
        const int32_t *out = again;
        if (status == ZEMIRAKO_TOO_SMALL) {
            expect((size_t)block * f.channels > count, "need", "broken frame");
            status = zemirako_flac_decode_frame(exact, size, &d, all, (size_t)block * f.channels, &block);
            expect(status == ZEMIRAKO_DONE, "a room of the need", "broken frame");
            out = all;
        }
        expect(is_frame || status == ZEMIRAKO_REFUSED, "status", "broken frame");
        expect(is_frame == (found == ZEMIRAKO_DONE && end == size), "end and frame agree", "broken frame");
        uint32_t next_block = 0;
        size_t next_size = 0;
        uint32_t next = zemirako_flac_decode_next(exact, size, &d, all, sizeof all / sizeof *all, &next_block, &next_size);
        expect((next == ZEMIRAKO_DONE || next == ZEMIRAKO_TOO_SMALL) == (found == ZEMIRAKO_DONE), "next", "broken frame");
        expect(found != ZEMIRAKO_DONE || next_size == end, "bytes of the next", "broken frame");
        int64_t limit = (int64_t)1 << (f.depth - 1);
        for (size_t i = 0; status == ZEMIRAKO_DONE && i < (size_t)block * f.channels; i++)
            expect(out[i] >= -limit && out[i] < limit, "depth", "broken frame");
        if (kept)
            keep(&d, status, exact, size, block, out);
        accepted += is_frame;
        free(exact);
    }
    printf("of 100000 broken frames %ld were still frames\n", accepted);
}

/* ---- Copies, by a plain program beside them */

static size_t format_size(uint32_t format)
{
    return format % 3 == 0 ? 1 : format % 3 == 1 ? 2 : 4;
}

static int64_t sample_in(const uint8_t *bytes, size_t size)
{
    int64_t number = 0;
    for (size_t i = size; i-- > 0;)
        number = number * 256 + bytes[i];
    if (size == 1)
        return number - 128;
    return number >= (int64_t)1 << (8 * size - 1) ? number - ((int64_t)1 << 8 * size) : number;
}

static void put_sample(uint8_t *bytes, size_t size, int64_t sample)
{
    uint64_t number = (uint64_t)(size == 1 ? sample + 128 : sample);
    for (size_t i = 0; i < size; i++)
        bytes[i] = (uint8_t)(number >> 8 * i);
}

static int64_t converted(int64_t sample, size_t from, size_t to)
{
    if (to >= from)
        return sample * ((int64_t)1 << 8 * (to - from));
    int64_t by = (int64_t)1 << 8 * (from - to);
    return (sample - ((sample % by) + by) % by) / by;
}

static void try_copy(zemirako_sound sound, zemirako_part part)
{
    uint8_t bytes[4 * 5 * 3], to[4 * 5 * 3 + 1], wanted[sizeof to];
    size_t from = format_size(sound.format), size = format_size(part.format), count = 0, got = 99;
    size_t all = from * sound.channels * sound.frames;
    char row[64];
    snprintf(row, sizeof row, "copy of format %u in %u, plane %u", sound.format, part.format, part.plane);
    for (size_t i = 0; i < all; i++)
        bytes[i] = (uint8_t)(i * 37 + i / 3 * 101 + 11);
    memset(wanted, 7, sizeof wanted);
    for (uint32_t i = part.first; i < part.first + part.count; i++)
        for (uint32_t c = 0; c < sound.channels; c++) {
            size_t place = sound.format >= 3 ? c * sound.frames + i : i * sound.channels + c;
            if (part.format >= 3 && c != part.plane)
                continue;
            put_sample(wanted + count, size, converted(sample_in(bytes + from * place, from), from, size));
            count += size;
        }
    memset(to, 7, sizeof to);
    if (count > 0) {
        expect(zemirako_copy_sound(&sound, bytes, all, &part, to, count - 1, &got) == ZEMIRAKO_TOO_SMALL, "small", row);
        expect(got == count && to[0] == 7 && to[count - 1] == 7, "nothing where it is too small", row);
    }
    expect(zemirako_copy_sound(&sound, bytes, all, &part, to, sizeof to, &got) == ZEMIRAKO_DONE, "copied", row);
    expect(got == count && memcmp(to, wanted, sizeof to) == 0, "bytes of the copy", row);
}

static void try_copies(void)
{
    for (uint32_t from = 0; from < 6; from++)
        for (uint32_t to = 0; to < 6; to++)
            for (uint32_t channels = 1; channels <= 3; channels++)
                for (uint32_t plane = 0; plane < (to >= 3 ? channels : 1); plane++)
                    for (uint32_t first = 0; first <= 5; first++)
                        for (uint32_t count = 0; first + count <= 5; count++) {
                            zemirako_sound sound = {from, channels, 5};
                            zemirako_part part = {to, plane, first, count};
                            try_copy(sound, part);
                        }
    static const struct {
        const char *row;
        zemirako_sound sound;
        size_t count;
        zemirako_part part;
    } rows[] = {
        {"format of 6", {6, 1, 4}, 16, {0, 0, 0, 1}},
        {"copy in format of 6", {0, 1, 4}, 4, {6, 0, 0, 1}},
        {"no channels", {0, 0, 4}, 0, {0, 0, 0, 1}},
        {"33 channels", {0, 33, 1}, 33, {0, 0, 0, 1}},
        {"a byte short", {1, 1, 4}, 7, {0, 0, 0, 1}},
        {"a byte more", {1, 1, 4}, 9, {0, 0, 0, 1}},
        {"a second plane", {0, 2, 2}, 4, {0, 1, 0, 1}},
        {"a third plane of two", {0, 2, 2}, 4, {3, 2, 0, 1}},
        {"frames behind the last", {0, 1, 4}, 4, {0, 0, 3, 2}},
        {"frames past 2^32", {0, 1, 4}, 4, {0, 0, 0xffffffffu, 2}},
    };
    for (size_t i = 0; i < sizeof rows / sizeof *rows; i++) {
        uint8_t bytes[64] = {0}, to[4] = {7, 7, 7, 7};
        size_t size = 99;
        uint32_t status = zemirako_copy_sound(&rows[i].sound, bytes, rows[i].count, &rows[i].part, to, 4, &size);
        expect(status == ZEMIRAKO_INVALID && size == 99 && to[0] == 7 && to[3] == 7, "invalid copy", rows[i].row);
    }
}

/* Each call that takes memory, with none from some allocation on. */
static void try_no_memory(void)
{
    zemirako_flac_description d = example_description();
    zemirako_flac_format f = {44100, 2, 16, 8};
    int32_t samples[2 * BLOCK] = {0};
    for (unsigned i = 0; i < 2 * BLOCK; i++)
        samples[i] = sample_of(16, i);
    static const char *const calls[] = {"end", "frame", "next", "block"};
    for (int call = 0; call < 4; call++) {
        uint32_t status = ZEMIRAKO_NO_MEMORY;
        long n = 0;
        for (; status != ZEMIRAKO_DONE && n < 100000; n++) {
            uint64_t end = 99;
            uint32_t block = 99;
            size_t size = 99;
            int32_t out[2] = {5, 6};
            uint8_t bytes[1024] = {7};
            long before = taken;
            left_before_none = n;
            if (call == 0)
                status = zemirako_flac_frame_end(example + HEAD, FRAME, &d, &end);
            else if (call == 1)
                status = zemirako_flac_decode_frame(example + HEAD, FRAME, &d, out, 2, &block);
            else if (call == 2)
                status = zemirako_flac_decode_next(example + HEAD, FRAME, &d, out, 2, &block, &size);
            else
                status = zemirako_flac_encode_block(&f, BLOCK, 1, samples, 2 * BLOCK, bytes, sizeof bytes, &size);
            left_before_none = -1;
            expect(taken == before, "memory is given back", calls[call]);
            if (status == ZEMIRAKO_DONE)
                break;
            expect(status == ZEMIRAKO_NO_MEMORY, "want of memory", calls[call]);
            expect(end == 99 && block == 99 && size == 99 && out[0] == 5 && bytes[0] == 7, "all stays", "no memory");
        }
        expect(n > 0 && status == ZEMIRAKO_DONE, "done with enough memory", "no memory");
        printf("%s: %ld allocations failed in turn\n", calls[call], n);
    }
}

/* With the name of a file, broken frames are kept there. */
int main(int count, char **words)
{
    if (count == 2 && !(kept = fopen(words[1], "wb"))) {
        perror(words[1]);
        return 2;
    }
    try_laws();
    try_descriptions();
    try_written_descriptions();
    try_frames();
    try_heads();
    try_next_frames();
    try_small_rooms();
    try_blocks();
    try_invalid();
    try_broken();
    try_copies();
    try_no_memory();
    expect(!kept || !fclose(kept), "writing", "broken frames");
    printf(failures ? "%d failed\n" : "all as said\n", failures);
    return failures != 0;
}
