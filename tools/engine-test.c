/* Streams through the engine for C: engine-test [COUNT]
 * Prints each step of a short PCM stream. Then encodes sound and decodes it again, tries work on
 * another thread, handles that are not open, and each allocation failing in turn. Last it decodes
 * COUNT chunks (1,000,000, if not said) and says the peak of memory before and after. Ends with 1
 * where an answer is another than the one that is stated here. malloc, realloc and free are wrapped
 * (the linker's --wrap). */
#include "zemirako_engine.h"
#include <inttypes.h>
#include <pthread.h>
#include <stdio.h>
#include <stdlib.h>
#include <string.h>
#include <sys/resource.h>

#define WANT(what) \
    do { \
        if (!(what)) { \
            fprintf(stderr, "line %d: %s\n", __LINE__, #what); \
            exit(1); \
        } \
    } while (0)

/* Blocks that are taken, how many were asked for, and which of these gets none (-1: none). */
static long blocks, asked, lacking = -1;
void *__real_malloc(size_t size);
void *__real_realloc(void *at, size_t size);
void __real_free(void *at);

void *__wrap_malloc(size_t size) {
    if (__atomic_fetch_add(&asked, 1, __ATOMIC_SEQ_CST) == lacking) return NULL;
    void *at = __real_malloc(size);
    __atomic_add_fetch(&blocks, at != NULL, __ATOMIC_SEQ_CST);
    return at;
}

void *__wrap_realloc(void *old, size_t size) {
    if (__atomic_fetch_add(&asked, 1, __ATOMIC_SEQ_CST) == lacking) return NULL;
    void *at = __real_realloc(old, size);
    __atomic_add_fetch(&blocks, !old && at, __ATOMIC_SEQ_CST);
    return at;
}

void __wrap_free(void *at) {
    __atomic_sub_fetch(&blocks, at != NULL, __ATOMIC_SEQ_CST);
    __real_free(at);
}

static const char *const errors[] = {"", " AbortError", " InvalidStateError", " NotSupportedError",
                                     " EncodingError", " DataError", " DataCloneError",
                                     " QuotaExceededError", " TypeError", " RangeError",
                                     " out of memory"};
static const char *const words[] = {"", "unblock", "process", "desaturate",
                                    "output", "flushed", "dequeue", "close"};
static uint64_t moment;
static uint8_t nothing[1];

static zemirako_codec *room(void) {
    zemirako_codec *at = malloc(zemirako_codec_size());
    WANT(at && zemirako_codec_align() <= 16);
    return at;
}

static zemirako_codec *opened(uint32_t saturation) {
    zemirako_codec *at = room();
    WANT(zemirako_audio_decoder_open(at, saturation) == ZEMIRAKO_DONE);
    return at;
}

static void ended(zemirako_codec *at) {
    WANT(zemirako_codec_end(at) == ZEMIRAKO_DONE);
    WANT(zemirako_codec_end(at) == ZEMIRAKO_NOT_OPEN);
    WANT(zemirako_codec_flush(at).status == ZEMIRAKO_NOT_OPEN);
    free(at);
}

static void settle(zemirako_codec *at, uint64_t count) {
    for (uint64_t i = 0; i < count; i++) {
        zemirako_settled end = zemirako_codec_settled(at, i);
        WANT(end.status == ZEMIRAKO_DONE);
        printf("  promise %" PRIu64 " %s%s\n", end.promise, end.error ? "rejected" : "resolved",
               errors[end.error]);
    }
    WANT(zemirako_codec_settled(at, count).status == ZEMIRAKO_REFUSED);
}

static void said(zemirako_codec *at, const char *call, zemirako_reply r) {
    printf("%" PRIu64 " %s %s%s\n", r.place, call, zemirako_status_text(r.status), errors[r.error]);
    settle(at, r.settled);
}

static void show(zemirako_codec *at, zemirako_turn t) {
    printf("%" PRIu64 " turn %s%s\n", t.place, words[t.word], errors[t.error]);
    for (uint64_t i = 0; i < t.outputs; i++) {
        zemirako_output o = zemirako_audio_decoder_output(at, i, nothing, 0);
        uint8_t *bytes = malloc(o.size + 1);
        WANT(bytes);
        o = zemirako_audio_decoder_output(at, i, bytes, o.size);
        WANT(o.status == ZEMIRAKO_DONE);
        printf("  output %u %u %u %u %" PRId64 " ", o.format, o.rate, o.channels, o.frames,
               o.timestamp);
        for (uint64_t n = 0; n < o.size; n++) printf("%02x", bytes[n]);
        printf("\n");
        free(bytes);
    }
    settle(at, t.settled);
}

/* Works and turns until nothing is left. */
static void drive(zemirako_codec *at, int quiet) {
    for (int any = 1; any;) {
        any = zemirako_codec_work(at, moment++) == ZEMIRAKO_DONE;
        for (;;) {
            zemirako_turn t = zemirako_codec_turn(at);
            if (t.status != ZEMIRAKO_DONE) {
                WANT(t.status == ZEMIRAKO_IDLE);
                break;
            }
            if (!quiet) show(at, t);
            any = 1;
        }
    }
}

static zemirako_reply configure(zemirako_codec *at, const char *codec) {
    zemirako_audio_config config = {8000, 1, 0};
    return zemirako_audio_decoder_configure(at, &config, (const uint8_t *)codec, strlen(codec),
                                            nothing, 0);
}

static void stream(void) {
    zemirako_chunk_head head = {1, 0, 0, 0};
    const uint8_t bytes[] = {1, 0, 2, 0};
    zemirako_codec *at = opened(4);
    said(at, "decode", zemirako_audio_decoder_decode(at, &head, bytes, 4)); /* not configured */
    said(at, "configure", configure(at, "pcm-s16"));
    said(at, "decode", zemirako_audio_decoder_decode(at, &head, bytes, 4));
    said(at, "flush", zemirako_codec_flush(at));
    drive(at, 0);
    said(at, "flush", zemirako_codec_flush(at));
    said(at, "reset", zemirako_codec_reset(at)); /* rejects the promise */
    said(at, "configure", configure(at, "\xff")); /* no UTF-8 */
    said(at, "configure", configure(at, "pcm-s16"));
    said(at, "decode", zemirako_audio_decoder_decode(at, &head, bytes, 3)); /* half a sample */
    said(at, "flush", zemirako_codec_flush(at));
    drive(at, 0);
    said(at, "close", zemirako_codec_close(at));
    zemirako_look look = zemirako_codec_look(at);
    printf("state %u queue %" PRIu64 " entries %" PRIu64 "\n", look.phase, look.queue_size,
           look.entries);
    ended(at);
}

enum { FRAMES = 500, INPUTS = 4, VALUES = INPUTS * FRAMES * 2 };

/* The chunks of an encoder, one after another, and the config that the first one carried. */
struct coded {
    uint8_t bytes[1 << 16];
    size_t sizes[64], count, end;
    zemirako_decoder_config config;
    char codec[16];
    uint8_t description[64];
};

static void keep(zemirako_codec *at, uint64_t number, struct coded *c) {
    zemirako_chunk chunk =
        zemirako_audio_encoder_chunk(at, number, c->bytes + c->end, sizeof c->bytes - c->end);
    WANT(chunk.status == ZEMIRAKO_DONE && chunk.key == 1 && c->count < 64);
    WANT(chunk.has_duration == 1 && chunk.has_config == (c->count == 0));
    zemirako_decoder_config config = zemirako_audio_encoder_config_codec(
        at, number, (uint8_t *)c->codec, sizeof c->codec - 1);
    WANT(config.status == (c->count ? ZEMIRAKO_REFUSED : ZEMIRAKO_DONE));
    if (c->count == 0) {
        c->codec[config.size] = 0;
        c->config = zemirako_audio_encoder_config_description(at, number, c->description,
                                                              sizeof c->description);
        WANT(c->config.status == ZEMIRAKO_DONE);
    }
    c->sizes[c->count++] = chunk.size;
    c->end += chunk.size;
}

static void encode(const char *codec, const int16_t *sound, struct coded *c) {
    zemirako_audio_encoder_config config = {8000, 2, 256, 5, 16};
    zemirako_samples_head head = {ZEMIRAKO_S16, 8000, 2, FRAMES, 0};
    const uint8_t *bytes = (const uint8_t *)sound;
    zemirako_codec *at = room();
    memset(c, 0, sizeof *c);
    WANT(zemirako_audio_encoder_open(at, 4) == ZEMIRAKO_DONE);
    zemirako_reply early = zemirako_audio_encoder_encode(at, &head, bytes, FRAMES * 4);
    WANT(early.status == ZEMIRAKO_REFUSED && early.error == ZEMIRAKO_INVALID_STATE);
    WANT(zemirako_audio_encoder_configure_as(at, codec, config).status == ZEMIRAKO_DONE);
    for (int i = 0; i < INPUTS; i++, bytes += FRAMES * 4) {
        head.timestamp = i * 62500;
        WANT(zemirako_audio_encoder_encode(at, &head, bytes, FRAMES * 4).status == ZEMIRAKO_DONE);
    }
    WANT(zemirako_codec_flush(at).status == ZEMIRAKO_DONE);
    while (zemirako_codec_work(at, moment++) == ZEMIRAKO_DONE)
        for (zemirako_turn t; (t = zemirako_codec_turn(at)).status == ZEMIRAKO_DONE;)
            for (uint64_t i = 0; i < t.outputs; i++) keep(at, i, c);
    ended(at);
}

static void decode(const struct coded *c, int16_t *sound) {
    zemirako_chunk_head head = {1, 0, 0, 0};
    zemirako_codec *at = opened(4);
    size_t from = 0, to = 0, size = VALUES * sizeof *sound;
    WANT(zemirako_audio_decoder_configure_as(at, c->codec, c->config.rate, c->config.channels,
                                             c->config.has_description ? c->description : NULL,
                                             c->config.size).status == ZEMIRAKO_DONE);
    for (size_t i = 0; i < c->count; from += c->sizes[i++])
        WANT(zemirako_audio_decoder_decode(at, &head, c->bytes + from, c->sizes[i]).status
             == ZEMIRAKO_DONE);
    while (zemirako_codec_work(at, moment++) == ZEMIRAKO_DONE)
        for (zemirako_turn t; (t = zemirako_codec_turn(at)).status == ZEMIRAKO_DONE;)
            for (uint64_t i = 0; i < t.outputs; i++) {
                zemirako_output o =
                    zemirako_audio_decoder_output(at, i, (uint8_t *)sound + to, size - to);
                WANT(o.status == ZEMIRAKO_DONE && o.format == ZEMIRAKO_S16 && o.rate == 8000);
                to += o.size;
            }
    WANT(to == size);
    ended(at);
}

/* Sound that is encoded comes back, from mu-law as what its codes stand for. */
static void encoders(void) {
    static const char *const codecs[] = {"pcm-s16", "ulaw", "flac"};
    static int16_t sound[VALUES], back[VALUES], again[VALUES];
    static struct coded coded;
    for (int i = 0; i < VALUES; i++) sound[i] = (int16_t)(i * 37 % 4001 - 2000);
    for (int i = 0; i < 3; i++) {
        encode(codecs[i], sound, &coded);
        decode(&coded, back);
        printf("%s: %zu chunks, %zu bytes\n", codecs[i], coded.count, coded.end);
        int is_exact = memcmp(sound, back, sizeof sound) == 0;
        WANT(is_exact == (strcmp(codecs[i], "ulaw") != 0));
        for (int n = 0; n < VALUES; n++) WANT(abs(sound[n] - back[n]) <= 64);
        encode(codecs[i], back, &coded);
        decode(&coded, again);
        WANT(memcmp(back, again, sizeof back) == 0);
    }
}

static const zemirako_chunk_head plain = {1, 0, 0, 0};
static const uint8_t four[] = {1, 0, 2, 0};

static zemirako_work_item *work_room(void) {
    zemirako_work_item *work = malloc(zemirako_work_item_size());
    WANT(work && zemirako_work_item_align() <= 16);
    return work;
}

/* Work that leaves, and ends of other items. */
static void leaving(void) {
    zemirako_codec *at = opened(1), *other = opened(1);
    zemirako_work_item *work = work_room();
    configure(at, "alaw");
    zemirako_codec_start(at, work);
    zemirako_work_item_perform(work);
    WANT(zemirako_codec_work(at, moment) == ZEMIRAKO_IDLE); /* an item is out */
    WANT(zemirako_codec_done(at, work, moment++) == ZEMIRAKO_DONE);
    zemirako_codec_start(at, work); /* no item: messages are blocked */
    WANT(zemirako_codec_done(at, work, moment) == ZEMIRAKO_IDLE);
    drive(at, 1);
    for (int i = 0; i < 9; i++)
        WANT(zemirako_audio_decoder_decode(at, &plain, four, 4).status == ZEMIRAKO_DONE);
    zemirako_codec_start(at, work);
    WANT(zemirako_codec_done(at, work, moment++) == ZEMIRAKO_DONE); /* performed there */
    drive(at, 1);
    WANT(zemirako_audio_decoder_decode(at, &plain, four, 4).status == ZEMIRAKO_DONE);
    zemirako_codec_start(at, work);
    WANT(zemirako_codec_reset(at).status == ZEMIRAKO_DONE);
    zemirako_work_item_perform(work);
    /* none of the other decoder is out */
    WANT(zemirako_codec_done(other, work, moment) == ZEMIRAKO_REFUSED);
    WANT(configure(at, "ulaw").status == ZEMIRAKO_DONE);
    WANT(zemirako_codec_work(at, moment) == ZEMIRAKO_IDLE); /* the item is lost, and out */
    ended(at); /* with full queues */
    configure(other, "alaw");
    zemirako_codec_start(other, work);
    ended(other);
    zemirako_work_item_end(work);
    free(work);
}

/* Handles that are not open, and what is out of range. */
static void misuse(void) {
    zemirako_codec *at = room();
    WANT(zemirako_audio_decoder_open(at, 0) == ZEMIRAKO_INVALID);
    WANT(zemirako_codec_flush(at).status == ZEMIRAKO_INVALID);
    WANT(zemirako_codec_end(at) == ZEMIRAKO_DONE);
    WANT(zemirako_audio_decoder_open(at, 65) == ZEMIRAKO_INVALID);
    WANT(zemirako_codec_end(at) == ZEMIRAKO_DONE);
    memset(at, 0xa5, zemirako_codec_size());
    WANT(configure(at, "alaw").status == ZEMIRAKO_NOT_OPEN);
    WANT(zemirako_audio_decoder_decode(at, &plain, four, 4).status == ZEMIRAKO_NOT_OPEN);
    WANT(zemirako_codec_reset(at).status == ZEMIRAKO_NOT_OPEN);
    WANT(zemirako_codec_close(at).status == ZEMIRAKO_NOT_OPEN);
    WANT(zemirako_codec_work(at, moment) == ZEMIRAKO_NOT_OPEN);
    WANT(zemirako_codec_turn(at).status == ZEMIRAKO_NOT_OPEN);
    WANT(zemirako_audio_decoder_output(at, 0, nothing, 1).status == ZEMIRAKO_NOT_OPEN);
    WANT(zemirako_codec_settled(at, 0).status == ZEMIRAKO_NOT_OPEN);
    WANT(zemirako_codec_look(at).status == ZEMIRAKO_NOT_OPEN);
    zemirako_work_item *work = work_room();
    zemirako_codec_start(at, work);
    zemirako_work_item_perform(work);
    WANT(zemirako_codec_done(at, work, moment) == ZEMIRAKO_NOT_OPEN);
    free(work);
    free(at);
}

/* Calls of one kind on a codec of the other, and samples that AudioData refuses. */
static void other_kind(void) {
    zemirako_audio_encoder_config config = {8000, 1, 0, 5, 16};
    zemirako_samples_head head = {ZEMIRAKO_S16, 8000, 1, 2, 0};
    zemirako_codec *at = opened(4);
    WANT(zemirako_audio_encoder_configure_as(at, "ulaw", config).status == ZEMIRAKO_NOT_OPEN);
    WANT(zemirako_audio_encoder_encode(at, &head, four, 4).status == ZEMIRAKO_NOT_OPEN);
    ended(at);
    at = room();
    WANT(zemirako_audio_encoder_open(at, 65) == ZEMIRAKO_INVALID);
    WANT(zemirako_codec_end(at) == ZEMIRAKO_DONE);
    WANT(zemirako_audio_encoder_open(at, 4) == ZEMIRAKO_DONE);
    WANT(configure(at, "ulaw").status == ZEMIRAKO_NOT_OPEN);
    WANT(zemirako_audio_decoder_decode(at, &plain, four, 4).status == ZEMIRAKO_NOT_OPEN);
    WANT(zemirako_audio_encoder_encode(at, &head, four, 3).status == ZEMIRAKO_INVALID);
    head.format = 6;
    WANT(zemirako_audio_encoder_encode(at, &head, four, 4).status == ZEMIRAKO_INVALID);
    WANT(zemirako_codec_look(at).entries == 0);
    WANT(zemirako_audio_encoder_chunk(at, 0, nothing, 1).status == ZEMIRAKO_REFUSED);
    ended(at);
}

static int is_made(uint32_t status) {
    WANT(status == ZEMIRAKO_DONE || status == ZEMIRAKO_REFUSED || status == ZEMIRAKO_NO_MEMORY);
    return status != ZEMIRAKO_NO_MEMORY;
}

/* One stream where one allocation fails; whether there were so many. */
static int stream_without(long number) {
    zemirako_codec *at = room();
    long before = blocks;
    asked = 0;
    lacking = number;
    uint32_t open = zemirako_audio_decoder_open(at, 4);
    WANT(open == ZEMIRAKO_DONE || open == ZEMIRAKO_NO_MEMORY);
    int all = is_made(configure(at, "pcm-s16").status);
    all += is_made(zemirako_audio_decoder_decode(at, &plain, four, 4).status);
    all += is_made(zemirako_codec_flush(at).status);
    for (int i = 0; i < 9; i++) {
        zemirako_codec_work(at, moment++);
        for (zemirako_turn t; (t = zemirako_codec_turn(at)).status == ZEMIRAKO_DONE;)
            WANT(t.error == 0 || t.error == ZEMIRAKO_OUT_OF_MEMORY || t.error == ZEMIRAKO_ENCODING);
    }
    is_made(zemirako_codec_close(at).status);
    lacking = -1;
    WANT(zemirako_codec_end(at) == ZEMIRAKO_DONE);
    WANT(blocks == before);
    WANT(open == ZEMIRAKO_DONE || all == 0);
    free(at);
    return asked > number;
}

static void failing(void) {
    long number = 0;
    while (stream_without(number)) number++;
    fprintf(stderr, "%ld allocations failed in turn\n", number);
    WANT(number > 0);
}

static void *perform(void *work) {
    zemirako_work_item_perform(work);
    return NULL;
}

/* Takes all outputs of all turns: each has the next timestamp. */
static void take(zemirako_codec *at, int64_t *next) {
    uint8_t bytes[16];
    for (zemirako_turn t; (t = zemirako_codec_turn(at)).status == ZEMIRAKO_DONE;)
        for (uint64_t n = 0; n < t.outputs; n++) {
            zemirako_output o = zemirako_audio_decoder_output(at, n, bytes, sizeof bytes);
            WANT(o.status == ZEMIRAKO_DONE && o.timestamp == (*next)++);
        }
}

/* Items that leave for a thread, while their decoder is called. */
static void threads(int64_t count) {
    zemirako_codec *at = opened(4);
    zemirako_work_item *work = work_room();
    int64_t next = 0;
    configure(at, "alaw");
    drive(at, 1);
    for (int64_t i = 0; i < count; i++) {
        zemirako_chunk_head head = {1, 0, i, 0};
        pthread_t thread;
        zemirako_codec_start(at, work);
        WANT(pthread_create(&thread, NULL, perform, work) == 0);
        WANT(zemirako_audio_decoder_decode(at, &head, four, 4).status == ZEMIRAKO_DONE);
        take(at, &next);
        WANT(zemirako_codec_look(at).phase == ZEMIRAKO_CONFIGURED);
        WANT(pthread_join(thread, NULL) == 0);
        uint32_t done = zemirako_codec_done(at, work, moment++);
        WANT(done == (i == 0 ? ZEMIRAKO_IDLE : ZEMIRAKO_DONE));
        take(at, &next);
    }
    while (zemirako_codec_work(at, moment++) == ZEMIRAKO_DONE) take(at, &next);
    WANT(next == count);
    ended(at);
    free(work);
}

static long peak(void) {
    struct rusage use;
    getrusage(RUSAGE_SELF, &use);
    return use.ru_maxrss;
}

static void many(uint64_t count) {
    zemirako_chunk_head head = {1, 0, 0, 0};
    uint8_t bytes[256] = {0}, copy[256];
    zemirako_codec *at = opened(4);
    configure(at, "pcm-s16");
    drive(at, 1);
    long before = 0;
    for (uint64_t i = 0; i < count; i++) {
        if (i == 1000) before = peak();
        head.timestamp = (int64_t)i;
        bytes[0] = (uint8_t)i;
        WANT(zemirako_audio_decoder_decode(at, &head, bytes, sizeof bytes).status == 0);
        WANT(zemirako_codec_work(at, moment++) == ZEMIRAKO_DONE);
        uint64_t outputs = 0;
        for (;;) {
            zemirako_turn t = zemirako_codec_turn(at);
            if (t.status != ZEMIRAKO_DONE) break;
            for (uint64_t n = 0; n < t.outputs; n++, outputs++) {
                zemirako_output o = zemirako_audio_decoder_output(at, n, copy, sizeof copy);
                WANT(o.status == ZEMIRAKO_DONE && o.timestamp == (int64_t)i);
                WANT(copy[0] == (uint8_t)i);
            }
        }
        WANT(outputs == 1);
    }
    fprintf(stderr, "%" PRIu64 " decodes: peak of %ld KB after 1000 of them, %ld KB after all\n",
            count, before, peak());
    WANT(count <= 1000 || peak() <= before + 64);
    ended(at);
}

int main(int argc, char **argv) {
    char version[32];
    snprintf(version, sizeof version, "%u.%u.%u", ZEMIRAKO_ENGINE_VERSION >> 16,
             ZEMIRAKO_ENGINE_VERSION >> 8 & 255, ZEMIRAKO_ENGINE_VERSION & 255);
    WANT(zemirako_engine_version() == ZEMIRAKO_ENGINE_VERSION);
    WANT(strcmp(version, ZEMIRAKO_VERSION) == 0);
    uint64_t count = argc > 1 ? strtoull(argv[1], NULL, 10) : 1000000;
    stream();
    encoders();
    leaving();
    misuse();
    other_kind();
    failing();
    threads(count < 2000 ? (int64_t)count : 2000);
    many(count);
    WANT(blocks == 0);
    return 0;
}
