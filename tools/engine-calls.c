/* Makes the calls that it reads, on two decoders of the engine for C; tools/engine-calls.py writes
 * them and reads what this prints. A line has a call, and `d`, the decoder 0 or 1:
 *   S A B       both are opened, saturated at A and B         Z      both are ended
 *   c d RATE CHANNELS CODEC DESCRIPTION   configure; `_` is an empty text, and `-` none
 *   e d KEY TIME HEX  decode       f d  flush      r d  reset      x d  close
 *   w d MOMENT  work               t d  turn       l d  look
 *   s d  start into d's room       p d  perform    d d MOMENT  done with the item of d's room
 * and, as misuse,
 *   m d e MOMENT  done on d with the item of e's room; where d itself waits for an item of that
 *                 number, which the header forbids, the item is dropped instead, and -1 printed
 *   E d  end    g N  call N where no decoder was opened    b A  a decoder opened with saturation A
 * For each it prints the entries that were made, as a report of wcrun has them, behind the
 * decoder's number, and then `= STATUS`. Ends with 1 where an answer is another than the header
 * states. */
#include "zemirako_engine.h"
#include <inttypes.h>
#include <stdio.h>
#include <stdlib.h>
#include <string.h>

#define WANT(what) \
    do { \
        if (!(what)) { \
            fprintf(stderr, "line %d, at line %ld of the input: %s\n", __LINE__, line, #what); \
            exit(1); \
        } \
    } while (0)

enum { MOST = 4096 };
struct seat {
    zemirako_codec *at;
    zemirako_work_item *room;
    int ended, full;              /* an item, maybe empty, lies in the room */
    int has, out;                 /* the room has an item; an item of the decoder is out or lost */
    uint64_t epoch, next;         /* of the next item */
    uint64_t out_epoch, out_number, room_epoch, room_number;
};

static struct seat seats[2];
static long line;
static zemirako_codec *unopened;
static uint8_t nothing[1];

static uint64_t entries(struct seat *s) { return zemirako_codec_look(s->at).entries; }

static size_t from_hex(const char *text, uint8_t *bytes) {
    size_t count = 0;
    unsigned byte;
    if (*text == '-' || *text == '_') return 0;
    for (; sscanf(text + 2 * count, "%2x", &byte) == 1; count++) bytes[count] = (uint8_t)byte;
    return count;
}

static void settle(int d, uint64_t count) {
    for (uint64_t i = 0; i < count; i++) {
        zemirako_settled end = zemirako_codec_settled(seats[d].at, i);
        WANT(end.status == ZEMIRAKO_DONE);
        printf("%d   %s %" PRIu64 "%s%s\n", d, end.error ? "reject" : "resolve", end.promise,
               end.error ? " " : "", end.error ? zemirako_error_text(end.error) : "");
    }
    WANT(zemirako_codec_settled(seats[d].at, count).status == ZEMIRAKO_REFUSED);
}

static uint32_t called(int d, const char *name, zemirako_reply r) {
    struct seat *s = &seats[d];
    if (s->ended) WANT(r.status == ZEMIRAKO_NOT_OPEN);
    if (r.status == ZEMIRAKO_NOT_OPEN) return r.status;
    WANT(r.status == (r.error ? ZEMIRAKO_REFUSED : ZEMIRAKO_DONE) && r.place + 1 == entries(s));
    printf("%d %" PRIu64 " %s = %s\n", d, r.place, name,
           r.error ? zemirako_error_text(r.error) : "ok");
    settle(d, r.settled);
    if (!r.error && (*name == 'r' || *name == 'c') && name[2] != 'n') s->epoch++, s->next = 0;
    return r.status;
}

static void show(int d, uint64_t count) {
    static const char *const formats[] = {"u8", "s16", "s32"};
    static uint8_t bytes[4 * MOST];
    zemirako_codec *at = seats[d].at;
    for (uint64_t i = 0; i < count; i++) {
        zemirako_output o = zemirako_audio_decoder_output(at, i, nothing, 0), again;
        WANT(o.status == ZEMIRAKO_TOO_SMALL && o.size <= sizeof bytes);
        again = zemirako_audio_decoder_output(at, i, bytes, o.size);
        WANT(again.status == ZEMIRAKO_DONE && again.size == o.size && again.frames == o.frames);
        printf("%d   output audio %s %u %u %u %" PRId64 " ", d, formats[o.format], o.rate,
               o.channels, o.frames, o.timestamp);
        for (uint64_t n = 0; n < o.size; n++) printf("%02x", bytes[n]);
        puts("");
    }
    WANT(zemirako_audio_decoder_output(at, count, bytes, sizeof bytes).status == ZEMIRAKO_REFUSED);
}

static uint32_t turned(int d) {
    static const char *const words[] = {"", "unblock", "process", "desaturate",
                                        "output", "flushed", "dequeue", "close"};
    struct seat *s = &seats[d];
    zemirako_turn t = zemirako_codec_turn(s->at);
    WANT(s->ended ? t.status == ZEMIRAKO_NOT_OPEN : !t.status || t.status == ZEMIRAKO_IDLE);
    if (t.status != ZEMIRAKO_DONE) return t.status;
    int closes = t.word == ZEMIRAKO_TURN_CLOSE;
    WANT(t.place + 1 == entries(s) && closes == (t.error != 0));
    printf("%d %" PRIu64 " turn %s%s%s\n", d, t.place, words[t.word], closes ? " " : "",
           closes ? zemirako_error_text(t.error) : "");
    if (t.word == ZEMIRAKO_TURN_DEQUEUE) printf("%d   dequeue\n", d);
    show(d, t.outputs);
    settle(d, t.settled);
    if (closes) {
        printf("%d   error %s\n", d, zemirako_error_text(t.error));
        s->epoch++;
        s->next = 0;
    }
    return t.status;
}

static void done(int d, uint64_t place, uint64_t epoch, uint64_t number, uint64_t moment) {
    printf("%d %" PRIu64 " done %" PRIu64 ".%" PRIu64 " %" PRIu64 "\n", d, place, epoch, number,
           moment);
}

static uint32_t worked(int d, uint64_t moment) {
    struct seat *s = &seats[d];
    uint64_t before = s->ended ? 0 : entries(s);
    uint32_t status = zemirako_codec_work(s->at, moment);
    WANT(s->ended ? status == ZEMIRAKO_NOT_OPEN : !status || status == ZEMIRAKO_IDLE);
    if (s->out) WANT(status != ZEMIRAKO_DONE);
    if (status == ZEMIRAKO_DONE) {
        WANT(entries(s) == before + 2);
        printf("%d %" PRIu64 " start %" PRIu64 ".%" PRIu64 "\n", d, before, s->epoch, s->next);
        done(d, before + 1, s->epoch, s->next++, moment);
    } else if (!s->ended) WANT(entries(s) == before);
    return status;
}

static uint32_t started(int d) {
    struct seat *s = &seats[d];
    WANT(!s->full);
    uint64_t before = s->ended ? 0 : entries(s);
    zemirako_codec_start(s->at, s->room);
    s->full = 1;
    s->has = !s->ended && entries(s) > before;
    if (!s->has) return s->ended ? ZEMIRAKO_NOT_OPEN : ZEMIRAKO_IDLE;
    WANT(!s->out && entries(s) == before + 1);
    printf("%d %" PRIu64 " start %" PRIu64 ".%" PRIu64 "\n", d, before, s->epoch, s->next);
    s->out = 1;
    s->room_epoch = s->out_epoch = s->epoch;
    s->room_number = s->out_number = s->next++;
    return ZEMIRAKO_DONE;
}

/* An item of room e for decoder d. */
static int returned(int d, int e, uint64_t moment) {
    struct seat *s = &seats[d], *r = &seats[e];
    WANT(r->full);
    if (d != e && r->has && s->out && r->room_epoch == s->out_epoch &&
        r->room_number == s->out_number) {
        zemirako_work_item_end(r->room);
        r->full = r->has = 0;
        return -1;
    }
    uint64_t before = s->ended ? 0 : entries(s);
    uint32_t status = zemirako_codec_done(s->at, r->room, moment);
    if (s->ended) WANT(status == ZEMIRAKO_NOT_OPEN);
    else WANT(status == (!r->has ? ZEMIRAKO_IDLE : d == e ? ZEMIRAKO_DONE : ZEMIRAKO_REFUSED));
    if (!s->ended) WANT(entries(s) == before + (status == ZEMIRAKO_DONE));
    if (status == ZEMIRAKO_DONE) {
        done(d, before, r->room_epoch, r->room_number, moment);
        s->out = 0;
    }
    r->full = r->has = 0;
    return (int)status;
}

/* Each call where no decoder lies, or one with no codec. */
static uint32_t call(zemirako_codec *at, uint32_t number) {
    static const zemirako_audio_config config = {8000, 1, 0};
    static const uint8_t codec[] = {'a', 'l', 'a', 'w'};
    static const zemirako_chunk_head head = {1, 0, 0, 0};
    switch (number) {
    case 0: return zemirako_audio_decoder_configure(at, &config, codec, 4, nothing, 0).status;
    case 1: return zemirako_audio_decoder_decode(at, &head, nothing, 1).status;
    case 2: return zemirako_codec_flush(at).status;
    case 3: return zemirako_codec_reset(at).status;
    case 4: return zemirako_codec_close(at).status;
    case 5: return zemirako_codec_work(at, 1);
    case 6: return zemirako_codec_turn(at).status;
    case 7: return zemirako_audio_decoder_output(at, 0, nothing, 1).status;
    case 8: return zemirako_codec_settled(at, 0).status;
    default: return zemirako_codec_look(at).status;
    }
}

static uint32_t opened_wrongly(uint32_t saturation) {
    zemirako_codec *at = (zemirako_codec *)malloc(zemirako_codec_size());
    WANT(at && zemirako_audio_decoder_open(at, saturation) == ZEMIRAKO_INVALID);
    for (uint32_t i = 0; i < 10; i++) /* it shows no output and no end of a promise */
        WANT(call(at, i) == (i == 7 || i == 8 ? ZEMIRAKO_REFUSED : ZEMIRAKO_INVALID));
    WANT(zemirako_codec_end(at) == ZEMIRAKO_DONE);
    for (uint32_t i = 0; i < 10; i++) WANT(call(at, i) == ZEMIRAKO_NOT_OPEN);
    free(at);
    return ZEMIRAKO_INVALID;
}

static uint32_t end(int d) {
    struct seat *s = &seats[d];
    uint32_t status = zemirako_codec_end(s->at);
    WANT(status == (s->ended ? ZEMIRAKO_NOT_OPEN : ZEMIRAKO_DONE));
    s->ended = 1;
    return status;
}

static void open_both(const unsigned *saturations) {
    for (int d = 0; d < 2; d++) {
        struct seat *s = &seats[d];
        memset(s, 0, sizeof *s);
        s->at = (zemirako_codec *)malloc(zemirako_codec_size());
        s->room = (zemirako_work_item *)malloc(zemirako_work_item_size());
        WANT(s->at && s->room);
        WANT(zemirako_audio_decoder_open(s->at, saturations[d]) == ZEMIRAKO_DONE);
    }
}

static void end_both(void) {
    for (int d = 0; d < 2; d++) {
        end(d);
        if (seats[d].full) zemirako_work_item_end(seats[d].room);
        free(seats[d].room);
        free(seats[d].at);
    }
}

static uint32_t looked(int d) {
    static const char *const phases[] = {"unconfigured", "configured", "closed"};
    zemirako_look look = zemirako_codec_look(seats[d].at);
    WANT(look.status == (seats[d].ended ? ZEMIRAKO_NOT_OPEN : ZEMIRAKO_DONE));
    if (!seats[d].ended)
        printf("%d %" PRIu64 " %s %" PRIu64 "\n", d, look.entries, phases[look.phase],
               look.queue_size);
    return look.status;
}

/* The calls that have more words than a decoder and a moment. */
static uint32_t coded(int d, char word, const char *words) {
    static uint8_t bytes[MOST];
    static char text[2 * MOST + 1], codec[64];
    zemirako_codec *at = seats[d].at;
    if (word == 'c') {
        zemirako_audio_config config = {0, 0, 0};
        WANT(sscanf(words, "%u %u %63s %8192s", &config.rate, &config.channels, codec, text) == 4);
        config.has_description = *text != '-';
        size_t count = from_hex(text, bytes);
        return called(d, "configure", zemirako_audio_decoder_configure(
            at, &config, (const uint8_t *)codec, *codec == '_' ? 0 : strlen(codec), bytes, count));
    }
    zemirako_chunk_head head = {0, 0, 0, 0};
    WANT(sscanf(words, "%u %" SCNd64 " %8192s", &head.key, &head.timestamp, text) == 3);
    size_t count = from_hex(text, bytes);
    return called(d, "decode", zemirako_audio_decoder_decode(at, &head, bytes, count));
}

static int make(char word, const char *words) {
    unsigned d = 0, e = 0, saturations[2];
    uint64_t moment = 0;
    int used = 0;
    if (word == 'S') {
        WANT(sscanf(words, "%u %u", &saturations[0], &saturations[1]) == 2);
        return open_both(saturations), 0;
    }
    if (word == 'Z') return end_both(), 0;
    WANT(sscanf(words, "%u%n %" SCNu64, &d, &used, &moment) >= 1);
    if (word == 'g') return (int)call(unopened, d);
    if (word == 'b') return (int)opened_wrongly(d);
    WANT(d < 2);
    struct seat *s = &seats[d];
    switch (word) {
    case 'c': case 'e': return (int)coded((int)d, word, words + used);
    case 'f': return (int)called((int)d, "flush", zemirako_codec_flush(s->at));
    case 'r': return (int)called((int)d, "reset", zemirako_codec_reset(s->at));
    case 'x': return (int)called((int)d, "close", zemirako_codec_close(s->at));
    case 'w': return (int)worked((int)d, moment);
    case 't': return (int)turned((int)d);
    case 'l': return (int)looked((int)d);
    case 's': return (int)started((int)d);
    case 'p': WANT(s->full); zemirako_work_item_perform(s->room); return 0;
    case 'd': return returned((int)d, (int)d, moment);
    case 'm': WANT(sscanf(words + used, "%u %" SCNu64, &e, &moment) == 2 && e < 2);
              return returned((int)d, (int)e, moment);
    case 'E': return (int)end((int)d);
    default: WANT(!"a call");
    }
    return 0;
}

int main(void) {
    static char words[4 * MOST];
    unopened = (zemirako_codec *)malloc(zemirako_codec_size());
    WANT(unopened);
    memset(unopened, 0xa5, zemirako_codec_size());
    while (fgets(words, sizeof words, stdin)) {
        line++;
        printf("= %d\n", make(words[0], words + 1));
    }
    free(unopened);
    return 0;
}
