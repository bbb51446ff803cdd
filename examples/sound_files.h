/* Sound files for play.c: WAV and native FLAC files are read whole, and a WAV file is written. The
 * functions answer what went wrong, or NULL. */
#ifndef SOUND_FILES_H
#define SOUND_FILES_H

#include "zemirako_engine.h"
#include <stdio.h>
#include <stdlib.h>
#include <string.h>

enum { FRAMES = 1024 }; /* frames of sound in a chunk of a WAV file */

/* What is played: its chunks stand at `at`, up to `end`. */
struct source {
    uint8_t *bytes;
    size_t end, at, frame; /* frame: bytes of a frame of a WAV file; 0 of a FLAC file */
    const char *codec;
    uint32_t rate, channels;
    zemirako_flac_description flac;
    uint64_t chunks; /* so many were taken */
};

static uint32_t little(const uint8_t *bytes, int count) {
    uint32_t number = 0;
    for (int i = count; i-- > 0;) number = number << 8 | bytes[i];
    return number;
}

static void put_little(uint8_t *bytes, int count, uint32_t number) {
    for (int i = 0; i < count; i++) bytes[i] = (uint8_t)(number >> 8 * i);
}

static const char *read_format(struct source *s, const uint8_t *format, size_t count) {
    static const char *const linear[] = {"pcm-u8", "pcm-s16", "pcm-s24", "pcm-s32"};
    uint32_t tag = little(format, 2), bits = little(format + 14, 2);
    if (tag == 0xfffe && count >= 26) tag = little(format + 24, 2); /* WAVE_FORMAT_EXTENSIBLE */
    if (tag == 1 && bits % 8 == 0 && bits >= 8 && bits <= 32) s->codec = linear[bits / 8 - 1];
    else if (tag == 6 && bits == 8) s->codec = "alaw";
    else if (tag == 7 && bits == 8) s->codec = "ulaw";
    else return "samples of another kind than linear PCM, A-law and mu-law";
    s->rate = little(format + 4, 4);
    s->channels = little(format + 2, 2);
    s->frame = s->channels * (bits / 8);
    return s->frame ? NULL : "no channels";
}

static const char *read_wav(struct source *s) {
    size_t size = s->end;
    for (size_t at = 12; at <= size && size - at >= 8;) {
        const uint8_t *head = s->bytes + at;
        size_t count = little(head + 4, 4), left = size - at - 8;
        if (count > left) count = left;
        if (!memcmp(head, "fmt ", 4) && count >= 16) {
            const char *why = read_format(s, head + 8, count);
            if (why) return why;
        }
        if (!memcmp(head, "data", 4) && s->codec) {
            s->at = at + 8;
            s->end = s->at + count - count % s->frame;
            return NULL;
        }
        at += 8 + count + count % 2;
    }
    return "no WAV file with samples";
}

static const char *read_flac(struct source *s) {
    uint32_t status = zemirako_flac_read_description(s->bytes, s->end, &s->flac);
    if (status != ZEMIRAKO_DONE) return "no description of a FLAC stream";
    s->codec = "flac";
    s->rate = s->flac.rate;
    s->channels = s->flac.channels;
    s->at = 4;
    for (int is_last = 0; !is_last;) { /* over the blocks of metadata */
        const uint8_t *head = s->bytes + s->at;
        if (s->end - s->at < 4) return "the FLAC file ends early";
        size_t count = (size_t)head[1] << 16 | (size_t)head[2] << 8 | head[3];
        is_last = head[0] & 0x80;
        if (s->end - s->at - 4 < count) return "the FLAC file ends early";
        s->at += 4 + count;
    }
    return NULL;
}

static const char *read_source(struct source *s, const char *name) {
    FILE *in = fopen(name, "rb");
    if (!in) return "cannot open the file to read";
    const char *why = "cannot read";
    long size = fseek(in, 0, SEEK_END) ? -1 : ftell(in);
    if (size >= 0 && size < INT32_MAX && !fseek(in, 0, SEEK_SET)) {
        s->bytes = (uint8_t *)malloc((size_t)size + 1);
        if (!s->bytes) why = "out of memory for the file";
        else if (fread(s->bytes, 1, (size_t)size, in) == (size_t)size) why = NULL;
    }
    fclose(in);
    if (why) return why;
    s->end = (size_t)size;
    if (s->end >= 12 && !memcmp(s->bytes, "RIFF", 4) && !memcmp(s->bytes + 8, "WAVE", 4))
        return read_wav(s);
    return read_flac(s);
}

/* How many bytes the next chunk has, and how many frames of sound come before it. */
static const char *next_chunk(const struct source *s, uint64_t *count, uint64_t *before) {
    *count = s->end - s->at;
    *before = s->chunks * (s->frame ? (uint32_t)FRAMES : s->flac.max_block);
    if (!s->frame) {
        uint32_t status = zemirako_flac_frame_end(s->bytes + s->at, *count, &s->flac, count);
        if (status == ZEMIRAKO_REFUSED) return "no frame of the FLAC stream";
        return status ? zemirako_status_text(status) : NULL;
    }
    if (*count > FRAMES * s->frame) *count = FRAMES * s->frame;
    return NULL;
}

/* A WAV file that is written. */
struct sink {
    FILE *to;
    uint32_t written;
};

static const char *write_head(struct sink *k, const zemirako_output *o) {
    uint8_t head[44] = "RIFF\0\0\0\0WAVEfmt \x10\0\0\0\x01\0";
    uint32_t sample = o->format == ZEMIRAKO_U8 ? 1 : o->format == ZEMIRAKO_S16 ? 2 : 4;
    put_little(head + 22, 2, o->channels);
    put_little(head + 24, 4, o->rate);
    put_little(head + 28, 4, o->rate * o->channels * sample);
    put_little(head + 32, 2, o->channels * sample);
    put_little(head + 34, 2, 8 * sample);
    memcpy(head + 36, "data", 4);
    return fwrite(head, 1, sizeof head, k->to) == sizeof head ? NULL : "cannot write";
}

static const char *write_sound(struct sink *k, const zemirako_output *o, const uint8_t *bytes) {
    if (!k->written) {
        const char *why = write_head(k, o);
        if (why) return why;
    }
    if (o->size > UINT32_MAX - 64 - k->written) return "more than a WAV file holds";
    k->written += (uint32_t)o->size;
    return fwrite(bytes, 1, o->size, k->to) == o->size ? NULL : "cannot write";
}

/* Puts the sizes, which are known now, into the head. */
static const char *finish(struct sink *k) {
    uint8_t size[4];
    if (!k->written) return "no sound";
    if (k->written % 2 && fputc(0, k->to) == EOF) return "cannot write";
    put_little(size, 4, 36 + k->written + k->written % 2);
    if (fseek(k->to, 4, SEEK_SET) || fwrite(size, 1, 4, k->to) != 4) return "cannot write";
    put_little(size, 4, k->written);
    return fseek(k->to, 40, SEEK_SET) || fwrite(size, 1, 4, k->to) != 4 ? "cannot write" : NULL;
}

#endif
