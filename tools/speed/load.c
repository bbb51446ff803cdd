/* The calls of `wcrun load START N` through the engine for C, on one thread: load START N
 * Four decoders, each of which decodes N chunks of 160 drawn bytes; each decode's work and turns are done
 * before the next one, and each output is copied. It writes the summary of the load, and the time on
 * standard error. */
#define _POSIX_C_SOURCE 200809L
#include "zemirako_engine.h"
#include <inttypes.h>
#include <stdio.h>
#include <stdlib.h>
#include <time.h>

#define WANT(what) \
    do { \
        if (!(what)) { \
            fprintf(stderr, "line %d: %s\n", __LINE__, #what); \
            exit(1); \
        } \
    } while (0)

enum { CHUNK = 160, MOST = 2 * CHUNK };
static uint64_t outputs, bytes, sum, moment;

static double now(void) {
    struct timespec at;
    clock_gettime(CLOCK_MONOTONIC, &at);
    return (double)at.tv_sec + (double)at.tv_nsec / 1e9;
}

static void turns(zemirako_codec *decoder) {
    static uint8_t copy[MOST];
    zemirako_turn t;
    while ((t = zemirako_codec_turn(decoder)).status == ZEMIRAKO_DONE)
        for (uint64_t i = 0; i < t.outputs; i++) {
            zemirako_output o = zemirako_audio_decoder_output(decoder, i, copy, sizeof copy);
            WANT(o.status == ZEMIRAKO_DONE);
            outputs++;
            bytes += o.size;
            for (size_t k = 0; k < o.size; k++)
                sum += copy[k];
        }
    WANT(t.status == ZEMIRAKO_IDLE);
}

static void work(zemirako_codec *decoder) {
    WANT(zemirako_codec_work(decoder, moment++) == ZEMIRAKO_DONE);
    turns(decoder);
}

int main(int count, char **words) {
    static const char *const codecs[] = {"ulaw", "alaw", "pcm-s16", "pcm-u8"};
    WANT(count == 3);
    uint64_t state = strtoull(words[1], NULL, 10), chunks = strtoull(words[2], NULL, 10);
    double begin = now();
    for (int i = 0; i < 4; i++) {
        zemirako_codec *decoder = malloc(zemirako_codec_size());
        WANT(decoder && zemirako_audio_decoder_open(decoder, 4) == ZEMIRAKO_DONE);
        WANT(zemirako_audio_decoder_configure_as(decoder, codecs[i], 8000, 1, NULL, 0).status == ZEMIRAKO_DONE);
        work(decoder);
        for (uint64_t n = 0; n < chunks; n++) {
            uint8_t chunk[CHUNK];
            zemirako_chunk_head head = {1, 0, (int64_t)(20000 * n), 0};
            for (int k = 0; k < CHUNK; k++) {
                state = state * 6364136223846793005u + 1442695040888963407u;
                chunk[k] = (uint8_t)(state >> 56);
            }
            WANT(zemirako_audio_decoder_decode(decoder, &head, chunk, CHUNK).status == ZEMIRAKO_DONE);
            work(decoder);
        }
        WANT(zemirako_codec_end(decoder) == ZEMIRAKO_DONE);
        free(decoder);
    }
    fprintf(stderr, "%.3f\n", now() - begin);
    printf("load %s %s\noutputs %" PRIu64 "\nbytes %" PRIu64 "\nsum %" PRIu64 "\n", words[1], words[2], outputs, bytes, sum);
}
