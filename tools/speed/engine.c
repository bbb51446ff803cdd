/* Processor time of decodes by the engine for C and by libavcodec: engine [ROUNDS [COUNT]]
 * A decode is of linear PCM of 16 bits, 2 channels. By the engine it is decode, work, its turns and
 * a copy of the output; by libavcodec's pcm_s16le send_packet, receive_frame and a copy. Both copy
 * the chunk, since the packet is not counted by references. ROUNDS (9)
 * rounds of each, in turn, with 1 and with 1,024 frames a chunk: the least and the median of the
 * nanoseconds a decode. Then the longest of COUNT (1,000,000) decodes, each timed by itself. */
#define _POSIX_C_SOURCE 200809L
#include "zemirako_engine.h"
#include <libavcodec/avcodec.h>
#include <inttypes.h>
#include <stdio.h>
#include <stdlib.h>
#include <string.h>
#include <time.h>

#define WANT(what) \
    do { \
        if (!(what)) { \
            fprintf(stderr, "line %d: %s\n", __LINE__, #what); \
            exit(1); \
        } \
    } while (0)

enum { RATE = 48000, CHANNELS = 2, MOST = 1024 * 4 };
static uint8_t bytes[MOST + AV_INPUT_BUFFER_PADDING_SIZE], copy[MOST];
static uint64_t moment;

static uint64_t now(void) {
    struct timespec at;
    clock_gettime(CLOCK_THREAD_CPUTIME_ID, &at);
    return (uint64_t)at.tv_sec * 1000000000 + (uint64_t)at.tv_nsec;
}

/* ---- The engine */

static zemirako_codec *decoder;

static void turns(size_t *size) {
    zemirako_turn t;
    while ((t = zemirako_codec_turn(decoder)).status == ZEMIRAKO_DONE)
        for (uint64_t i = 0; i < t.outputs; i++) {
            zemirako_output o = zemirako_audio_decoder_output(decoder, i, copy, sizeof copy);
            WANT(o.status == ZEMIRAKO_DONE);
            *size += o.size;
        }
    WANT(t.status == ZEMIRAKO_IDLE);
}

static void engine_begin(void) {
    size_t none = 0;
    WANT((decoder = (zemirako_codec *)malloc(zemirako_codec_size())));
    WANT(zemirako_audio_decoder_open(decoder, 4) == ZEMIRAKO_DONE);
    WANT(zemirako_audio_decoder_configure_as(decoder, "pcm-s16", RATE, CHANNELS, NULL, 0).status ==
         ZEMIRAKO_DONE);
    WANT(zemirako_codec_work(decoder, moment++) == ZEMIRAKO_DONE);
    turns(&none);
}

static void engine_decode(uint32_t frames, uint64_t number) {
    zemirako_chunk_head head = {1, 0, (int64_t)number, 0};
    size_t size = 0;
    WANT(zemirako_audio_decoder_decode(decoder, &head, bytes, 4 * frames).status == ZEMIRAKO_DONE);
    WANT(zemirako_codec_work(decoder, moment++) == ZEMIRAKO_DONE);
    turns(&size);
    WANT(size == 4 * frames);
}

static void engine_end(void) {
    WANT(zemirako_codec_end(decoder) == ZEMIRAKO_DONE);
    free(decoder);
}

/* ---- libavcodec */

static AVCodecContext *context;
static AVPacket *packet;
static AVFrame *frame;

static void libavcodec_begin(void) {
    const AVCodec *codec = avcodec_find_decoder(AV_CODEC_ID_PCM_S16LE);
    WANT(codec && (context = avcodec_alloc_context3(codec)));
    context->sample_rate = RATE;
#if LIBAVCODEC_VERSION_INT >= AV_VERSION_INT(59, 24, 100)
    av_channel_layout_default(&context->ch_layout, CHANNELS);
#else
    context->channels = CHANNELS;
#endif
    WANT(avcodec_open2(context, codec, NULL) == 0);
    WANT((packet = av_packet_alloc()) && (frame = av_frame_alloc()));
}

static void libavcodec_decode(uint32_t frames, uint64_t number) {
    size_t size = 0;
    packet->data = bytes;
    packet->size = (int)(4 * frames);
    packet->pts = (int64_t)number;
    WANT(avcodec_send_packet(context, packet) == 0);
    while (avcodec_receive_frame(context, frame) == 0) {
        size_t count = (size_t)frame->nb_samples * 4;
        memcpy(copy, frame->data[0], count);
        size += count;
        av_frame_unref(frame);
    }
    WANT(size == 4 * frames);
}

static void libavcodec_end(void) {
    av_frame_free(&frame);
    av_packet_free(&packet);
    avcodec_free_context(&context);
}

static const struct way {
    const char *name;
    void (*begin)(void), (*decode)(uint32_t frames, uint64_t number), (*end)(void);
} ways[2] = {{"the engine", engine_begin, engine_decode, engine_end},
             {"libavcodec", libavcodec_begin, libavcodec_decode, libavcodec_end}};

static int compare(const void *one, const void *two) {
    double a = *(const double *)one, b = *(const double *)two;
    return (a > b) - (a < b);
}

static void measure(uint32_t frames, size_t rounds, uint64_t count) {
    double *times[2], medians[2];
    for (int w = 0; w < 2; w++) WANT((times[w] = (double *)malloc(rounds * sizeof **times)));
    for (size_t r = 0; r < rounds; r++)
        for (int w = 0; w < 2; w++) {
            ways[w].begin();
            uint64_t from = now();
            for (uint64_t i = 0; i < count; i++) ways[w].decode(frames, i);
            times[w][r] = (double)(now() - from) / (double)count;
            ways[w].end();
        }
    for (int w = 0; w < 2; w++) {
        qsort(times[w], rounds, sizeof **times, compare);
        medians[w] = times[w][rounds / 2];
        printf("| %s | %u | %.0f | %.0f |\n", ways[w].name, frames, times[w][0], medians[w]);
        free(times[w]);
    }
    printf("with %u frames the engine takes %.2f times the time, by the medians\n", frames,
           medians[0] / medians[1]);
}

int main(int words, char **word) {
    size_t rounds = words > 1 ? strtoul(word[1], NULL, 10) : 9;
    uint64_t count = words > 2 ? strtoull(word[2], NULL, 10) : 1000000;
    for (size_t i = 0; i < MOST; i++) bytes[i] = (uint8_t)(i * 37);
    printf("libavcodec %s\n", AV_STRINGIFY(LIBAVCODEC_VERSION));
    printf("| by | frames a chunk | least ns a decode | median |\n|---|---|---|---|\n");
    measure(1, rounds, 100000);
    measure(1024, rounds, 50000);
    for (int w = 0; w < 2; w++) {
        uint64_t longest = 0, at = 0;
        ways[w].begin();
        for (uint64_t i = 0; i < count; i++) {
            uint64_t from = now();
            ways[w].decode(1, i);
            uint64_t took = now() - from;
            if (took > longest) longest = took, at = i;
        }
        ways[w].end();
        printf("longest of %" PRIu64 " decodes of 1 frame by %s: %.1f us (number %" PRIu64 ")\n",
               count, ways[w].name, (double)longest / 1000, at);
    }
    return 0;
}
