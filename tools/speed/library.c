/* Codes blocks and decodes frames by the library for C and by libFLAC, the same ones in one run:
 *     library DEPTH LEVEL SECONDS ROUNDS
 * prints the nanoseconds a sample of each (the least of the rounds, which take turns), and the bytes of all frames. The sound is
 * two channels of 44.1 kHz with 16 or 24 bits a sample: two voices and a little noise, in blocks of 4096. Both decode the
 * frames that the library coded, and their samples are compared once. tools/library-speed.sh builds and runs it. */
#include "zemirako.h"

#include <FLAC/stream_decoder.h>
#include <FLAC/stream_encoder.h>
#include <math.h>
#include <stdio.h>
#include <stdlib.h>
#include <string.h>
#include <time.h>

#define BLOCK 4096
#define CHANNELS 2

FLAC__bool FLAC__stream_encoder_set_do_md5(FLAC__StreamEncoder *e, FLAC__bool value);

static zemirako_flac_format format = {44100, CHANNELS, 16, 6};
static zemirako_flac_description description;
static size_t blocks, frames_size, theirs_size, compared;
static int32_t *planar, *interleaved, *room;
static uint8_t *frames; /* all frames, behind their description */
static size_t *ends;            /* where each frame ends */
static int is_compared;

static void stop(const char *why)
{
    fprintf(stderr, "library: %s\n", why);
    exit(1);
}

static void make_sound(void)
{
    uint64_t seed = 1;
    double top = ((1 << (format.depth - 1)) - 1);
    for (size_t i = 0; i < blocks * BLOCK; i++) {
        double x = (double)i;
        double a = sin(x * 0.031) * 0.4 + sin(x * 0.0071 + sin(x * 0.00011) * 9) * 0.3;
        double voices[CHANNELS] = {a + 0.1 * sin(x * 0.05), a - 0.1 * sin(x * 0.043)};
        for (size_t c = 0; c < CHANNELS; c++) {
            seed = seed * 6364136223846793005u + 1442695040888963407u;
            double noise = (double)(seed >> 40) / (1 << 24) * 0.004 - 0.002;
            int32_t sample = (int32_t)(top * (voices[c] + noise));
            interleaved[i * CHANNELS + c] = sample;
            planar[i / BLOCK * BLOCK * CHANNELS + c * BLOCK + i % BLOCK] = sample;
        }
    }
}

/* ---- This library */

static __attribute__((noinline)) void encode_ours(void)
{
    size_t at = ZEMIRAKO_FLAC_DESCRIPTION_SIZE, most = zemirako_flac_most_bytes(&format, BLOCK), size;
    for (size_t i = 0; i < blocks; i++, at += size) {
        const int32_t *samples = planar + i * BLOCK * CHANNELS;
        if (zemirako_flac_encode_block(&format, BLOCK, (uint32_t)i, samples, BLOCK * CHANNELS, frames + at, most, &size))
            stop("a block was not coded");
        ends[i] = at + size;
    }
    frames_size = at;
}

static __attribute__((noinline)) void decode_ours(void)
{
    uint32_t block;
    for (size_t i = 0, at = ZEMIRAKO_FLAC_DESCRIPTION_SIZE; i < blocks; at = ends[i++])
        if (zemirako_flac_decode_frame(frames + at, ends[i] - at, &description, room, BLOCK * CHANNELS, &block))
            stop("a frame was not decoded");
}

/* The same where the frames' ends are not known. */
static __attribute__((noinline)) void find_and_decode_ours(void)
{
    uint32_t block;
    uint64_t end;
    for (size_t at = ZEMIRAKO_FLAC_DESCRIPTION_SIZE; at < frames_size; at += end)
        if (zemirako_flac_frame_end(frames + at, frames_size - at, &description, &end) ||
            zemirako_flac_decode_frame(frames + at, end, &description, room, BLOCK * CHANNELS, &block))
            stop("a frame was not found");
}

/* The same in one pass. */
static __attribute__((noinline)) void decode_next_ours(void)
{
    uint32_t block;
    size_t size;
    for (size_t at = ZEMIRAKO_FLAC_DESCRIPTION_SIZE; at < frames_size; at += size)
        if (zemirako_flac_decode_next(frames + at, frames_size - at, &description, room, BLOCK * CHANNELS, &block, &size))
            stop("a next frame was not decoded");
}

/* ---- libFLAC */

static FLAC__StreamEncoderWriteStatus take_bytes(const FLAC__StreamEncoder *e, const FLAC__byte in[], size_t size,
                                                 uint32_t samples, uint32_t frame, void *x)
{
    (void)e, (void)in, (void)frame, (void)x;
    theirs_size += samples ? size : 0;
    return FLAC__STREAM_ENCODER_WRITE_STATUS_OK;
}

static void encode_by(int tries_each)
{
    FLAC__StreamEncoder *e = FLAC__stream_encoder_new();
    theirs_size = 0;
    FLAC__stream_encoder_set_do_md5(e, false);
    FLAC__stream_encoder_set_streamable_subset(e, false);
    FLAC__stream_encoder_set_channels(e, CHANNELS);
    FLAC__stream_encoder_set_bits_per_sample(e, format.depth);
    FLAC__stream_encoder_set_sample_rate(e, format.rate);
    FLAC__stream_encoder_set_compression_level(e, 0);
    FLAC__stream_encoder_set_do_mid_side_stereo(e, format.level >= 2);
    FLAC__stream_encoder_set_loose_mid_side_stereo(e, false);
    FLAC__stream_encoder_set_max_lpc_order(e, 0);
    FLAC__stream_encoder_set_blocksize(e, BLOCK);
    FLAC__stream_encoder_set_max_residual_partition_order(e, format.level < 6 ? format.level : 6);
    FLAC__stream_encoder_set_do_exhaustive_model_search(e, tries_each);
    if (FLAC__stream_encoder_init_stream(e, take_bytes, NULL, NULL, NULL, NULL) ||
        !FLAC__stream_encoder_process_interleaved(e, interleaved, (uint32_t)(blocks * BLOCK)) ||
        !FLAC__stream_encoder_finish(e))
        stop("libFLAC codes nothing");
    FLAC__stream_encoder_delete(e);
}

static __attribute__((noinline)) void encode_theirs_guessed(void)
{
    encode_by(0);
}

static __attribute__((noinline)) void encode_theirs_each(void)
{
    encode_by(1);
}

static size_t read_at;

static FLAC__StreamDecoderReadStatus give(const FLAC__StreamDecoder *d, FLAC__byte out[], size_t *count, void *x)
{
    size_t left = frames_size - read_at;
    (void)d, (void)x;
    *count = *count < left ? *count : left;
    memcpy(out, frames + read_at, *count);
    read_at += *count;
    return *count ? FLAC__STREAM_DECODER_READ_STATUS_CONTINUE : FLAC__STREAM_DECODER_READ_STATUS_END_OF_STREAM;
}

static FLAC__StreamDecoderWriteStatus take_samples(const FLAC__StreamDecoder *d, const FLAC__Frame *f,
                                                   const FLAC__int32 *const in[], void *x)
{
    (void)d, (void)x;
    for (size_t i = 0; is_compared && i < f->header.blocksize; i++)
        for (size_t c = 0; c < CHANNELS; c++)
            compared += in[c][i] == interleaved[(f->header.number.sample_number + i) * CHANNELS + c];
    return FLAC__STREAM_DECODER_WRITE_STATUS_CONTINUE;
}

static void fault(const FLAC__StreamDecoder *d, FLAC__StreamDecoderErrorStatus s, void *x)
{
    (void)d, (void)s, (void)x;
    stop("libFLAC decodes not all");
}

static void decode_by(void)
{
    FLAC__StreamDecoder *d = FLAC__stream_decoder_new();
    read_at = 0;
    FLAC__stream_decoder_set_md5_checking(d, false);
    if (FLAC__stream_decoder_init_stream(d, give, NULL, NULL, NULL, NULL, take_samples, NULL, fault, NULL) ||
        !FLAC__stream_decoder_process_until_end_of_stream(d))
        stop("libFLAC decodes nothing");
    FLAC__stream_decoder_delete(d);
}

static __attribute__((noinline)) void decode_theirs(void)
{
    decode_by();
}

/* ---- */

static const struct {
    const char *name;
    void (*work)(void);
} works[] = {
    {"encode_ours", encode_ours},
    {"encode_theirs_each", encode_theirs_each},
    {"encode_theirs_guessed", encode_theirs_guessed},
    {"decode_ours", decode_ours},
    {"find_and_decode_ours", find_and_decode_ours},
    {"decode_next_ours", decode_next_ours},
    {"decode_theirs", decode_theirs},
};
#define WORKS (sizeof works / sizeof *works)

static double nanoseconds(void (*work)(void))
{
    struct timespec begin, end;
    clock_gettime(CLOCK_PROCESS_CPUTIME_ID, &begin);
    work();
    clock_gettime(CLOCK_PROCESS_CPUTIME_ID, &end);
    return (double)(end.tv_sec - begin.tv_sec) * 1e9 + (double)(end.tv_nsec - begin.tv_nsec);
}

/* Both decoders give the samples that were coded. */
static void compare(void)
{
    size_t same = 0;
    uint32_t block;
    is_compared = 1;
    decode_by();
    is_compared = 0;
    for (size_t i = 0, at = ZEMIRAKO_FLAC_DESCRIPTION_SIZE; i < blocks; at = ends[i++]) {
        zemirako_flac_decode_frame(frames + at, ends[i] - at, &description, room, BLOCK * CHANNELS, &block);
        same += !memcmp(room, interleaved + i * BLOCK * CHANNELS, sizeof *room * BLOCK * CHANNELS);
    }
    if (same != blocks || compared != blocks * BLOCK * CHANNELS)
        stop("samples differ");
}

int main(int count, char **words)
{
    double least[WORKS];
    size_t size;
    if (count != 5)
        stop("give: DEPTH LEVEL SECONDS ROUNDS");
    format.depth = (uint8_t)atoi(words[1]);
    format.level = (uint8_t)atoi(words[2]);
    blocks = (size_t)atoi(words[3]) * 44100 / BLOCK + 1;
    size_t most = zemirako_flac_most_bytes(&format, BLOCK), samples = blocks * BLOCK * CHANNELS;
    planar = malloc(sizeof *planar * samples);
    interleaved = malloc(sizeof *interleaved * samples);
    room = malloc(sizeof *room * BLOCK * CHANNELS);
    frames = malloc(ZEMIRAKO_FLAC_DESCRIPTION_SIZE + most * blocks);
    ends = malloc(sizeof *ends * blocks);
    if (!planar || !interleaved || !room || !frames || !ends)
        stop("no memory");
    zemirako_flac_description d = {samples / CHANNELS, BLOCK, BLOCK, 0, 0, format.rate, CHANNELS, format.depth, {0}};
    description = d;
    if (zemirako_flac_write_description(&d, frames, ZEMIRAKO_FLAC_DESCRIPTION_SIZE, &size))
        stop("no description");
    make_sound();
    for (int round = 0; round < atoi(words[4]); round++)
        for (size_t i = 0; i < WORKS; i++) {
            double time = nanoseconds(works[i].work);
            if (round == 0 || time < least[i])
                least[i] = time;
        }
    compare();
    printf("samples %zu, bytes of the frames: %zu, of libFLAC's %zu\n", samples,
           frames_size - ZEMIRAKO_FLAC_DESCRIPTION_SIZE, theirs_size);
    for (size_t i = 0; i < WORKS; i++)
        printf("%s %.2f\n", works[i].name, least[i] / (double)samples);
    return 0;
}
