/* Turns a WAV file of 8, 16, 24 or 32 bits and 1 to 8 channels into a native FLAC file, and back:
 *     wav_flac encode IN.wav OUT.flac
 *     wav_flac decode IN.flac OUT.wav
 */
#include "zemirako.h"

#include <stdio.h>
#include <stdlib.h>
#include <string.h>

#define BLOCK 4096 /* frames of sound in a block */
#define LEVEL 5

static void stop(const char *why)
{
    fprintf(stderr, "wav_flac: %s\n", why);
    exit(1);
}

static void *memory(size_t size)
{
    void *block = malloc(size ? size : 1);
    if (!block)
        stop("no memory");
    return block;
}

static uint32_t little(const uint8_t *bytes, int count)
{
    uint32_t number = 0;
    while (count-- > 0)
        number = number << 8 | bytes[count];
    return number;
}

static void put_little(uint8_t *bytes, int count, uint32_t number)
{
    for (int i = 0; i < count; i++, number >>= 8)
        bytes[i] = (uint8_t)number;
}

static void write_all(FILE *out, const void *bytes, size_t count)
{
    if (fwrite(bytes, 1, count, out) != count)
        stop("cannot write");
}

static int has_depth(uint32_t depth)
{
    return depth == 8 || depth == 16 || depth == 24 || depth == 32;
}

/* Samples of one byte have their middle at 128; the others are in two's complement, the low byte first. */
static int32_t wav_sample(const uint8_t *bytes, int size)
{
    if (size == 1)
        return bytes[0] - 128;
    uint32_t up = little(bytes, size) << (32 - 8 * size);
    return (int32_t)up / (1 << (32 - 8 * size));
}

static void put_wav_sample(uint8_t *bytes, int size, int32_t sample)
{
    put_little(bytes, size, (uint32_t)sample + (size == 1 ? 128 : 0));
}

/* The frames' sizes and the samples' sum are left unknown. */
static void write_description(FILE *out, const zemirako_flac_format *f, uint64_t total)
{
    zemirako_flac_description d = {total, BLOCK, BLOCK, 0, 0, f->rate, f->channels, f->depth, {0}};
    uint8_t bytes[ZEMIRAKO_FLAC_DESCRIPTION_SIZE];
    size_t size;
    if (zemirako_flac_write_description(&d, bytes, sizeof bytes, &size) != ZEMIRAKO_DONE)
        stop("the sound cannot be described");
    write_all(out, bytes, size);
}

static void encode(const uint8_t *wav, size_t count, FILE *out)
{
    const uint8_t *data = NULL;
    size_t length = 0;
    uint32_t tag = 0, rate = 0, channels = 0, depth = 0;
    if (count < 12 || memcmp(wav, "RIFF", 4) || memcmp(wav + 8, "WAVE", 4))
        stop("not a WAV file");
    for (size_t at = 12; at + 8 <= count;) {
        size_t size = little(wav + at + 4, 4);
        const uint8_t *chunk = wav + at + 8;
        if (size > count - at - 8)
            size = count - at - 8;
        if (!memcmp(wav + at, "fmt ", 4) && size >= 16) {
            tag = little(chunk, 2);
            if (tag == 0xfffe && size >= 26) /* the tag stands behind the other fields */
                tag = little(chunk + 24, 2);
            channels = little(chunk + 2, 2);
            rate = little(chunk + 4, 4);
            depth = little(chunk + 14, 2);
        } else if (!memcmp(wav + at, "data", 4)) {
            data = chunk;
            length = size;
        }
        at += 8 + size + size % 2;
    }
    if (!data || tag != 1 || !has_depth(depth) || channels < 1 || channels > 8)
        stop("not PCM of 8, 16, 24 or 32 bits and 1 to 8 channels");

    zemirako_flac_format f = {rate, (uint8_t)channels, (uint8_t)depth, LEVEL};
    size_t size = f.depth / 8, frame = size * f.channels, total = length / frame;
    size_t room = zemirako_flac_most_bytes(&f, BLOCK);
    int32_t *samples = memory(sizeof *samples * BLOCK * f.channels);
    uint8_t *bytes = memory(room);
    write_description(out, &f, total);
    for (size_t first = 0, number = 0; first < total; first += BLOCK, number++) {
        uint32_t block = total - first < BLOCK ? (uint32_t)(total - first) : BLOCK;
        for (size_t i = 0; i < block; i++)
            for (size_t c = 0; c < f.channels; c++)
                samples[c * block + i] = wav_sample(data + (first + i) * frame + c * size, (int)size);
        size_t written = 0;
        if (zemirako_flac_encode_block(&f, block, (uint32_t)number, samples, (size_t)block * f.channels, bytes, room,
                                       &written) != ZEMIRAKO_DONE)
            stop("a block was not coded");
        write_all(out, bytes, written);
    }
    free(bytes);
    free(samples);
}

static void write_wav_head(FILE *out, const zemirako_flac_description *d, uint32_t length)
{
    uint8_t head[44] = "RIFF\0\0\0\0WAVEfmt \x10\0\0\0\x01\0";
    uint32_t frame = d->channels * (d->depth / 8);
    put_little(head + 4, 4, 36 + length + length % 2);
    put_little(head + 22, 2, d->channels);
    put_little(head + 24, 4, d->rate);
    put_little(head + 28, 4, d->rate * frame);
    put_little(head + 32, 2, frame);
    put_little(head + 34, 2, d->depth);
    memcpy(head + 36, "data", 4);
    put_little(head + 40, 4, length);
    write_all(out, head, sizeof head);
}

static void decode(const uint8_t *flac, size_t count, FILE *out)
{
    zemirako_flac_description d;
    if (zemirako_flac_read_description(flac, count, &d) != ZEMIRAKO_DONE)
        stop("not a FLAC file");
    if (!has_depth(d.depth))
        stop("not 8, 16, 24 or 32 bits");
    size_t at = 4; /* behind the mark: blocks of metadata, the last of which is marked */
    for (int last = 0; !last; at += 4 + (size_t)(flac[at + 1] << 16 | flac[at + 2] << 8 | flac[at + 3])) {
        if (count < 4 || at > count - 4)
            stop("the file ends early");
        last = flac[at] & 0x80;
    }
    if (at > count)
        stop("the file ends early");

    size_t size = d.depth / 8, room = (size_t)65535 * d.channels;
    uint64_t end;
    uint32_t block, length = 0;
    int32_t *samples = memory(sizeof *samples * room);
    uint8_t *bytes = memory(size * room);
    write_wav_head(out, &d, 0);
    for (; at < count; at += end) {
        if (zemirako_flac_frame_end(flac + at, count - at, &d, &end) != ZEMIRAKO_DONE ||
            zemirako_flac_decode_frame(flac + at, end, &d, samples, room, &block) != ZEMIRAKO_DONE)
            stop("a frame was not decoded");
        for (size_t i = 0; i < (size_t)block * d.channels; i++)
            put_wav_sample(bytes + i * size, (int)size, samples[i]);
        write_all(out, bytes, (size_t)block * d.channels * size);
        length += block * d.channels * (uint32_t)size;
    }
    write_all(out, "", length % 2);
    rewind(out);
    write_wav_head(out, &d, length);
    free(bytes);
    free(samples);
}

int main(int count, char **words)
{
    FILE *in, *out;
    if (count != 4 || (strcmp(words[1], "encode") && strcmp(words[1], "decode")))
        stop("give: encode IN.wav OUT.flac, or: decode IN.flac OUT.wav");
    if (!(in = fopen(words[2], "rb")) || fseek(in, 0, SEEK_END))
        stop("cannot read");
    long size = ftell(in);
    if (size < 0)
        stop("cannot read");
    uint8_t *bytes = memory((size_t)size);
    rewind(in);
    if (fread(bytes, 1, (size_t)size, in) != (size_t)size || fclose(in))
        stop("cannot read");
    if (!(out = fopen(words[3], "wb")))
        stop("cannot write");
    if (words[1][0] == 'e')
        encode(bytes, (size_t)size, out);
    else
        decode(bytes, (size_t)size, out);
    free(bytes);
    if (fclose(out))
        stop("cannot write");
    return 0;
}
