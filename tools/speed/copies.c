/* Plain loops that copy audio data of two channels from one format to another, to compare instruction
   counts with copy_speed: copies FROM TO FRAMES ROUNDS, with formats u8, s16, s32 and the same with
   -planar. A planar copy goes plane after plane. */
#include <stdint.h>
#include <stdio.h>
#include <stdlib.h>
#include <string.h>

enum { CHANNELS = 2 };

static size_t size_of(const char *format) {
    return format[0] == 'u' ? 1 : format[1] == '1' ? 2 : 4;
}

static int is_planar(const char *format) { return strchr(format, '-') != NULL; }

#define READ_1(at) ((int32_t)((uint32_t)(uint8_t)((at)[0] ^ 0x80) << 24))
#define READ_2(at) ((int32_t)((uint32_t)(at)[0] << 16 | (uint32_t)(at)[1] << 24))
#define READ_4(at) \
    ((int32_t)((uint32_t)(at)[0] | (uint32_t)(at)[1] << 8 | (uint32_t)(at)[2] << 16 | (uint32_t)(at)[3] << 24))
#define WRITE_1(at, v) ((at)[0] = (uint8_t)((uint32_t)(v) >> 24) ^ 0x80)
#define WRITE_2(at, v) ((at)[0] = (uint8_t)((uint32_t)(v) >> 16), (at)[1] = (uint8_t)((uint32_t)(v) >> 24))
#define WRITE_4(at, v)                                                                        \
    ((at)[0] = (uint8_t)(v), (at)[1] = (uint8_t)((uint32_t)(v) >> 8),                         \
     (at)[2] = (uint8_t)((uint32_t)(v) >> 16), (at)[3] = (uint8_t)((uint32_t)(v) >> 24))

/* One channel, or all channels of each frame: `frame` and `channel` are how far samples stand apart. */
#define LOOP(S, D)                                                                            \
    static void copy_##S##_##D(const uint8_t *from, size_t frame, size_t channel, uint8_t *to, \
                               size_t frames, size_t channels) {                              \
        for (size_t k = 0; k < frames; k++)                                                   \
            for (size_t c = 0; c < channels; c++) {                                           \
                const uint8_t *at = from + S * (k * frame + c * channel);                     \
                int32_t v = READ_##S(at);                                                     \
                WRITE_##D(to, v);                                                             \
                to += D;                                                                      \
            }                                                                                 \
    }

LOOP(1, 1) LOOP(1, 2) LOOP(1, 4)
LOOP(2, 1) LOOP(2, 2) LOOP(2, 4)
LOOP(4, 1) LOOP(4, 2) LOOP(4, 4)

typedef void loop(const uint8_t *, size_t, size_t, uint8_t *, size_t, size_t);

static loop *loop_of(size_t s, size_t d) {
    static loop *const loops[3][3] = {
        {copy_1_1, copy_1_2, copy_1_4}, {copy_2_1, copy_2_2, copy_2_4}, {copy_4_1, copy_4_2, copy_4_4}};
    return loops[s / 2][d / 2];
}

int main(int count, char **words) {
    if (count != 5) return 2;
    size_t s = size_of(words[1]), d = size_of(words[2]);
    size_t frames = (size_t)atol(words[3]), rounds = (size_t)atol(words[4]);
    size_t frame = is_planar(words[1]) ? 1 : CHANNELS, channel = is_planar(words[1]) ? frames : 1;
    uint8_t *from = malloc(frames * 8), *to = malloc(frames * 8);
    if (!from || !to) return 1;
    memset(from, 0x5A, frames * 8);
    memset(to, 0, frames * 8);
    loop *copy = loop_of(s, d);
    for (size_t i = 0; i < rounds; i++)
        if (is_planar(words[2]))
            for (size_t c = 0; c < CHANNELS; c++) copy(from + s * c * channel, frame, channel, to, frames, 1);
        else
            copy(from, frame, channel, to, frames, CHANNELS);
    printf("%u\n", to[0]);
    return 0;
}
