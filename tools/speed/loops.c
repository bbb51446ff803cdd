/* Plain loops that do what the coders of linear PCM and G.711 do, to compare instruction counts with coder_speed:
   loops CODEC decode|encode|make MIB */
#include <stdint.h>
#include <stdio.h>
#include <stdlib.h>
#include <string.h>

static int16_t ulaw_decode(uint8_t code) {
    uint8_t bits = (uint8_t)~code;
    int magnitude = ((((bits & 15) << 3) + 132) << ((bits >> 4) & 7)) - 132;
    return (int16_t)(bits & 0x80 ? -magnitude : magnitude);
}

static uint8_t ulaw_encode(int16_t value) {
    int negative = value < 0;
    int magnitude = negative ? -(int)value : value;
    if (magnitude > 32635) magnitude = 32635;
    magnitude += 132;
    int exponent = 31 - __builtin_clz((unsigned)magnitude) - 7;
    int mantissa = (magnitude >> (exponent + 3)) & 15;
    return (uint8_t)~((negative << 7) | (exponent << 4) | mantissa);
}

static int16_t alaw_decode(uint8_t code) {
    uint8_t bits = code ^ 0x55;
    int exponent = (bits >> 4) & 7;
    int magnitude = ((bits & 15) << 4) + 8;
    if (exponent) magnitude = (magnitude + 256) << (exponent - 1);
    return (int16_t)(bits & 0x80 ? magnitude : -magnitude);
}

static uint8_t alaw_encode(int16_t value) {
    int positive = value >= 0;
    int magnitude = positive ? value : -(int)value - 1;
    int exponent = magnitude < 256 ? 0 : 31 - __builtin_clz((unsigned)magnitude) - 7;
    int mantissa = (magnitude >> (exponent ? exponent + 3 : 4)) & 15;
    return (uint8_t)(((positive << 7) | (exponent << 4) | mantissa) ^ 0x55);
}

static int decode(const char *codec, const uint8_t *in, size_t size, uint8_t *out) {
    if (!strcmp(codec, "ulaw"))
        for (size_t i = 0; i < size; i++) {
            int16_t v = ulaw_decode(in[i]);
            out[2 * i] = (uint8_t)v;
            out[2 * i + 1] = (uint8_t)(v >> 8);
        }
    else if (!strcmp(codec, "alaw"))
        for (size_t i = 0; i < size; i++) {
            int16_t v = alaw_decode(in[i]);
            out[2 * i] = (uint8_t)v;
            out[2 * i + 1] = (uint8_t)(v >> 8);
        }
    else
        for (size_t i = 0; i + 1 < size; i += 2) {
            int16_t v = (int16_t)(in[i] | in[i + 1] << 8);
            out[i] = (uint8_t)v;
            out[i + 1] = (uint8_t)(v >> 8);
        }
    return 1;
}

static int encode(const char *codec, const uint8_t *in, size_t size, uint8_t *out) {
    if (!strcmp(codec, "ulaw"))
        for (size_t i = 0; i + 1 < size; i += 2) out[i / 2] = ulaw_encode((int16_t)(in[i] | in[i + 1] << 8));
    else if (!strcmp(codec, "alaw"))
        for (size_t i = 0; i + 1 < size; i += 2) out[i / 2] = alaw_encode((int16_t)(in[i] | in[i + 1] << 8));
    else
        return decode(codec, in, size, out);
    return 1;
}

int main(int argc, char **argv) {
    if (argc != 4) return 2;
    size_t size = (size_t)atoi(argv[3]) << 20;
    uint8_t *in = malloc(size), *out = malloc(2 * size);
    if (!in || !out) return 6;
    memset(in, 0x5A, size);
    if (!strcmp(argv[2], "make")) { printf("%zu\n", size + in[size / 2]); return 0; }
    int done = !strcmp(argv[2], "decode") ? decode(argv[1], in, size, out) : encode(argv[1], in, size, out);
    printf("%d %d\n", done, out[size / 2]);
    return 0;
}
