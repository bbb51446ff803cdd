/* What plain C takes for deltas of pictures: deltas HOW BYTES ROUNDS. HOW is add (a delta added to the last picture, into a new
   one), less (a picture less the last one, into a new one) or copy (memcpy into a new one). With no round it only makes the
   buffers. */
#include <stdint.h>
#include <stdio.h>
#include <stdlib.h>
#include <string.h>

__attribute__((noinline)) static void add(uint8_t *to, const uint8_t *last, const uint8_t *delta, size_t size)
{
    for (size_t i = 0; i < size; i++)
        to[i] = (uint8_t)(last[i] + delta[i]);
}

__attribute__((noinline)) static void less(uint8_t *to, const uint8_t *last, const uint8_t *picture, size_t size)
{
    for (size_t i = 0; i < size; i++)
        to[i] = (uint8_t)(picture[i] - last[i]);
}

__attribute__((noinline)) static void copy(uint8_t *to, const uint8_t *last, const uint8_t *picture, size_t size)
{
    (void)last;
    memcpy(to, picture, size);
}

int main(int count, char **words)
{
    if (count != 4)
        return 2;
    void (*work)(uint8_t *, const uint8_t *, const uint8_t *, size_t) =
        !strcmp(words[1], "add") ? add : !strcmp(words[1], "less") ? less : copy;
    size_t size = strtoull(words[2], NULL, 10);
    unsigned long rounds = strtoul(words[3], NULL, 10);
    uint8_t *last = malloc(size), *other = malloc(size);
    if (!last || !other)
        return 6;
    memset(last, 0x5A, size);
    memset(other, 0x5A, size);
    unsigned long long sum = 0;
    for (unsigned long i = 0; i < rounds; i++) {
        uint8_t *to = malloc(size);
        if (!to)
            return 6;
        work(to, last, other, size);
        free(last);
        last = to;
        sum += size;
    }
    printf("%llu\n", sum + last[0] - last[0]);
    return 0;
}
