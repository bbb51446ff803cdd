/* memcpy of as many bytes as a copy of a frame needs: frames BYTES ROUNDS. With no round it only makes the buffers. */
#include <stdio.h>
#include <stdlib.h>
#include <string.h>

int main(int count, char **words)
{
    if (count != 3)
        return 2;
    size_t size = strtoull(words[1], NULL, 10);
    unsigned long rounds = strtoul(words[2], NULL, 10);
    unsigned char *from = malloc(size), *to = malloc(size);
    if (!from || !to)
        return 6;
    memset(from, 0x5A, size);
    memset(to, 0, size);
    unsigned long long sum = 0;
    for (unsigned long i = 0; i < rounds; i++) {
        memcpy(to, from, size);
        __asm__ volatile("" : : "r"(to) : "memory");
        sum += size;
    }
    printf("%llu\n", sum);
    return 0;
}
