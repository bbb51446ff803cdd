/* Passages through a mutex of the C library, to compare times with lock_speed: mutex alone|one|two PASSES. The C
   library leaves its atomic steps out while a process has never had a second thread, which is `alone`. */
#include <pthread.h>
#include <stdint.h>
#include <stdio.h>
#include <stdlib.h>
#include <string.h>
#include <time.h>

static pthread_mutex_t lock = PTHREAD_MUTEX_INITIALIZER;
static pthread_barrier_t start;
static uint64_t count;
static uint32_t passes;

static void make_passes(void) {
    for (uint32_t i = 0; i < passes; i++) {
        pthread_mutex_lock(&lock);
        count++;
        pthread_mutex_unlock(&lock);
    }
}

static void *with_another(void *unused) {
    pthread_barrier_wait(&start);
    make_passes();
    return unused;
}

static void *nothing(void *unused) {
    return unused;
}

static uint64_t now(void) {
    struct timespec t;
    clock_gettime(CLOCK_MONOTONIC, &t);
    return (uint64_t)t.tv_sec * 1000000000u + (uint64_t)t.tv_nsec;
}

int main(int argc, char **argv) {
    pthread_t other;
    if (argc != 3) return 2;
    passes = (uint32_t)strtoul(argv[2], NULL, 10);
    if (strcmp(argv[1], "one") == 0) {
        if (pthread_create(&other, NULL, nothing, NULL) != 0) return 6;
        pthread_join(other, NULL);
    }
    uint64_t begin = now();
    if (strcmp(argv[1], "two") == 0) {
        pthread_barrier_init(&start, NULL, 2);
        if (pthread_create(&other, NULL, with_another, NULL) != 0) return 6;
        with_another(NULL);
        pthread_join(other, NULL);
    } else {
        make_passes();
    }
    uint64_t took = now() - begin;
    printf("%llu\n", (unsigned long long)count);
    fprintf(stderr, "%llu\n", (unsigned long long)took);
    return 0;
}
