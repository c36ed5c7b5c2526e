/* What threads give that are made anew for each phase of a picture: the clock of work that is divided evenly, touches no
   memory and waits for nothing else, on so many threads and on one.

       forks THREADS MICROSECONDS..

   Each number is the length of one thread's part of a phase. Prints the seconds of a round of all phases on one thread and on
   all, each the least of five. */
#define _POSIX_C_SOURCE 200809L
#include <pthread.h>
#include <stdint.h>
#include <stdio.h>
#include <stdlib.h>
#include <time.h>

enum { MOST_THREADS = 64, ROUNDS = 60, REPEAT = 5 };

static double now(void)
{
    struct timespec t;
    clock_gettime(CLOCK_MONOTONIC, &t);
    return (double)t.tv_sec + (double)t.tv_nsec * 1e-9;
}

/* Additions that do not wait for each other, and that no compiler leaves out. */
static void *add(void *turns)
{
    volatile uint64_t kept;
    uint64_t here[8] = {1, 2, 3, 4, 5, 6, 7, 8};
    for (uint64_t i = *(const uint64_t *)turns; i > 0; i--)
        for (int k = 0; k < 8; k++)
            here[k] = (here[k] + i) ^ (here[k] >> 7);
    for (int k = 0; k < 8; k++)
        kept = here[k];
    (void)kept;
    return NULL;
}

/* The seconds of a round: each phase on one thread, or divided among threads made for it. */
static double a_round(int phases, const uint64_t *turns, int threads, int divided)
{
    double begin = now();
    for (int r = 0; r < ROUNDS; r++)
        for (int p = 0; p < phases; p++) {
            uint64_t part = turns[p], whole = part * (uint64_t)threads;
            pthread_t others[MOST_THREADS];
            if (!divided) {
                add(&whole);
                continue;
            }
            for (int k = 1; k < threads; k++)
                if (pthread_create(&others[k], NULL, add, &part)) {
                    fputs("forks: no thread\n", stderr);
                    exit(1);
                }
            add(&part);
            for (int k = 1; k < threads; k++)
                pthread_join(others[k], NULL);
        }
    return (now() - begin) / ROUNDS;
}

int main(int count, char **words)
{
    int threads = count > 2 ? atoi(words[1]) : 0, phases = count - 2;
    if (threads < 1 || threads > MOST_THREADS) {
        fputs("usage: forks THREADS MICROSECONDS..\n", stderr);
        return 1;
    }
    uint64_t million = 1000000, *turns = malloc((size_t)phases * sizeof *turns);
    if (!turns)
        return 1;
    double least = 1e9, one = 1e9, all = 1e9;
    for (int i = 0; i < 20; i++) {
        double begin = now();
        add(&million);
        double took = now() - begin;
        least = took < least ? took : least;
    }
    for (int p = 0; p < phases; p++)
        turns[p] = (uint64_t)(atof(words[p + 2]) / least);
    for (int i = 0; i < REPEAT; i++) {
        double alone = a_round(phases, turns, threads, 0), shared = a_round(phases, turns, threads, 1);
        one = alone < one ? alone : one;
        all = shared < all ? shared : all;
    }
    printf("%.9f %.9f\n", one, all);
    free(turns);
    return 0;
}
