/*
 * Times the decoding of a word of 128 bytes with 96 bytes of data: carrier_decode beside libfec's decode_rs_char, with
 * the same data, the same number of errors and the same places of them. Each answer is looked at.
 */
#include "independent.h"
#include "settings_carrier.h"

#include <fec.h>
#include <stdio.h>
#include <stdlib.h>
#include <string.h>
#include <time.h>

enum { N = 128, K = 96, WORDS = 16, ROUNDS = 101 };

static uint64_t state = 0x7a11e5;

static uint64_t next_random(void)
{
    uint64_t z = state += 0x9e3779b97f4a7c15;
    z = (z ^ z >> 30) * 0xbf58476d1ce4e5b9;
    z = (z ^ z >> 27) * 0x94d049bb133111eb;
    return z ^ z >> 31;
}

struct sample {
    uint16_t message[K], received[N];
    uint8_t data[N], damaged[N];
};

/* A message, its word in either code, and the same damage to both. */
static void make_sample(struct sample *s, void *fec, const struct field *f, int errors)
{
    for (int i = 0; i < K; i++)
        s->message[i] = s->data[i] = (uint8_t)next_random();
    encode_rs_char(fec, s->data, s->data + K);
    memcpy(s->damaged, s->data, N);
    for (int j = 0; j < N; j++)
        s->received[j] = (uint16_t)value_at(f, s->message, K, (uint32_t)j);
    uint8_t hit[N] = {0};
    while (errors > 0) {
        size_t j = next_random() % N;
        uint8_t change = (uint8_t)(1 + next_random() % 255);
        if (hit[j])
            continue;
        hit[j] = 1;
        s->damaged[j] ^= change;
        s->received[j] ^= change;
        errors--;
    }
}

/* Microseconds of processor time, so that other programs on the machine count for little. */
static double now(void)
{
    struct timespec t;
    clock_gettime(CLOCK_PROCESS_CPUTIME_ID, &t);
    return (double)t.tv_sec * 1e6 + (double)t.tv_nsec / 1e3;
}

static int by_size(const void *a, const void *b)
{
    double x = *(const double *)a, y = *(const double *)b;
    return (x > y) - (x < y);
}

static void fail(const char *who)
{
    printf("%s gives a wrong answer\n", who);
    exit(EXIT_FAILURE);
}

/* Microseconds for a word of ours. */
static double time_ours(const struct sample *samples, int errors)
{
    static const uint8_t marks[N];
    uint16_t messages[WORDS][K] = {{0}};
    struct carrier_tally tallies[WORDS];
    uint32_t answers[WORDS];
    double start = now();
    for (int i = 0; i < WORDS; i++)
        answers[i] = carrier_decode(2, 285, N, K, samples[i].received, N, marks, N, messages[i], K, &tallies[i]);
    double took = now() - start;
    for (int i = 0; i < WORDS; i++)
        if (answers[i] != 0 || tallies[i].count != (size_t)errors ||
            memcmp(messages[i], samples[i].message, sizeof messages[i]) != 0)
            fail("carrier_decode");
    return took / WORDS;
}

/* Microseconds for a word of libfec's; the copies that it corrects in place are made before. */
static double time_fec(const struct sample *samples, int errors, void *fec)
{
    uint8_t words[WORDS][N];
    int counts[WORDS];
    for (int i = 0; i < WORDS; i++)
        memcpy(words[i], samples[i].damaged, N);
    double start = now();
    for (int i = 0; i < WORDS; i++)
        counts[i] = decode_rs_char(fec, words[i], NULL, 0);
    double took = now() - start;
    for (int i = 0; i < WORDS; i++)
        if (counts[i] != errors || memcmp(words[i], samples[i].data, N) != 0)
            fail("decode_rs_char");
    return took / WORDS;
}

int main(void)
{
    static const int ERRORS[] = {0, 1, 8, 16};
    static struct sample samples[WORDS];
    struct field f;
    field_named(2, 285, &f);
    void *fec = init_rs_char(8, 0x11d, 0, 1, N - K, 255 - N);
    printf("| errors | ours (µs) | libfec (µs) | ratio |\n|---|---|---|---|\n");
    for (int e = 0; e < 4; e++) {
        double ours[ROUNDS], theirs[ROUNDS];
        for (int round = 0; round < ROUNDS; round++) {
            for (int i = 0; i < WORDS; i++)
                make_sample(&samples[i], fec, &f, ERRORS[e]);
            ours[round] = time_ours(samples, ERRORS[e]);
            theirs[round] = time_fec(samples, ERRORS[e], fec);
        }
        qsort(ours, ROUNDS, sizeof *ours, by_size);
        qsort(theirs, ROUNDS, sizeof *theirs, by_size);
        double mine = ours[ROUNDS / 2], fecs = theirs[ROUNDS / 2];
        printf("| %d | %.0f | %.2f | %.0f |\n", ERRORS[e], mine, fecs, mine / fecs);
    }
    free_rs_char(fec);
    return EXIT_SUCCESS;
}
