/* What both programs of the benchmark need: whole files, and the best time of a run. */

#ifndef MEASURE_H
#define MEASURE_H

#include <stdint.h>
#include <stdio.h>
#include <stdlib.h>
#include <time.h>

#define MOST_BYTES 18440 /* of the longest sheet */
#define BATCHES 1000
#define LEAST_BATCH_NS 1000000 /* so that reading the clock does not count */

typedef struct {
    uint8_t bytes[MOST_BYTES];
    uint64_t length;
} File;

/* Runs what is measured so many times. */
typedef void (*Run)(void *context, uint64_t repetitions);

static void read_file(const char *path, File *file)
{
    FILE *stream = fopen(path, "rb");
    if (stream == NULL) {
        perror(path);
        exit(2);
    }
    file->length = fread(file->bytes, 1, MOST_BYTES, stream);
    fclose(stream);
}

static uint64_t now_ns(void)
{
    struct timespec now;
    clock_gettime(CLOCK_MONOTONIC, &now);
    return (uint64_t)now.tv_sec * 1000000000 + (uint64_t)now.tv_nsec;
}

static uint64_t batch_ns(Run run, void *context, uint64_t repetitions)
{
    uint64_t start = now_ns();
    run(context, repetitions);
    return now_ns() - start;
}

/* The nanoseconds of one repetition, in the best of many batches: short ones, as other programs disturb long ones. */
static double best_ns(Run run, void *context)
{
    uint64_t repetitions = 1;
    while (batch_ns(run, context, repetitions) < LEAST_BATCH_NS)
        repetitions *= 2;
    uint64_t best = UINT64_MAX;
    for (int batch = 0; batch < BATCHES; batch++) {
        uint64_t ns = batch_ns(run, context, repetitions);
        if (ns < best)
            best = ns;
    }
    return (double)best / (double)repetitions;
}

#endif
