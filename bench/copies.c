/*
 * Counts the large copies in one call of the proved entry point, and times the call beside these copies by themselves.
 * It is linked with --wrap=memcpy, so that they come by here.
 *
 * usage: copies IMAGE LINE [once], the names of two files; prints four cells of a table, or makes just one call
 */
#define _POSIX_C_SOURCE 199309L
#include "../include/fellunqa.h"
#include <stdio.h>
#include <stdlib.h>
#include <time.h>

/* Copies of at least so many bytes are counted: registers are larger, and all else is smaller. */
#define LARGE 4096
#define MOST 64
#define ROUNDS 101
#define CALLS 20

void *__real_memcpy(void *to, const void *from, size_t length);

static struct {
    uintptr_t to, from;
    size_t length;
} copies[MOST];
static size_t count, bytes;
static int noting;
static uint8_t image[FELLUNQA_IMAGE_MAX], line[FELLUNQA_LINE_MAX], area[FELLUNQA_AREA_MAX];
static size_t image_len, line_len;
/* stands for the stack, on which the large copies were made */
static uint8_t stage[FELLUNQA_STACK_MAX];

void *__wrap_memcpy(void *to, const void *from, size_t length) {
    if (noting && length >= LARGE && count < MOST) {
        copies[count].to = (uintptr_t)to;
        copies[count].from = (uintptr_t)from;
        copies[count].length = length;
        count++;
        bytes += length;
    }
    return __real_memcpy(to, from, length);
}

static size_t read_file(const char *name, uint8_t *to, size_t room) {
    FILE *file = fopen(name, "rb");
    if (file == NULL)
        exit(2);
    size_t length = fread(to, 1, room, file);
    fclose(file);
    return length;
}

static void call(void) {
    fellunqa_apply(image, image_len, line, line_len, area, sizeof area);
}

/* Turns the addresses into places on the stage. */
static void shift(void) {
    uintptr_t lowest = UINTPTR_MAX;
    for (size_t at = 0; at < count; at++) {
        lowest = copies[at].to < lowest ? copies[at].to : lowest;
        lowest = copies[at].from < lowest ? copies[at].from : lowest;
    }
    for (size_t at = 0; at < count; at++) {
        copies[at].to -= lowest;
        copies[at].from -= lowest;
        if (copies[at].to + copies[at].length > sizeof stage || copies[at].from + copies[at].length > sizeof stage)
            exit(3);
    }
}

static void replay(void) {
    for (size_t at = 0; at < count; at++)
        __real_memcpy(stage + copies[at].to, stage + copies[at].from, copies[at].length);
}

/* Microseconds, as a mean of some calls. */
static double sample(void (*what)(void)) {
    struct timespec start, end;
    clock_gettime(CLOCK_MONOTONIC, &start);
    for (int at = 0; at < CALLS; at++)
        what();
    clock_gettime(CLOCK_MONOTONIC, &end);
    return ((end.tv_sec - start.tv_sec) * 1e6 + (end.tv_nsec - start.tv_nsec) / 1e3) / CALLS;
}

static int compare(const void *left, const void *right) {
    double a = *(const double *)left, b = *(const double *)right;
    return (a > b) - (a < b);
}

int main(int number, char **names) {
    static double times[ROUNDS], shares[ROUNDS];
    if (number < 3)
        return 2;
    image_len = read_file(names[1], image, sizeof image);
    line_len = read_file(names[2], line, sizeof line);
    noting = 1;
    call();
    noting = 0;
    if (number > 3)
        return 0;
    shift();
    for (int round = 0; round < ROUNDS; round++) {
        double whole = sample(call);
        times[round] = sample(replay);
        shares[round] = times[round] / whole * 100;
    }
    qsort(times, ROUNDS, sizeof *times, compare);
    qsort(shares, ROUNDS, sizeof *shares, compare);
    printf("%zu | %zu | %.2f | %.0f %%", count, bytes, times[ROUNDS / 2], shares[ROUNDS / 2]);
    return 0;
}
