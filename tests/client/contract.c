/*
 * contract: holds the C entry point to what fellunqa.h says of it. Image, line and area stand in blocks of just their
 * size, so that valgrind sees any access beside them. It names each check that fails; the last line is 'N passed, M failed'.
 */
#define _POSIX_C_SOURCE 200809L

#include <pthread.h>
#include <stdio.h>
#include <stdlib.h>
#include <string.h>

#include <fellunqa.h>

#include "blocks.h"

struct tally {
    int passed, failed;
};

static void check(struct tally *tally, int holds, const char *what)
{
    if (holds) {
        tally->passed++;
        return;
    }
    tally->failed++;
    printf("failed: %s\n", what);
}

/* ---- the checks */

static void check_fresh(struct tally *tally)
{
    struct block fresh = zeros(FELLUNQA_IMAGE_MIN);
    struct block shorter = zeros(FELLUNQA_IMAGE_MIN - 1), longer = zeros(FELLUNQA_IMAGE_MIN + 1);
    check(tally, accepts(fresh, "clock 0\n", FELLUNQA_AREA_MAX, 0, fresh), "zero bytes are a fresh register");
    check(tally, refuses_text(shorter, "clock 0\n", FELLUNQA_AREA_MAX, 14), "a zero byte less is no image");
    check(tally, refuses_text(longer, "clock 0\n", FELLUNQA_AREA_MAX, 14), "a zero byte more is no image");
    free(fresh.at);
    free(shorter.at);
    free(longer.at);
}

/* A new client: no bytes do what 26 zero bytes do, whether the pointer is NULL or not. */
static void check_new_client(struct tally *tally)
{
    struct block none = zeros(0), fresh = zeros(FELLUNQA_IMAGE_MIN), enrolled = copy(fresh.at, fresh.length);
    play(&enrolled, "enrol 9 0\n");
    check(tally, accepts(none, "clock 0\n", FELLUNQA_IMAGE_MIN + 2, 0, fresh), "no image is a new client");
    check(tally, accepts(none, "enrol 9 0\n", enrolled.length + 2, 0, enrolled), "no image, a line that changes it");
    check(tally, accepts((struct block){fresh.at, 0}, "enrol 9 0\n", FELLUNQA_AREA_MAX, 0, enrolled),
          "an image of length 0 somewhere");
    check(tally, refuses_text(none, "clock 0\n", FELLUNQA_IMAGE_MIN + 1, 16), "a new client has 26 bytes");
    check(tally, refuses_text(none, "clock 0\n", 0, 16), "a new client has no room in no area");
    check(tally, refuses_text(none, "check 0 0 9 0 0\n", 0, 3), "a new client has no session");
    check(tally, refuses_text(none, "enrol 9", 0, 1), "a new client and no line");
    int holds = 1;
    for (size_t length = 1; length <= 64; length++) {
        struct block some = zeros(length);
        if (length != FELLUNQA_IMAGE_MIN)
            holds &= refuses_text(some, "clock 0\n", FELLUNQA_AREA_MAX, 14);
        free(some.at);
    }
    check(tally, holds, "1 to 64 zero bytes, but for 26 of them, get 14");
    free(fresh.at);
    free(enrolled.at);
}

static void check_refusals(struct tally *tally, struct block small, struct block large)
{
    static const struct {
        int constant, number;
        const char *line;
    } cases[] = {
        {FELLUNQA_MALFORMED, 1, "enrol 3\n"},
        {FELLUNQA_RANGE, 2, "enrol 64 0\n"},
        {FELLUNQA_MISSING, 3, "grant 3 4\n"},
        {FELLUNQA_UNCHANGED, 4, "enrol 3 0\n"},
        {FELLUNQA_DOMAIN, 5, "appoint 4 1\n"},
        {FELLUNQA_FORBIDDEN, 6, "revoke 4 0\n"},
        {FELLUNQA_REVOKED, 7, "revoke 3 1\n"},
        {FELLUNQA_EXPIRED, 8, "open 6 3 pass 0 9 0 0\n"},
        {FELLUNQA_CONTEXT, 9, "open 6 3 role 2 9 0 0\n"},
        {FELLUNQA_EXHAUSTED, 10, "hand 3 4 0\n"},
        {FELLUNQA_EXCEEDS, 11, "allow 3 0 128\n"},
        {FELLUNQA_PAST, 13, "clock 99\n"},
    };
    for (size_t i = 0; i < sizeof cases / sizeof *cases; i++)
        check(tally,
              cases[i].constant == cases[i].number &&
                  refuses_text(small, cases[i].line, FELLUNQA_AREA_MAX, cases[i].number),
              cases[i].line);
    static const char full[] = "create 0 pass 0 0 0 0 1 2 1 1 1 1 1 1\n";
    check(tally, FELLUNQA_FULL == 12 && refuses_text(large, full, FELLUNQA_AREA_MAX, 12), "refusal 12");
    struct block damaged = copy(small.at, small.length);
    damaged.at[damaged.length - 6] = 64; /* the open session's user */
    check(tally, FELLUNQA_IMAGE == 14 && refuses_text(damaged, "enrol 9 0\n", FELLUNQA_AREA_MAX, 14), "refusal 14");
    check(tally, FELLUNQA_BROKEN == 15, "refusal 15");
    check(tally, FELLUNQA_ROOM == 16 && refuses_text(small, "enrol 9 0\n", small.length + 2, 16), "refusal 16");
    free(damaged.at);
}

static void check_order(struct tally *tally, struct block small)
{
    struct block damaged = copy(small.at, small.length - 1);
    check(tally, refuses_text(damaged, "enrol 3", 0, 14), "14 comes before 1 and 16");
    check(tally, refuses_text(damaged, "enrol 3 0\n", 0, 14), "14 comes before the call's own and 16");
    check(tally, refuses_text(small, "enrol 3", 0, 1), "1 comes before 16");
    check(tally, refuses_text(small, "enrol 3 0\n", 0, 4), "the call's own comes before 16");
    free(damaged.at);
}

static void check_null(struct tally *tally, struct block small)
{
    const uint8_t *line = (const uint8_t *)"enrol 9 0\n";
    struct block area = new_block(FELLUNQA_AREA_MAX);
    check(tally, fellunqa_apply(NULL, 0, line, 10, NULL, 0) == -16, "no image and no area get 16");
    check(tally, fellunqa_apply(small.at, small.length, NULL, 0, area.at, area.length) == -1, "no line gets 1");
    check(tally, fellunqa_apply(small.at, small.length, line, 10, NULL, 0) == -16, "no area gets 16");
    check(tally, fellunqa_apply(small.at, small.length, NULL, 0, NULL, 0) == -1, "no line and no area get 1");
    check(tally, fellunqa_apply(NULL, 0, NULL, 0, NULL, 0) == -1, "nothing at all gets 1");
    check(tally, untouched(area, 0), "refusals of missing parts touch nothing");
    free(area.at);
}

static void check_images(struct tally *tally, struct block small)
{
    int holds = 1;
    for (size_t length = 1; length < small.length; length++) {
        struct block cut = copy(small.at, length);
        holds &= refuses_text(cut, "enrol 9 0\n", FELLUNQA_AREA_MAX, 14);
        free(cut.at);
    }
    check(tally, holds, "an image cut off anywhere, but not to nothing, gets 14");
    struct block longer = new_block(FELLUNQA_IMAGE_MAX + 1);
    memset(longer.at, 0, longer.length);
    memcpy(longer.at, small.at, small.length);
    check(tally, refuses_text(longer, "enrol 9 0\n", FELLUNQA_AREA_MAX, 14), "bytes after an image get 14");
    free(longer.at);
}

static void check_lines(struct tally *tally, struct block small)
{
    static const char line[] = "enrol 9 0\n";
    int holds = 1;
    for (size_t length = 0; length < sizeof line - 1; length++)
        holds &= refuses(small, line, length, FELLUNQA_AREA_MAX, 1);
    check(tally, holds, "a line cut off anywhere gets 1");
    check(tally, refuses_text(small, "enrol 9 0\nenrol 10 0\n", FELLUNQA_AREA_MAX, 1), "two lines get 1");
    check(tally, refuses_text(small, "enrol 9 0\n\n", FELLUNQA_AREA_MAX, 1), "a second line feed gets 1");
    check(tally, refuses(small, "enrol 9 0\n", 11, FELLUNQA_AREA_MAX, 1), "a zero byte after the line gets 1");
    check(tally, refuses(small, "enrol 9 0\0\n", 11, FELLUNQA_AREA_MAX, 1), "a zero byte in the line gets 1");
    struct block noise = new_block(100000);
    noise.at[noise.length - 1] = '\n';
    check(tally, refuses(small, noise.at, noise.length, FELLUNQA_AREA_MAX, 1), "a long line of any bytes gets 1");
    free(noise.at);
    static const char longest[] =
        "create 4294967295 pass 4294967295 4294967295 4294967295 4294967295 4294967295 4294967295 4294967295 "
        "4294967295 4294967295 4294967295 4294967295 4294967295\n";
    check(tally, sizeof longest - 1 == FELLUNQA_LINE_MAX && refuses_text(small, longest, FELLUNQA_AREA_MAX, 2),
          "the longest request is read");
}

/* Every size of the area up to some bytes more than needed. */
static int fits_exactly(struct block image, const char *text, int64_t value, struct block after, size_t from)
{
    int holds = 1;
    for (size_t room = from; room < after.length + 12; room++)
        holds &= room < after.length + 2 ? refuses_text(image, text, room, 16) : accepts(image, text, room, value, after);
    return holds;
}

static void check_room(struct tally *tally, struct block small, struct block large)
{
    struct block after = copy(small.at, small.length);
    play(&after, "enrol 9 0\n");
    check(tally, after.length == small.length + 1, "a user takes one byte");
    check(tally, fits_exactly(small, "enrol 9 0\n", 0, after, 0), "the area fits from the new image and 2 bytes on");
    check(tally, fits_exactly(small, "check 5 4 9 0 0\n", 1, small, 0),
          "a call that changes nothing needs the same area");
    check(tally, accepts(small, "enrol 9 0\n", FELLUNQA_AREA_MAX + 1000, 0, after),
          "a larger area is untouched after the image");
    check(tally, large.length == 13400, "the longest image has 13,400 bytes");
    check(tally, fits_exactly(large, "same 0 255\n", 1, large, large.length), "the longest image fits exactly");
    free(after.at);
}

static void check_values(struct tally *tally, struct block small, struct block large)
{
    struct block all = copy(large.at, large.length), half = copy(small.at, small.length);
    check(tally, play(&all, "allow 0 0 4294967295\n") == 4294967295, "the largest value is positive");
    check(tally, play(&all, "revoke 1 255\n") == -6, "revoke asks the whole lineage");
    check(tally, play(&all, "revoke 0 0\n") == 256, "revoke marks the whole tree");
    check(tally, play(&half, "enrol 9 0\n") == 0 && play(&half, "enrol 9 0\n") == -4,
          "the new image is the next register");
    check(tally, accepts(small, "check 5 4 9 0 0\n", FELLUNQA_AREA_MAX, 1, small), "a check leaves the register");
    check(tally, play(&half, "dismiss 3 1\n") == 0 && play(&half, "check 5 4 9 0 0\n") == 0,
          "a check's value may be 0");
    free(all.at);
    free(half.at);
}

/* Role 2 admits hour 0 alone, at every place and on every device. */
static void check_contexts(struct tally *tally, struct block small)
{
    struct block moved = copy(small.at, small.length);
    check(tally, play(&moved, "grant 2 4\n") == 0 && play(&moved, "open 6 3 role 2 0 0 0\n") == 0, "a second session");
    check(tally, accepts(moved, "check 6 4 0 0 0\n", FELLUNQA_AREA_MAX, 1, moved), "a check where it was opened");
    check(tally, accepts(moved, "check 6 4 0 15 15\n", FELLUNQA_AREA_MAX, 1, moved), "a check elsewhere");
    check(tally, accepts(moved, "check 6 4 1 0 0\n", FELLUNQA_AREA_MAX, 0, moved), "a check at another hour");
    check(tally, refuses_text(moved, "check 6 4 24 0 0\n", FELLUNQA_AREA_MAX, 2), "an hour out of range");
    check(tally, refuses_text(moved, "check 7 4 0 16 0\n", FELLUNQA_AREA_MAX, 2), "2 comes before 3");
    check(tally, refuses_text(moved, "check 6 4\n", FELLUNQA_AREA_MAX, 1), "a check without a context gets 1");
    free(moved.at);
}

static void check_state(struct tally *tally, struct block small)
{
    struct block after = copy(small.at, small.length), fresh = zeros(FELLUNQA_IMAGE_MIN);
    play(&after, "enrol 9 0\n");
    int holds = 1;
    for (int i = 0; i < 3; i++) {
        holds &= accepts(small, "enrol 9 0\n", after.length + 2, 0, after);
        holds &= accepts(small, "enrol 9 0\n", after.length + 2, 0, after);
        holds &= refuses_text(fresh, "grant 1 4\n", FELLUNQA_AREA_MAX, 3);
    }
    check(tally, holds, "the same call gets the same answer again");
    free(after.at);
    free(fresh.at);
}

static int runs_at(struct block small, struct block after, size_t i, size_t j, size_t k)
{
    struct block image = new_block(i + small.length), line = new_block(j + 10), area = new_block(k + after.length + 2);
    memcpy(image.at + i, small.at, small.length);
    memcpy(line.at + j, "enrol 9 0\n", 10);
    int64_t answer = fellunqa_apply(image.at + i, small.length, line.at + j, 10, area.at + k, after.length + 2);
    int holds = answer == 0 && memcmp(area.at + k + 2, after.at, after.length) == 0;
    for (size_t n = 0; n < k; n++)
        holds &= area.at[n] == pattern(n);
    free(image.at);
    free(line.at);
    free(area.at);
    return holds;
}

static void check_alignment(struct tally *tally, struct block small)
{
    struct block after = copy(small.at, small.length);
    play(&after, "enrol 9 0\n");
    int holds = 1;
    for (size_t n = 0; n < 512; n++)
        holds &= runs_at(small, after, n % 8, n / 8 % 8, n / 64);
    check(tally, holds, "image, line and area need no alignment");
    free(after.at);
}

/* ---- several threads, each with no more stack than the header asks for and a little for itself */

enum { THREADS = 4, OWN_STACK = 32 * 1024 };

struct task {
    struct block small, large;
    int holds;
};

static void *work(void *argument)
{
    struct task *task = argument;
    task->holds = 1;
    for (int i = 0; i < 8; i++) {
        struct block again = small_register(), cut = copy(task->large.at, task->large.length - 1);
        task->holds &= same(again, task->small.at, task->small.length);
        task->holds &= refuses_text(task->large, "revoke 1 255\n", FELLUNQA_AREA_MAX, 6);
        task->holds &= accepts(task->large, "same 254 255\n", FELLUNQA_AREA_MAX, 1, task->large);
        task->holds &= refuses_text(cut, "same 254 255\n", FELLUNQA_AREA_MAX, 14);
        free(again.at);
        free(cut.at);
    }
    return NULL;
}

static void check_threads(struct tally *tally, struct block small, struct block large)
{
    pthread_t threads[THREADS];
    struct task tasks[THREADS];
    pthread_attr_t attributes;
    pthread_attr_init(&attributes);
    int holds = pthread_attr_setstacksize(&attributes, FELLUNQA_STACK_MAX + OWN_STACK) == 0;
    int started = 0;
    while (started < THREADS) {
        tasks[started] = (struct task){small, large, 0};
        if (pthread_create(&threads[started], &attributes, work, &tasks[started]) != 0)
            break;
        started++;
    }
    holds &= started == THREADS;
    for (int i = 0; i < started; i++) {
        pthread_join(threads[i], NULL);
        holds &= tasks[i].holds;
    }
    pthread_attr_destroy(&attributes);
    check(tally, holds, "several threads at once, with little stack");
}

int main(void)
{
    struct tally tally = {0, 0};
    struct block small = small_register(), large = large_register();
    check_fresh(&tally);
    check_new_client(&tally);
    check_refusals(&tally, small, large);
    check_order(&tally, small);
    check_null(&tally, small);
    check_images(&tally, small);
    check_lines(&tally, small);
    check_room(&tally, small, large);
    check_values(&tally, small, large);
    check_contexts(&tally, small);
    check_state(&tally, small);
    check_alignment(&tally, small);
    check_threads(&tally, small, large);
    free(small.at);
    free(large.at);
    printf("%d passed, %d failed\n", tally.passed, tally.failed);
    return tally.failed != 0;
}
