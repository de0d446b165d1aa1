/*
 * Holds the proved entry point to the independent one, input by input (libFuzzer).
 *
 * An input is: mode (1), value (1), length of the image (2, high byte first), the image, and the line, which is all
 * that remains. Missing bytes of the head are 0, and an image cut short takes all bytes there are. In the mode
 *
 *     bits 0 and 1   give the length of the area: 0 what is just needed + value - 128, 1 value,
 *                    2 FELLUNQA_AREA_MAX + value - 128, 3 256 * value + 255
 *     bit 2          image and line start at a page's start, after a page without access; otherwise they end at a
 *                    page's end, before one
 *     bits 3 to 5    the alignment of the area
 *     bit 6          what has the length 0 is handed in as NULL
 *
 * The answers must be equal, and all bytes of the area and of the margins around it; image and line must stay as they
 * are.
 */
#define _GNU_SOURCE
#include "../include/fellunqa.h"
#include "coverage.h"

#include <stdbool.h>
#include <stdio.h>
#include <stdlib.h>
#include <string.h>
#include <sys/mman.h>

enum { HEAD = 4, SPACE = 1 << 17, PAGE = 4096, ANSWERS = 17, JUST = 128 };
enum { MARGIN = 64, AREA = 1 << 16, LARGEST = MARGIN + 7 + AREA + MARGIN, SHIFTS = 251 };

struct bytes {
    const uint8_t *at;
    size_t length;
};

struct input {
    uint8_t mode, value;
    struct bytes image, line;
};

/* the independent implementation */
int64_t reference_apply(const uint8_t *image, size_t image_len, const uint8_t *line, size_t line_len, uint8_t *area,
                        size_t area_len);
size_t reference_room(const uint8_t *image, size_t image_len, const uint8_t *line, size_t line_len);
size_t reference_mutate(uint8_t *data, size_t size, size_t max, uint64_t seed);

/* of libFuzzer */
size_t LLVMFuzzerMutate(uint8_t *data, size_t size, size_t max);

/* where the proved entry point finds image and line, between pages without access */
static uint8_t *image_space, *line_space;
/* the areas with their margins, and what they are filled from */
static uint8_t proved[LARGEST], expected[LARGEST], filling[SHIFTS + LARGEST];
/* how often each refusal was given; accepted lines are at 0 */
static unsigned long answers[ANSWERS];

static uint8_t *between_pages_without_access(void)
{
    uint8_t *all = mmap(NULL, PAGE + SPACE + PAGE, PROT_NONE, MAP_PRIVATE | MAP_ANONYMOUS, -1, 0);
    if (all == MAP_FAILED || mprotect(all + PAGE, SPACE, PROT_READ | PROT_WRITE) != 0) {
        perror("no memory");
        exit(1);
    }
    return all + PAGE;
}

static void make_filling(void)
{
    uint64_t state = 1;
    for (size_t i = 0; i < sizeof filling; i++) {
        state = state * 6364136223846793005u + 1442695040888963407u;
        filling[i] = (uint8_t)(state >> 56);
    }
}

static void print_answers(void)
{
    printf("answers: accepted %lu", answers[0]);
    for (int number = 1; number < ANSWERS; number++)
        printf(", %d: %lu", number, answers[number]);
    printf("\n");
    fflush(stdout);
}

int LLVMFuzzerInitialize(int *argc, char ***argv)
{
    (void)argc;
    (void)argv;
    image_space = between_pages_without_access();
    line_space = between_pages_without_access();
    make_filling();
    start_coverage();
    atexit(print_answers);
    return 0;
}

static struct input read_input(const uint8_t *data, size_t size)
{
    uint8_t head[HEAD] = {0};
    size_t headed = size < HEAD ? size : HEAD;
    if (headed > 0)
        memcpy(head, data, headed);
    size_t length = (size_t)head[2] << 8 | head[3], rest = size - headed;
    if (length > rest)
        length = rest;
    return (struct input){head[0], head[1], {data + headed, length}, {data + headed + length, rest - length}};
}

static size_t area_length(const struct input *input)
{
    size_t length = input->value;
    switch (input->mode & 3) {
    case 0:
        length += reference_room(input->image.at, input->image.length, input->line.at, input->line.length);
        length = length < JUST ? 0 : length - JUST;
        break;
    case 2:
        length += FELLUNQA_AREA_MAX - JUST;
        break;
    case 3:
        length = 256 * length + 255;
        break;
    }
    return length < AREA ? length : AREA;
}

/* A copy of the bytes at the start or the end of the space. */
static struct bytes place(uint8_t *space, struct bytes from, uint8_t mode)
{
    if (from.length == 0 && mode & 64)
        return (struct bytes){NULL, 0};
    uint8_t *to = mode & 4 ? space : space + SPACE - from.length;
    if (from.length > 0)
        memcpy(to, from.at, from.length);
    return (struct bytes){to, from.length};
}

static bool same(struct bytes one, struct bytes other)
{
    return one.length == 0 || memcmp(one.at, other.at, one.length) == 0;
}

/* Fills both areas alike, and otherwise for other salts. */
static void fill(size_t length, size_t salt)
{
    memcpy(proved, filling + salt % SHIFTS, length);
    memcpy(expected, filling + salt % SHIFTS, length);
}

static void print_hex(const char *name, struct bytes bytes)
{
    fprintf(stderr, "%s, %zu bytes: ", name, bytes.length);
    for (size_t i = 0; i < bytes.length; i++)
        fprintf(stderr, "%02x", bytes.at[i]);
    fprintf(stderr, "\n");
}

static void print_line(struct bytes line)
{
    fprintf(stderr, "line, %zu bytes: \"", line.length);
    for (size_t i = 0; i < line.length; i++) {
        uint8_t byte = line.at[i];
        fprintf(stderr, byte < ' ' || byte > '~' || byte == '"' || byte == '\\' ? "\\x%02x" : "%c", byte);
    }
    fprintf(stderr, "\"\n");
}

/* Prints what is needed to make the call again, and aborts. */
static void disagree(const char *what, const struct input *input, size_t area_len)
{
    fprintf(stderr, "disagreement: %s; area of %zu bytes, mode %u\n", what, area_len, input->mode);
    print_line(input->line);
    print_hex("image", input->image);
    abort();
}

static void compare_areas(const struct input *input, size_t start, size_t area_len)
{
    size_t length = start + area_len + MARGIN;
    if (memcmp(proved, expected, length) == 0)
        return;
    size_t at = 0;
    while (proved[at] == expected[at])
        at++;
    char what[100];
    snprintf(what, sizeof what, "byte %ld of the area is %u, expected %u", (long)at - (long)start, proved[at],
             expected[at]);
    disagree(what, input, area_len);
}

/* Makes the call to both, with areas from `start` on in their arrays. */
static void compare(const struct input *input, size_t start, size_t area_len)
{
    struct bytes image = place(image_space, input->image, input->mode);
    struct bytes line = place(line_space, input->line, input->mode);
    uint8_t *area = area_len == 0 && input->mode & 64 ? NULL : proved + start;
    int64_t answer = fellunqa_apply(image.at, image.length, line.at, line.length, area, area_len);
    int64_t wanted = reference_apply(input->image.at, input->image.length, input->line.at, input->line.length,
                                     expected + start, area_len);
    if (answer != wanted) {
        char what[100];
        snprintf(what, sizeof what, "answer %lld, expected %lld", (long long)answer, (long long)wanted);
        disagree(what, input, area_len);
    }
    compare_areas(input, start, area_len);
    if (!same(image, input->image))
        disagree("the image was changed", input, area_len);
    if (!same(line, input->line))
        disagree("the line was changed", input, area_len);
    answers[wanted < 0 ? -wanted : 0]++;
}

int LLVMFuzzerTestOneInput(const uint8_t *data, size_t size)
{
    if (size > SPACE)
        return 0;
    struct input input = read_input(data, size);
    size_t area_len = area_length(&input), start = MARGIN + (input.mode >> 3 & 7);
    fill(start + area_len + MARGIN, size + 7 * input.line.length + input.value);
    compare(&input, start, area_len);
    return 0;
}

/* One in eight any change of the bytes, one in eight any of the line alone; the others know the format. */
size_t LLVMFuzzerCustomMutator(uint8_t *data, size_t size, size_t max, unsigned int seed)
{
    struct input input = read_input(data, size);
    size_t before = size - input.line.length;
    switch (seed % 8) {
    case 0:
        return LLVMFuzzerMutate(data, size, max);
    case 1:
        return before < max ? before + LLVMFuzzerMutate(data + before, input.line.length, max - before) : size;
    default:
        return reference_mutate(data, size, max, seed);
    }
}
