/* Blocks of bytes, calls of the entry point on them, and the registers that contract.c starts from. */
#ifndef BLOCKS_H
#define BLOCKS_H

#include <stdio.h>
#include <stdlib.h>
#include <string.h>

#include <fellunqa.h>

/* ---- blocks of just their size; one of length 0 is NULL */

struct block {
    uint8_t *at;
    size_t length;
};

static uint8_t pattern(size_t i)
{
    return (uint8_t)(i * 37 + 11);
}

static struct block new_block(size_t length)
{
    struct block block = {length == 0 ? NULL : malloc(length), length};
    if (length != 0 && block.at == NULL)
        abort();
    for (size_t i = 0; i < length; i++)
        block.at[i] = pattern(i);
    return block;
}

static struct block copy(const void *bytes, size_t length)
{
    struct block block = new_block(length);
    if (length != 0)
        memcpy(block.at, bytes, length);
    return block;
}

static struct block zeros(size_t length)
{
    struct block block = new_block(length);
    if (length != 0)
        memset(block.at, 0, length);
    return block;
}

static int same(struct block block, const void *bytes, size_t length)
{
    return block.length == length && (length == 0 || memcmp(block.at, bytes, length) == 0);
}

/* the block still has the pattern of new_block from byte `from` on */
static int untouched(struct block block, size_t from)
{
    for (size_t i = from; i < block.length; i++)
        if (block.at[i] != pattern(i))
            return 0;
    return 1;
}

/* ---- calls */

static int64_t apply(struct block image, struct block line, struct block area)
{
    return fellunqa_apply(image.at, image.length, line.at, line.length, area.at, area.length);
}

static size_t new_length(struct block area)
{
    return (size_t)area.at[0] << 8 | area.at[1];
}

/* Plays a line; on acceptance the new image takes the old one's place. */
static int64_t play(struct block *image, const char *text)
{
    struct block line = copy(text, strlen(text));
    struct block area = new_block(FELLUNQA_AREA_MAX);
    int64_t answer = apply(*image, line, area);
    if (answer >= 0 && new_length(area) <= FELLUNQA_IMAGE_MAX) {
        free(image->at);
        *image = copy(area.at + 2, new_length(area));
    }
    free(line.at);
    free(area.at);
    return answer;
}

/* The bytes get this refusal with an area of this size; area, image and line stay as they are. */
static int refuses(struct block image, const void *bytes, size_t length, size_t room, int number)
{
    struct block line = copy(bytes, length), area = new_block(room), before = copy(image.at, image.length);
    int holds = apply(image, line, area) == -number && untouched(area, 0) && same(line, bytes, length) &&
                same(image, before.at, before.length);
    free(line.at);
    free(area.at);
    free(before.at);
    return holds;
}

static int refuses_text(struct block image, const char *text, size_t room, int number)
{
    return refuses(image, text, strlen(text), room, number);
}

/* The line gets this value with an area of this size, which then holds this image and is untouched after it. */
static int accepts(struct block image, const char *text, size_t room, int64_t value, struct block after)
{
    struct block line = copy(text, strlen(text)), area = new_block(room);
    int holds = apply(image, line, area) == value && room >= 2 && new_length(area) == after.length &&
                room >= 2 + after.length && memcmp(area.at + 2, after.at, after.length) == 0 &&
                untouched(area, 2 + after.length);
    free(line.at);
    free(area.at);
    return holds;
}

/* ---- registers */

/* A register that has a line for nearly every refusal; session 5 is open on role 1. */
static struct block small_register(void)
{
    static const char *const lines[] = {
        "enrol 3 0\n",
        "enrol 4 1\n",
        "found 1 0 16777215 65535 65535\n",
        "found 2 0 1 65535 65535\n",
        "grant 1 0\n",
        "grant 1 4\n",
        "appoint 3 1\n",
        "appoint 3 2\n",
        "create 3 role 1 9 0 0 0 100 2 1 1 16777215 65535 65535\n",
        "allow 3 0 17\n",
        "hand 3 3 0\n",
        "create 3 role 1 9 0 0 0 4294967295 2 1 1 16777215 65535 65535\n",
        "revoke 3 1\n",
        "open 5 3 role 1 9 0 0\n",
        "clock 100\n",
    };
    struct block image = zeros(FELLUNQA_IMAGE_MIN);
    for (size_t i = 0; i < sizeof lines / sizeof *lines; i++)
        play(&image, lines[i]);
    return image;
}

/* Plays a line with up to two numbers in it. */
static int64_t play_numbers(struct block *image, const char *format, int a, int b)
{
    char text[FELLUNQA_LINE_MAX + 1];
    snprintf(text, sizeof text, format, a, b);
    return play(image, text);
}

/* The longest image: a chain of 256 capabilities with every field set, all users, roles and sessions. */
static struct block large_register(void)
{
    struct block image = zeros(FELLUNQA_IMAGE_MIN);
    play(&image, "clock 1\n");
    for (int user = 0; user < 64; user++)
        play_numbers(&image, "enrol %d 0\n", user, 0);
    for (int role = 0; role < 32; role++)
        play_numbers(&image, "found %d 0 16777215 65535 65535\n", role, 0);
    for (int permission = 0; permission < 32; permission++)
        play_numbers(&image, "grant 0 %d\n", permission, 0);
    play(&image, "appoint 0 0\n");
    for (int n = 0; n < 256; n++) {
        if (n == 0)
            play(&image, "create 0 role 0 0 0 0 1 4294967295 65535 65535 65535 16777215 65535 65535\n");
        else
            play_numbers(&image, "create 0 pass %d 0 0 0 1 4294967295 65535 65535 65535 16777215 65535 65535\n", n - 1, 0);
        play_numbers(&image, "allow 0 %d 1\n", n, 0);
        play_numbers(&image, "lend 0 %d 1\n", n, 0);
        play_numbers(&image, "hand 0 0 %d\n", n, 0);
        play_numbers(&image, "open %d 0 pass %d 0 0 0\n", n % 64, n);
        if (n < 192)
            play_numbers(&image, "close %d\n", n % 64, 0);
    }
    return image;
}

#endif
