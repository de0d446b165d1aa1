/*
 * image.h: the image of a register, read into a struct. image.h and image.c stand alone and may be copied into a product.
 *
 *     static struct image image;
 *     struct image_fault fault;
 *     if (fellunqa_apply(bytes, length, NULL, 0, NULL, 0) == -FELLUNQA_MALFORMED &&
 *         image_read(&image, bytes, length, &fault))
 *         printf("the clock stands at %" PRIu64 "\n", image.clock);
 *
 * The library is asked first: it alone tests that a register keeps its rules. image_read tests just what it needs to
 * read no byte outside and to fill the struct: bytes that end early or are left over, numbers out of range, a
 * capability or session whose role or capability is not there.
 */
#ifndef IMAGE_H
#define IMAGE_H

#include <stdbool.h>
#include <stddef.h>
#include <stdint.h>

enum {
    IMAGE_DOMAINS = 8,
    IMAGE_USERS = 64,
    IMAGE_ROLES = 32,
    IMAGE_CAPABILITIES = 256,
    IMAGE_SESSIONS = 64,
    IMAGE_HOURS = 24,
    IMAGE_PLACES = 16,
    IMAGE_DEVICES = 16
};

enum { IMAGE_ROLE = 0, IMAGE_CAPABILITY = 1 };

/* A role or a capability: what a capability is derived from, or what a session is on. */
struct image_origin {
    uint64_t kind; /* IMAGE_ROLE or IMAGE_CAPABILITY */
    uint64_t number;
};

/* All members are of one type, so that one table says where each field goes. A set of items is a mask: bit k is item k. */

struct image_user {
    uint64_t domain;
};

struct image_role {
    uint64_t domain;
    uint64_t permissions;
    uint64_t hours, places, devices;
    uint64_t appointed; /* users */
};

struct image_capability {
    struct image_origin origin;
    uint64_t creator;
    uint64_t present; /* which of the fields below stand in the image: all that are not 0 */
    uint64_t permissions;
    uint64_t lent;    /* roles */
    uint64_t holders; /* users */
    uint64_t first, last;
    uint64_t use_limit, uses;
    uint64_t creation_limit, creations;
    uint64_t hop_limit, hops;
    uint64_t hours, places, devices;
    uint64_t revoked; /* 0 or 1 */
};

struct image_session {
    uint64_t user;
    struct image_origin on;
    uint64_t hour, place, device;
};

/* What is not there is 0 throughout. */
struct image {
    uint64_t clock;
    uint64_t enrolled; /* the users that are there */
    struct image_user users[IMAGE_USERS];
    uint64_t founded; /* the roles that are there */
    struct image_role roles[IMAGE_ROLES];
    uint64_t count; /* the capabilities that are there have the numbers below it */
    struct image_capability capabilities[IMAGE_CAPABILITIES];
    uint64_t open; /* the sessions that are there */
    struct image_session sessions[IMAGE_SESSIONS];
};

/*
 * Why bytes could not be read: which field of which section, what is wrong with it, and the number of bytes before it.
 * Where an origin, or the role or capability of a session, is not there, that number is the length of the image.
 */
struct image_fault {
    const char *section;
    const char *field;
    const char *why;
    size_t at;
};

/* Reads the bytes into the struct. If it cannot, it says false and why; the struct then holds nothing of use. */
bool image_read(struct image *image, const uint8_t *bytes, size_t length, struct image_fault *fault);

/* Whether the mask has the item. */
bool image_has(uint64_t mask, uint64_t item);

#endif
