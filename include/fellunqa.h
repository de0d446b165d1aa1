/*
 * fellunqa.h: the C entry point of Fellunqa, a register of capabilities for payroll bureaus.
 *
 * A register is kept as an image, a string of bytes that the caller stores. One function plays one line on it: it
 * reads the image and the line, and writes the image of the register after the line. docs/SPECIFICATION.md says what
 * the lines are and what they do; numbers with § below are its paragraphs.
 *
 * A new client has an image of length 0, which is a fresh register; its first accepted line gives it one with bytes:
 *
 *     static uint8_t image[FELLUNQA_IMAGE_MAX], area[FELLUNQA_AREA_MAX];
 *     size_t length = 0;
 *     static const char line[] = "enrol 3 0\n";
 *
 *     int64_t answer = fellunqa_apply(image, length, (const uint8_t *)line, sizeof line - 1, area, sizeof area);
 *     if (answer >= 0) {
 *         length = (size_t)area[0] << 8 | area[1];  // accepted: the new image takes the old one's place
 *         memcpy(image, area + 2, length);
 *     } else if (answer == -FELLUNQA_UNCHANGED) {
 *         puts("user 3 is enrolled already");
 *     }
 *
 * examples/client.c, with examples/store.c, is a whole program.
 */
#ifndef FELLUNQA_H
#define FELLUNQA_H

#include <stddef.h>
#include <stdint.h>

/*
 * The version of this header and of the library installed with it, as a text and as numbers. While the first number is
 * 0, the second rises with every change of what a line, an answer or an image means, and the third with any other. An
 * image does not say its version: keep this text beside it, and see CHANGELOG.md before a library of another second
 * number reads it.
 */
#define FELLUNQA_VERSION "0.5.0"
#define FELLUNQA_VERSION_MAJOR 0
#define FELLUNQA_VERSION_MINOR 5
#define FELLUNQA_VERSION_PATCH 0

#ifdef __cplusplus
extern "C" {
#endif

/* The least and the largest number of bytes of an image that is written; one of length 0 is only ever handed in. */
#define FELLUNQA_IMAGE_MIN 26
#define FELLUNQA_IMAGE_MAX 13402

/* An area of this many bytes always suffices: a length in 2 bytes and the largest image. */
#define FELLUNQA_AREA_MAX (2 + FELLUNQA_IMAGE_MAX)

/* The longest line that yields a request, with its line feed; a longer one always gets 1. */
#define FELLUNQA_LINE_MAX 155

/* A call needs less than this many bytes of stack. */
#define FELLUNQA_STACK_MAX (256 * 1024)

/*
 * The refusals (§5.2.1). The first that applies is answered (§5.2.2, §11.2.1); a call's own come in the order that §6
 * gives for it. A capability is a pass in lines.
 */
enum fellunqa_refusal {
    /* the bytes are not one line with its line feed, or it yields no request (§9.1, §11.1.3) */
    FELLUNQA_MALFORMED = 1,
    /* an argument is out of its range (§5.2.3); create: also if first is above last */
    FELLUNQA_RANGE = 2,
    /* what the line names is not there: user, role, capability, or open session (§5.2.4) */
    FELLUNQA_MISSING = 3,
    /* nothing would change */
    FELLUNQA_UNCHANGED = 4,
    /* appoint: user and role are of different domains */
    FELLUNQA_DOMAIN = 5,
    /* create, open: the user is not appointed to the role, or does not hold the capability; create: the origin lacks
     * permission 0; allow, lend, hand, amend: the user is not its creator; revoke: nor the creator of one above it */
    FELLUNQA_FORBIDDEN = 6,
    /* the capability is revoked */
    FELLUNQA_REVOKED = 7,
    /* create, open: the clock is outside the life of the capability, which ends before its last tick */
    FELLUNQA_EXPIRED = 8,
    /* create, open: the role or capability does not admit the context */
    FELLUNQA_CONTEXT = 9,
    /* create: no creations left; hand: no hops left; open: no uses left; amend: the use limit would be negative */
    FELLUNQA_EXHAUSTED = 10,
    /* create: life, limit or mask not within the origin's; allow, lend: more than the origin may give; amend: the use
     * limit would be above the origin's */
    FELLUNQA_EXCEEDS = 11,
    /* create: 256 capabilities are there */
    FELLUNQA_FULL = 12,
    /* clock: the tick is before the clock */
    FELLUNQA_PAST = 13,
    /* the image has bytes and is not that of a register that keeps the rules (§8.5) */
    FELLUNQA_IMAGE = 14,
    /* the register breaks a rule (§4); never answered here, where such an image gets 14 */
    FELLUNQA_BROKEN = 15,
    /* the area has no room for the length and the new image (§11.2.1) */
    FELLUNQA_ROOM = 16
};

/*
 * Plays one line on the register whose image is given.
 *
 * Returns the call's value (0 to 4,294,967,295), or a refusal as a negative number: -FELLUNQA_MALFORMED and so on.
 * The order is 14, 1, the call's own, 16; 16 is asked of calls that change nothing too. So an empty line tests an
 * image alone: it gets 14 or, if the image is good, 1.
 *
 * On acceptance the area starts with the length of the new image (2 bytes, high byte first), followed by the new
 * image; its further bytes are untouched. On refusal no byte of it is touched. Image and line are only read.
 *
 *   image, line   need no alignment and no terminating zero; any bytes may be handed in. The line is one line with
 *                 its line feed as the last byte and no other line feed in it. An image of length 0 is a new client's
 *                 and is never refused: a caller that may have lost an image has to see to that itself (§8.5.3).
 *   area          needs no initial contents; it must not overlap image or line.
 *
 * A pointer may be NULL if its length is 0. The function allocates no memory, keeps no state, and may run in several
 * threads at once on areas that do not overlap.
 */
int64_t fellunqa_apply(const uint8_t *image, size_t image_len, const uint8_t *line, size_t line_len, uint8_t *area,
                       size_t area_len);

#ifdef __cplusplus
}
#endif

#endif
