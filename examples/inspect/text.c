/* text.c: a register as text, for people. See report.h. */
#include <inttypes.h>

#include "report.h"

static unsigned number_of(uint64_t mask)
{
    unsigned number = 0;
    for (; mask != 0; mask &= mask - 1)
        number++;
    return number;
}

/* The capabilities derived from the origin, each followed by those below it. Below numbers rise, so this ends. */
static void print_below(const struct page *page, int level, const struct image *image, struct image_origin origin)
{
    for (uint64_t number = 0; number < image->count; number++) {
        struct image_origin above = image->capabilities[number].origin;
        if (above.kind != origin.kind || above.number != origin.number)
            continue;
        describe_capability(page, level, image, number);
        print_below(page, level + 1, image, (struct image_origin){IMAGE_CAPABILITY, number});
    }
}

static void print_roles(const struct page *page, const struct image *image)
{
    fprintf(page->to, "\nroles (%u), capabilities (%" PRIu64 ")\n", number_of(image->founded), image->count);
    for (uint64_t number = 0; number < IMAGE_ROLES; number++) {
        if (!image_has(image->founded, number))
            continue;
        describe_role(page, 1, image, number);
        print_below(page, 2, image, (struct image_origin){IMAGE_ROLE, number});
    }
}

static void print_sessions(const struct page *page, const struct image *image)
{
    fprintf(page->to, "\nsessions (%u)\n", number_of(image->open));
    for (uint64_t number = 0; number < IMAGE_SESSIONS; number++)
        if (image_has(image->open, number))
            describe_session(page, 1, image, number);
}

void print_text(FILE *to, const struct image *image)
{
    const struct page page = {to, 2, "\n"};
    fprintf(to, "clock %" PRIu64 "\n\nusers (%u)\n", image->clock, number_of(image->enrolled));
    describe_users(&page, 1, image);
    print_roles(&page, image);
    print_sessions(&page, image);
}
