/* describe.c: the lines about one role, capability or session, and about the users. See report.h. */
#include <inttypes.h>

#include "report.h"

const char *kind_name(struct image_origin origin)
{
    return origin.kind == IMAGE_ROLE ? "role" : "capability";
}

static void begin(const struct page *page, int level)
{
    fprintf(page->to, "%*s", page->indent * level, "");
}

static void end(const struct page *page)
{
    fputs(page->end, page->to);
}

/* A name and the items of a mask, those that follow each other as a range: 'permissions 0 2-4', 'permissions none'. */
static void items(const struct page *page, const char *name, uint64_t mask)
{
    fputs(name, page->to);
    if (mask == 0)
        fputs(" none", page->to);
    for (uint64_t first = 0; first < 64; first++) {
        if (!image_has(mask, first))
            continue;
        uint64_t last = first;
        while (image_has(mask, last + 1))
            last++;
        fprintf(page->to, " %" PRIu64, first);
        if (last > first)
            fprintf(page->to, "-%" PRIu64, last);
        first = last;
    }
}

static void item_line(const struct page *page, int level, const char *name, uint64_t mask)
{
    begin(page, level);
    items(page, name, mask);
    end(page);
}

static void context_line(const struct page *page, int level, uint64_t hours, uint64_t places, uint64_t devices)
{
    begin(page, level);
    items(page, "hours", hours);
    items(page, ", places", places);
    items(page, ", devices", devices);
    end(page);
}

static uint64_t users_of(const struct image *image, uint64_t domain)
{
    uint64_t users = 0;
    for (uint64_t user = 0; user < IMAGE_USERS; user++)
        if (image_has(image->enrolled, user) && image->users[user].domain == domain)
            users |= (uint64_t)1 << user;
    return users;
}

void describe_users(const struct page *page, int level, const struct image *image)
{
    for (uint64_t domain = 0; domain < IMAGE_DOMAINS; domain++) {
        uint64_t users = users_of(image, domain);
        if (users == 0)
            continue;
        begin(page, level);
        fprintf(page->to, "domain %" PRIu64, domain);
        items(page, ": users", users);
        end(page);
    }
}

void describe_role(const struct page *page, int level, const struct image *image, uint64_t number)
{
    const struct image_role *role = &image->roles[number];
    begin(page, level);
    fprintf(page->to, "role %" PRIu64 ": domain %" PRIu64, number, role->domain);
    end(page);
    item_line(page, level + 1, "permissions", role->permissions);
    item_line(page, level + 1, "appointed users", role->appointed);
    context_line(page, level + 1, role->hours, role->places, role->devices);
}

void describe_capability(const struct page *page, int level, const struct image *image, uint64_t number)
{
    const struct image_capability *capability = &image->capabilities[number];
    begin(page, level);
    fprintf(page->to, "capability %" PRIu64 ": created by user %" PRIu64, number, capability->creator);
    fputs(capability->revoked ? ", revoked" : "", page->to);
    end(page);
    item_line(page, level + 1, "own permissions", capability->permissions);
    item_line(page, level + 1, "lent roles", capability->lent);
    item_line(page, level + 1, "holders", capability->holders);
    begin(page, level + 1);
    fprintf(page->to, "life %" PRIu64 " to %" PRIu64, capability->first, capability->last);
    end(page);
    begin(page, level + 1);
    fprintf(page->to, "uses %" PRIu64 " of %" PRIu64, capability->uses, capability->use_limit);
    fprintf(page->to, ", creations %" PRIu64 " of %" PRIu64, capability->creations, capability->creation_limit);
    fprintf(page->to, ", hops %" PRIu64 " of %" PRIu64, capability->hops, capability->hop_limit);
    end(page);
    context_line(page, level + 1, capability->hours, capability->places, capability->devices);
}

void describe_session(const struct page *page, int level, const struct image *image, uint64_t number)
{
    const struct image_session *session = &image->sessions[number];
    begin(page, level);
    fprintf(page->to, "session %" PRIu64 ": user %" PRIu64, number, session->user);
    fprintf(page->to, " on %s %" PRIu64, kind_name(session->on), session->on.number);
    fprintf(page->to, ", hour %" PRIu64 ", place %" PRIu64, session->hour, session->place);
    fprintf(page->to, ", device %" PRIu64, session->device);
    end(page);
}
