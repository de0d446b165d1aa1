/* image.c: reads the image of a register by one table of its layout. See image.h. */
#include "image.h"

#include <string.h>

/* ---- the layout: a change of it changes these tables and the structs that they fill, and nothing below them */

enum coding {
    NUMBER, /* the high byte comes first */
    MAP     /* the low byte comes first, so that item k is bit k of the value */
};

enum { ANY = 0 };

struct field {
    const char *name;
    unsigned width; /* in bytes; 0: the bit in the field map is all there is of it */
    enum coding coding;
    uint64_t below; /* the value is below this; ANY: whatever fits the width */
    size_t place;   /* where the value goes in the struct */
};

struct table {
    const struct field *rows;
    size_t count;
};

#define ROW(type, member, name, width, coding, below) {name, width, coding, below, offsetof(struct type, member)}
#define COUNT(rows) (sizeof(rows) / sizeof *(rows))
#define TABLE(rows) {rows, COUNT(rows)}
#define NO_TABLE {NULL, 0}

static const struct field user_rows[] = {
    ROW(image_user, domain, "domain", 1, NUMBER, IMAGE_DOMAINS),
};

static const struct field role_rows[] = {
    ROW(image_role, domain, "domain", 1, NUMBER, IMAGE_DOMAINS),
    ROW(image_role, permissions, "permissions", 4, NUMBER, ANY),
    ROW(image_role, hours, "hours", 3, NUMBER, ANY),
    ROW(image_role, places, "places", 2, NUMBER, ANY),
    ROW(image_role, devices, "devices", 2, NUMBER, ANY),
    ROW(image_role, appointed, "appointed users", 8, MAP, ANY),
};

/* The fields of a capability that may be left out: the row's number is the field's bit in the field map. */
static const struct field optional_rows[] = {
    ROW(image_capability, permissions, "own permissions", 4, NUMBER, ANY),
    ROW(image_capability, lent, "lent roles", 4, NUMBER, ANY),
    ROW(image_capability, holders, "holders", 8, MAP, ANY),
    ROW(image_capability, first, "first", 4, NUMBER, ANY),
    ROW(image_capability, last, "last", 4, NUMBER, ANY),
    ROW(image_capability, use_limit, "use limit", 2, NUMBER, ANY),
    ROW(image_capability, uses, "uses", 2, NUMBER, ANY),
    ROW(image_capability, creation_limit, "creation limit", 2, NUMBER, ANY),
    ROW(image_capability, creations, "creations", 2, NUMBER, ANY),
    ROW(image_capability, hop_limit, "hop limit", 2, NUMBER, ANY),
    ROW(image_capability, hops, "hops", 2, NUMBER, ANY),
    ROW(image_capability, hours, "hours", 3, NUMBER, ANY),
    ROW(image_capability, places, "places", 2, NUMBER, ANY),
    ROW(image_capability, devices, "devices", 2, NUMBER, ANY),
    ROW(image_capability, revoked, "revoked mark", 0, NUMBER, ANY),
};

/* What every capability has; the field map stands last, and no bit of it is without a row above. */
static const struct field capability_rows[] = {
    ROW(image_capability, origin.kind, "kind of the origin", 1, NUMBER, IMAGE_CAPABILITY + 1),
    ROW(image_capability, origin.number, "number of the origin", 1, NUMBER, IMAGE_CAPABILITIES),
    ROW(image_capability, creator, "creator", 1, NUMBER, IMAGE_USERS),
    ROW(image_capability, present, "field map", 2, NUMBER, 1 << COUNT(optional_rows)),
};

static const struct field session_rows[] = {
    ROW(image_session, user, "user", 1, NUMBER, IMAGE_USERS),
    ROW(image_session, on.kind, "kind", 1, NUMBER, IMAGE_CAPABILITY + 1),
    ROW(image_session, on.number, "number", 1, NUMBER, IMAGE_CAPABILITIES),
    ROW(image_session, hour, "hour", 1, NUMBER, IMAGE_HOURS),
    ROW(image_session, place, "place", 1, NUMBER, IMAGE_PLACES),
    ROW(image_session, device, "device", 1, NUMBER, IMAGE_DEVICES),
};

/* A head and the records after it. The head is a map of the records that are there, or their number. */
struct section {
    const char *name;
    struct field head;
    struct table table;    /* the fields of one record */
    struct table optional; /* the fields after them, by the field map that stands last among them */
    size_t place;          /* where the records go in the struct */
    size_t size;           /* of one */
    size_t slots;
};

static const struct section sections[] = {
    {"clock", ROW(image, clock, "clock", 4, NUMBER, ANY), NO_TABLE, NO_TABLE, 0, 0, 0},
    {"users", ROW(image, enrolled, "map of users", 8, MAP, ANY), TABLE(user_rows), NO_TABLE,
     offsetof(struct image, users), sizeof(struct image_user), IMAGE_USERS},
    {"roles", ROW(image, founded, "map of roles", 4, MAP, ANY), TABLE(role_rows), NO_TABLE,
     offsetof(struct image, roles), sizeof(struct image_role), IMAGE_ROLES},
    {"capabilities", ROW(image, count, "number of capabilities", 2, NUMBER, IMAGE_CAPABILITIES + 1),
     TABLE(capability_rows), TABLE(optional_rows),
     offsetof(struct image, capabilities), sizeof(struct image_capability), IMAGE_CAPABILITIES},
    {"sessions", ROW(image, open, "map of sessions", 8, MAP, ANY), TABLE(session_rows), NO_TABLE,
     offsetof(struct image, sessions), sizeof(struct image_session), IMAGE_SESSIONS},
};

/* ---- reading: after the first fault nothing more is read, and all values are 0 */

struct reader {
    const uint8_t *bytes;
    size_t length;
    size_t at;
    const char *section;
    struct image_fault fault;
};

static void refuse(struct reader *reader, const char *field, const char *why)
{
    if (reader->fault.why == NULL)
        reader->fault = (struct image_fault){reader->section, field, why, reader->at};
}

static uint64_t decode(const uint8_t *bytes, unsigned width, enum coding coding)
{
    uint64_t value = 0;
    for (unsigned i = 0; i < width; i++)
        value = value << 8 | bytes[coding == MAP ? width - 1 - i : i];
    return value;
}

/* The value of the field that stands next. */
static uint64_t take(struct reader *reader, const struct field *field)
{
    if (reader->length - reader->at < field->width)
        refuse(reader, field->name, "the bytes end before it does");
    if (reader->fault.why != NULL)
        return 0;
    uint64_t value = decode(reader->bytes + reader->at, field->width, field->coding);
    if (field->below != ANY && value >= field->below) {
        refuse(reader, field->name, "it is out of its range");
        return 0;
    }
    reader->at += field->width;
    return value;
}

/* Fills in the fields whose bit is set in the mask; gives the value of the last one. */
static uint64_t read_fields(struct reader *reader, struct table table, uint64_t mask, unsigned char *record)
{
    uint64_t value = 0;
    for (size_t i = 0; i < table.count; i++) {
        if (!image_has(mask, i))
            continue;
        const struct field *field = &table.rows[i];
        value = field->width == 0 ? 1 : take(reader, field);
        memcpy(record + field->place, &value, sizeof value);
    }
    return value;
}

static bool is_there(const struct section *section, uint64_t head, size_t number)
{
    return section->head.coding == MAP ? image_has(head, number) : number < head;
}

static void read_section(struct reader *reader, const struct section *section, unsigned char *image)
{
    reader->section = section->name;
    struct table head_row = {&section->head, 1};
    uint64_t head = read_fields(reader, head_row, 1, image);
    for (size_t number = 0; number < section->slots; number++) {
        if (!is_there(section, head, number))
            continue;
        unsigned char *record = image + section->place + number * section->size;
        uint64_t map = read_fields(reader, section->table, UINT64_MAX, record);
        read_fields(reader, section->optional, map, record);
    }
}

/* Whether the role is there, or the capability is one of those below a number. */
static bool stands(const struct image *image, struct image_origin origin, uint64_t below)
{
    return origin.kind == IMAGE_ROLE ? image_has(image->founded, origin.number) : origin.number < below;
}

/* An origin has the smaller number: so the way up from a capability ends at a role. */
static void follow_origins(struct reader *reader, const struct image *image)
{
    reader->section = "capabilities";
    for (uint64_t number = 0; number < image->count; number++)
        if (!stands(image, image->capabilities[number].origin, number))
            refuse(reader, "origin", "it is not there");
    reader->section = "sessions";
    for (uint64_t number = 0; number < IMAGE_SESSIONS; number++)
        if (image_has(image->open, number) && !stands(image, image->sessions[number].on, image->count))
            refuse(reader, "role or capability of a session", "it is not there");
}

bool image_has(uint64_t mask, uint64_t item)
{
    return item < 64 && (mask >> item & 1) == 1;
}

bool image_read(struct image *image, const uint8_t *bytes, size_t length, struct image_fault *fault)
{
    struct reader reader = {.bytes = bytes, .length = length};
    memset(image, 0, sizeof *image);
    for (size_t i = 0; i < COUNT(sections); i++)
        read_section(&reader, &sections[i], (unsigned char *)image);
    if (reader.at < length)
        refuse(&reader, "end", "bytes are left over");
    follow_origins(&reader, image);
    *fault = reader.fault;
    return fault->why == NULL;
}
