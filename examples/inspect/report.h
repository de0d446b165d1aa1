/* report.h: a register as text, and as a graph for Graphviz. Both have the same lines about a role, capability or session. */
#ifndef REPORT_H
#define REPORT_H

#include <stdio.h>

#include "image.h"

/* Where lines go, and how they begin and end: in the text indented, in the graph as parts of a label. */
struct page {
    FILE *to;
    int indent; /* spaces for each level */
    const char *end;
};

void describe_users(const struct page *page, int level, const struct image *image);
void describe_role(const struct page *page, int level, const struct image *image, uint64_t number);
void describe_capability(const struct page *page, int level, const struct image *image, uint64_t number);
void describe_session(const struct page *page, int level, const struct image *image, uint64_t number);

/* 'role' or 'capability' */
const char *kind_name(struct image_origin origin);

void print_text(FILE *to, const struct image *image);
void print_dot(FILE *to, const struct image *image);

#endif
