/* dot.c: a register as a directed graph in the language of Graphviz. See report.h. */
#include <inttypes.h>

#include "report.h"

/* Opens a node and its label; close_node ends both. */
static void open_node(FILE *to, const char *kind, uint64_t number)
{
    fprintf(to, "  \"%s %" PRIu64 "\" [label=\"", kind, number);
}

static void close_node(FILE *to, const char *attributes)
{
    fprintf(to, "\"%s];\n", attributes);
}

static void print_edge(FILE *to, struct image_origin from, const char *kind, uint64_t number, const char *attributes)
{
    fprintf(to, "  \"%s %" PRIu64 "\" -> \"%s %" PRIu64 "\"%s;\n", kind_name(from), from.number, kind, number, attributes);
}

static void print_roles(const struct page *page, const struct image *image)
{
    for (uint64_t number = 0; number < IMAGE_ROLES; number++) {
        if (!image_has(image->founded, number))
            continue;
        open_node(page->to, "role", number);
        describe_role(page, 0, image, number);
        close_node(page->to, ", style=bold");
    }
}

static void print_capabilities(const struct page *page, const struct image *image)
{
    for (uint64_t number = 0; number < image->count; number++) {
        const struct image_capability *capability = &image->capabilities[number];
        open_node(page->to, "capability", number);
        describe_capability(page, 0, image, number);
        close_node(page->to, capability->revoked ? ", style=dashed" : "");
        print_edge(page->to, capability->origin, "capability", number, "");
    }
}

static void print_sessions(const struct page *page, const struct image *image)
{
    for (uint64_t number = 0; number < IMAGE_SESSIONS; number++) {
        if (!image_has(image->open, number))
            continue;
        open_node(page->to, "session", number);
        describe_session(page, 0, image, number);
        close_node(page->to, ", shape=ellipse");
        print_edge(page->to, image->sessions[number].on, "session", number, " [style=dotted]");
    }
}

void print_dot(FILE *to, const struct image *image)
{
    const struct page page = {to, 0, "\\l"}; /* a line of a label, set to the left */
    fprintf(to, "digraph register {\n  graph [label=\"clock %" PRIu64 "\\l", image->clock);
    describe_users(&page, 0, image);
    fputs("\", labelloc=t, labeljust=l];\n  node [shape=box];\n", to);
    print_roles(&page, image);
    print_capabilities(&page, image);
    print_sessions(&page, image);
    fputs("}\n", to);
}
