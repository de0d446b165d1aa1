/*
 * inspect: prints what the register in a file holds.
 *
 * The library is asked first whether the bytes are an image (an empty line gets 1 then, and 14 otherwise), so nothing
 * damaged is shown as if it were a register. The files under inspect/ read and print it.
 */
#include <errno.h>
#include <stdio.h>
#include <string.h>

#include <fellunqa.h>

#include "inspect/image.h"
#include "inspect/report.h"

enum status { DONE = 0, FAILED = 1, USAGE = 2, DAMAGED = 3, UNKNOWN = 4 };

static const char help[] =
    "usage: inspect [--dot] [--] [FILE]\n"
    "\n"
    "Prints what the register in FILE holds: users, roles, capabilities below what they are derived from, sessions.\n"
    "Without FILE, or where it is -, the register is read from standard input. It is only read.\n"
    "\n"
    "  --dot   prints it as a graph for Graphviz: inspect --dot FILE | dot -Tsvg > register.svg\n"
    "  --help  prints this\n"
    "\n"
    "Exit status: 0 all is printed; 1 something could not be read or written; 2 wrong usage; 3 the bytes are no\n"
    "register, or a damaged one; 4 the library takes them for a register whose layout this program does not know.\n";

struct options {
    bool help, dot;
    const char *path; /* - is standard input */
};

struct store {
    const char *name;
    uint8_t bytes[FELLUNQA_IMAGE_MAX + 1]; /* one more than any image has, so that a longer file is seen */
    size_t length;
};

static enum status complain(const char *what, const char *why, enum status status)
{
    fprintf(stderr, "inspect: %s: %s\n", what, why);
    return status;
}

static bool set(struct options *options, const char *option)
{
    if (strcmp(option, "--dot") == 0)
        options->dot = true;
    else if (strcmp(option, "--help") == 0)
        options->help = true;
    else
        return false;
    return true;
}

/* Options come first; a single minus is a file. */
static enum status parse(int argc, char **argv, struct options *options)
{
    int i = 1;
    while (i < argc && argv[i][0] == '-' && argv[i][1] != '\0') {
        const char *option = argv[i++];
        if (strcmp(option, "--") == 0)
            break;
        if (!set(options, option))
            return complain(option, "unknown option; inspect --help names those there are", USAGE);
    }
    if (i + 1 < argc)
        return complain(argv[i + 1], "one file at a time, after the options", USAGE);
    options->path = i < argc ? argv[i] : "-";
    return DONE;
}

static enum status load(struct store *store, const char *path)
{
    bool standard = strcmp(path, "-") == 0;
    store->name = standard ? "standard input" : path;
    FILE *file = standard ? stdin : fopen(path, "rb");
    if (file == NULL)
        return complain(store->name, strerror(errno), FAILED);
    store->length = fread(store->bytes, 1, sizeof store->bytes, file);
    enum status status = ferror(file) ? complain(store->name, strerror(errno), FAILED) : DONE;
    if (!standard)
        fclose(file);
    return status;
}

/* Reads only what the library accepts; any answer but 1 to an empty line is a no. No bytes are what a new client hands
 * in and nobody saves, so a file without any has lost its register. */
static enum status decode(const struct store *store, struct image *image)
{
    struct image_fault fault;
    if (store->length == 0 || fellunqa_apply(store->bytes, store->length, NULL, 0, NULL, 0) != -FELLUNQA_MALFORMED)
        return complain(store->name, "this is not a register, or it is damaged", DAMAGED);
    if (image_read(image, store->bytes, store->length, &fault))
        return DONE;
    fprintf(stderr, "inspect: %s: unknown layout: byte %zu, %s, %s: %s\n", store->name, fault.at, fault.section,
            fault.field, fault.why);
    return UNKNOWN;
}

static enum status finish(void)
{
    if (fflush(stdout) != 0 || ferror(stdout))
        return complain("standard output", strerror(errno), FAILED);
    return DONE;
}

int main(int argc, char **argv)
{
    static struct store store;
    static struct image image;
    struct options options = {false, false, NULL};
    enum status status = parse(argc, argv, &options);
    if (status == DONE && options.help) {
        fputs(help, stdout);
        return (int)finish();
    }
    if (status == DONE)
        status = load(&store, options.path);
    if (status == DONE)
        status = decode(&store, &image);
    if (status != DONE)
        return (int)status;
    if (options.dot)
        print_dot(stdout, &image);
    else
        print_text(stdout, &image);
    return (int)finish();
}
