/*
 * client: plays lines on a register of capabilities that is kept in a file.
 *
 * A run is one batch. All lines are read before the register is opened, so that nobody waits for a slow input. Then
 * they are played, the register is saved once, and only after that are the answers shown: whoever sees an answer can
 * rely on it through kills and power cuts. A run that ends before it has saved leaves the register as it was; one that
 * ends between saving and showing leaves all its lines in it. store.h says what holds of the file, and `usage` below
 * how the program is called.
 */
#define _XOPEN_SOURCE 700

#include <errno.h>
#include <fcntl.h>
#include <inttypes.h>
#include <signal.h>
#include <stdio.h>
#include <stdlib.h>
#include <string.h>

#include <fellunqa.h>

#include "store.h"

enum status { DONE = 0, FAILED = 1, USAGE = 2, DAMAGED = 3, UNSHOWN = 4 };

static const char usage[] =
    "usage: client [--new] [--] REGISTER-FILE < LINES     the lines of standard input, played after its end\n"
    "       client [--new] [--] REGISTER-FILE LINE..      each argument is a line; its line feed is added\n"
    "       client --help                                 shows this\n"
    "\n"
    "Plays the lines on the register, saves it, and shows for each line 'ok VALUE' or 'no NUMBER: MEANING'.\n"
    "With --new it starts a register; there must be nothing of its name. It waits for other clients at work on\n"
    "registers of the same folder.\n"
    "\n"
    "Exit status:\n"
    "  0  all lines are played, the register is saved, the answers are shown\n"
    "  1  something could not be read or written; the register is as it was, no line is played\n"
    "  2  wrong usage\n"
    "  3  the register file is damaged or is not a register; it is as it was\n"
    "  4  all lines are played and in the register, but not all answers could be shown, or it is not sure\n"
    "     that the register outlasts a power cut\n";

struct options {
    bool help;
    bool fresh;
    const char *path;
    char **lines; /* up to a null pointer; none: they come from standard input */
};

/* One byte more than any request, so that a longer line gets 1 even where its end is cut off. */
struct line {
    size_t length;
    uint8_t bytes[FELLUNQA_LINE_MAX + 1];
};

/* The lines of a run: for each a byte with its length, then its bytes. */
struct batch {
    size_t count;
    size_t used;
    size_t room;
    uint8_t *bytes;
};

_Static_assert(FELLUNQA_LINE_MAX + 1 <= UINT8_MAX, "the length of a line must fit into a byte");

static enum status complain(const char *what, const char *why, enum status status)
{
    fprintf(stderr, "client: %s: %s\n", what, why);
    return status;
}

static enum status failed(const char *what)
{
    return complain(what, strerror(errno), FAILED);
}

static const char *meaning(int64_t refusal)
{
    static const char *const meanings[] = {
        [FELLUNQA_MALFORMED] = "the line is malformed",
        [FELLUNQA_RANGE] = "a number is out of its range",
        [FELLUNQA_MISSING] = "a user, role, capability or session is not there",
        [FELLUNQA_UNCHANGED] = "nothing would change",
        [FELLUNQA_DOMAIN] = "user and role are of different domains",
        [FELLUNQA_FORBIDDEN] = "the user is not entitled to this",
        [FELLUNQA_REVOKED] = "the capability is revoked",
        [FELLUNQA_EXPIRED] = "the clock is outside the capability's life",
        [FELLUNQA_CONTEXT] = "hour, place or device is not admitted",
        [FELLUNQA_EXHAUSTED] = "a limit is reached, or would fall below 0",
        [FELLUNQA_EXCEEDS] = "this exceeds what the origin has or may give",
        [FELLUNQA_FULL] = "256 capabilities are there already",
        [FELLUNQA_PAST] = "the tick is before the clock",
        [FELLUNQA_IMAGE] = "the register is damaged",
        [FELLUNQA_BROKEN] = "the register breaks a rule",
        [FELLUNQA_ROOM] = "there is no room for the new register",
    };
    if (refusal < FELLUNQA_MALFORMED || refusal > FELLUNQA_ROOM)
        return "unknown refusal";
    return meanings[refusal];
}

/* ---- gathering the lines */

static enum status keep(struct batch *batch, const struct line *line)
{
    if (batch->room - batch->used < sizeof *line) {
        size_t room = batch->room + batch->room / 2 + 4096;
        uint8_t *bytes = room < batch->room ? NULL : realloc(batch->bytes, room);
        if (bytes == NULL)
            return complain("the lines", "there is no memory for them", FAILED);
        batch->bytes = bytes;
        batch->room = room;
    }
    batch->bytes[batch->used++] = (uint8_t)line->length;
    memcpy(batch->bytes + batch->used, line->bytes, line->length);
    batch->used += line->length;
    batch->count++;
    return DONE;
}

static void append(struct line *line, int byte)
{
    if (line->length < sizeof line->bytes)
        line->bytes[line->length++] = (uint8_t)byte;
}

/* Reads up to the next line feed or the end of the input. */
static void read_line(FILE *input, struct line *line)
{
    int byte;
    line->length = 0;
    while ((byte = getc(input)) != EOF) {
        append(line, byte);
        if (byte == '\n')
            break;
    }
}

/* A last line without a line feed is kept as it is, so it gets 1. */
static enum status gather_input(struct batch *batch, FILE *input)
{
    struct line line;
    enum status status = DONE;
    while (status == DONE) {
        read_line(input, &line);
        if (ferror(input))
            return failed("standard input");
        if (line.length == 0)
            return DONE;
        status = keep(batch, &line);
    }
    return status;
}

static enum status gather_text(struct batch *batch, const char *text)
{
    struct line line = {.length = 0};
    while (*text != '\0')
        append(&line, (unsigned char)*text++);
    append(&line, '\n');
    return keep(batch, &line);
}

static enum status gather(struct batch *batch, char **texts)
{
    enum status status = DONE;
    if (*texts == NULL)
        return gather_input(batch, stdin);
    while (status == DONE && *texts != NULL)
        status = gather_text(batch, *texts++);
    return status;
}

/* ---- playing them */

static enum status report(const struct store *store, const char *path, enum store_status status)
{
    if (status == STORE_DONE)
        return DONE;
    fprintf(stderr, "client: %s: %s%s%s\n", path, store->fault, store->error == 0 ? "" : ": ",
            store->error == 0 ? "" : strerror(store->error));
    return status == STORE_DAMAGED ? DAMAGED : status == STORE_UNSURE ? UNSHOWN : FAILED;
}

static void play(struct store *store, const struct batch *batch, int64_t *answers)
{
    const uint8_t *at = batch->bytes;
    for (size_t i = 0; i < batch->count; i++) {
        answers[i] = store_play(store, at + 1, *at);
        at += 1 + *at;
    }
}

static enum status play_and_save(const struct options *options, const struct batch *batch, int64_t *answers)
{
    struct store store;
    enum store_status status = store_open(&store, options->path, options->fresh);
    if (status == STORE_DONE) {
        play(&store, batch, answers);
        status = store_save(&store);
    }
    store_close(&store);
    return report(&store, options->path, status);
}

static enum status show(const int64_t *answers, size_t count)
{
    for (size_t i = 0; i < count; i++) {
        if (answers[i] < 0)
            printf("no %" PRId64 ": %s\n", -answers[i], meaning(-answers[i]));
        else
            printf("ok %" PRId64 "\n", answers[i]);
    }
    if (fflush(stdout) == 0 && !ferror(stdout))
        return DONE;
    failed("standard output");
    return complain("not all answers are shown", "the lines are played and the register is saved", UNSHOWN);
}

static enum status run(const struct options *options, const struct batch *batch)
{
    int64_t *answers = calloc(batch->count + 1, sizeof *answers); /* never of size 0, which may be a null pointer */
    if (answers == NULL)
        return complain("the answers", "there is no memory for them", FAILED);
    enum status status = play_and_save(options, batch, answers);
    if (status == DONE)
        status = show(answers, batch->count);
    free(answers);
    return status;
}

/* ---- starting */

static enum status read_options(struct options *options, char **words)
{
    for (; *words != NULL && **words == '-'; words++) {
        if (strcmp(*words, "--") == 0) {
            words++;
            break;
        }
        if (strcmp(*words, "--new") == 0)
            options->fresh = true;
        else if (strcmp(*words, "--help") == 0)
            options->help = true;
        else
            return complain(*words, "unknown option; --help shows the usage", USAGE);
    }
    options->path = *words;
    options->lines = words + 1;
    if (options->help || options->path != NULL)
        return DONE;
    return complain("usage", "client [--new] [--] REGISTER-FILE [LINE..]; --help shows more", USAGE);
}

static enum status help(void)
{
    fputs(usage, stdout);
    return fflush(stdout) == 0 && !ferror(stdout) ? DONE : failed("standard output");
}

/* If one of them were closed, the register could be opened under its number, and answers or messages go into it. */
static enum status ask_streams(void)
{
    static const char *const names[] = {"standard input", "standard output", "standard error"};
    for (int i = 0; i < 3; i++)
        if (fcntl(i, F_GETFD) < 0)
            return failed(names[i]);
    return DONE;
}

/* A pipe that nobody reads and a limit on the size of files are faults to be told, not signals to end by. */
int main(int argc, char **argv)
{
    struct options options = {0};
    struct batch batch = {0};
    signal(SIGPIPE, SIG_IGN);
    signal(SIGXFSZ, SIG_IGN);
    enum status status = read_options(&options, argv + (argc > 0));
    if (status == DONE)
        status = ask_streams();
    if (status != DONE)
        return (int)status;
    if (options.help)
        return (int)help();
    status = gather(&batch, options.lines);
    if (status == DONE)
        status = run(&options, &batch);
    free(batch.bytes);
    return (int)status;
}
