/*
 * damage: runs inspect on damaged images, each time in a process of its own.
 *
 *     damage IMAGE STATUS FOLDER
 *
 * The image is cut at every length and has each of its bits flipped, one at a time. A cut one must be refused: with this
 * status (3 if it has no bytes), one line on standard error and nothing on standard output. So must one with a flipped bit, or else be printed,
 * with status 0 and nothing on standard error; then FOLDER keeps the image and what was printed. Any other end, as by a
 * sanitizer, is a failure. Says how many of each there were; the exit status is 1 if one failed.
 *
 * Linked with inspect.c, whose main is renamed to inspect_main.
 */
#define _POSIX_C_SOURCE 200809L

#include <stdio.h>
#include <stdlib.h>
#include <string.h>
#include <sys/wait.h>
#include <unistd.h>

#include <fellunqa.h>

int inspect_main(int argc, char **argv);

enum { IN, OUT, ERR, STREAMS };

struct trial {
    FILE *streams[STREAMS]; /* what inspect has as its standard streams */
    int refusal;
    const char *folder;
    unsigned cut, refused, printed, failed;
};

static long size_of(FILE *file)
{
    fseek(file, 0, SEEK_END);
    return ftell(file);
}

static int child(struct trial *trial, char *option)
{
    char *argv[] = {"inspect", option, "-", NULL};
    for (int i = 0; i < STREAMS; i++)
        dup2(fileno(trial->streams[i]), i);
    return inspect_main(3, argv);
}

/* The exit status, or -1 after a signal. */
static int run(struct trial *trial, const uint8_t *bytes, size_t length, char *option)
{
    int status = 0;
    for (int i = 0; i < STREAMS; i++) {
        rewind(trial->streams[i]);
        if (ftruncate(fileno(trial->streams[i]), 0) != 0)
            abort();
    }
    fwrite(bytes, 1, length, trial->streams[IN]);
    rewind(trial->streams[IN]);
    fflush(NULL);
    pid_t process = fork();
    if (process == 0)
        exit(child(trial, option));
    if (process < 0 || waitpid(process, &status, 0) != process)
        abort();
    return WIFEXITED(status) ? WEXITSTATUS(status) : -1;
}

/* One line, that names the program and standard input. */
static int is_message(FILE *file)
{
    static const char start[] = "inspect: standard input: ";
    char text[400] = "";
    rewind(file);
    size_t length = fread(text, 1, sizeof text - 1, file);
    return strncmp(text, start, sizeof start - 1) == 0 && strchr(text, '\n') == text + length - 1;
}

static void keep(const struct trial *trial, unsigned number, const char *kind, FILE *from)
{
    char path[4096], bytes[65536];
    snprintf(path, sizeof path, "%s/%05u.%s", trial->folder, number, kind);
    FILE *to = fopen(path, "wb");
    if (to == NULL)
        abort();
    rewind(from);
    size_t length = fread(bytes, 1, sizeof bytes, from);
    fwrite(bytes, 1, length, to);
    if (fclose(to) != 0)
        abort();
}

static int is_refused(struct trial *trial, int status)
{
    return status == trial->refusal && size_of(trial->streams[OUT]) == 0 && is_message(trial->streams[ERR]);
}

static int is_printed(struct trial *trial, int status)
{
    return status == 0 && size_of(trial->streams[OUT]) > 0 && size_of(trial->streams[ERR]) == 0;
}

static void report(struct trial *trial, const char *what, size_t at, int status)
{
    char text[4000];
    rewind(trial->streams[ERR]);
    size_t length = fread(text, 1, sizeof text, trial->streams[ERR]);
    printf("%s %zu: status %d\n%.*s\n", what, at, status, (int)length, text);
    trial->failed++;
}

/* No bytes are refused before the library is asked about them. */
static void try_cut(struct trial *trial, const uint8_t *bytes, size_t length)
{
    int refusal = trial->refusal, status = run(trial, bytes, length, "--");
    trial->cut++;
    trial->refusal = length == 0 ? 3 : refusal;
    if (!is_refused(trial, status))
        report(trial, "cut to length", length, status);
    trial->refusal = refusal;
}

static void try_flipped(struct trial *trial, uint8_t *bytes, size_t length, size_t bit)
{
    bytes[bit / 8] ^= (uint8_t)(1 << bit % 8);
    int status = run(trial, bytes, length, "--");
    if (is_refused(trial, status)) {
        trial->refused++;
    } else if (is_printed(trial, status)) {
        keep(trial, trial->printed, "image", trial->streams[IN]);
        keep(trial, trial->printed, "text", trial->streams[OUT]);
        status = run(trial, bytes, length, "--dot");
        if (!is_printed(trial, status))
            report(trial, "graph with flipped bit", bit, status);
        keep(trial, trial->printed++, "dot", trial->streams[OUT]);
    } else {
        report(trial, "flipped bit", bit, status);
    }
    bytes[bit / 8] ^= (uint8_t)(1 << bit % 8);
}

int main(int argc, char **argv)
{
    uint8_t bytes[FELLUNQA_IMAGE_MAX];
    struct trial trial = {.refusal = argc > 3 ? atoi(argv[2]) : 0, .folder = argc > 3 ? argv[3] : ""};
    FILE *file = argc > 3 ? fopen(argv[1], "rb") : NULL;
    if (file == NULL)
        return 1;
    size_t length = fread(bytes, 1, sizeof bytes, file);
    fclose(file);
    for (int i = 0; i < STREAMS; i++)
        if ((trial.streams[i] = tmpfile()) == NULL)
            abort();
    for (size_t cut = 0; cut < length; cut++)
        try_cut(&trial, bytes, cut);
    for (size_t bit = 0; bit < length * 8; bit++)
        try_flipped(&trial, bytes, length, bit);
    printf("%u cut, %u flipped and refused, %u flipped and printed, %u failed\n", trial.cut, trial.refused, trial.printed,
           trial.failed);
    return trial.failed != 0;
}
