/*
 * A program over examples/store.c, compiled with -Dfsync=failing_fsync: the folder cannot be synced after a save. From
 * then on every save says that it is not sure, though the register in the file is the new one. It includes store.h
 * first, with nothing defined before it, as a program that copies the store may do.
 */
#include "store.h"

#include <stdio.h>
#include <string.h>

static int allowed; /* how many more syncs are made */

int failing_fsync(int file);

int failing_fsync(int file)
{
    (void)file;
    return allowed-- > 0 ? 0 : -1;
}

static int64_t play(struct store *store, const char *line)
{
    return store_play(store, (const uint8_t *)line, strlen(line));
}

static int wrong(const char *what)
{
    fprintf(stderr, "%s\n", what);
    return 1;
}

int main(int argc, char **argv)
{
    static struct store store;
    (void)argc;
    allowed = 2; /* the folder as it is opened, and the new register */
    if (store_open(&store, argv[1], true) != STORE_DONE || play(&store, "enrol 1 0\n") != 0)
        return wrong("the register is not made");
    if (store_save(&store) != STORE_UNSURE)
        return wrong("a folder that cannot be synced is not told");
    allowed = 100;
    if (store_save(&store) != STORE_UNSURE)
        return wrong("a second save forgets that the first was not sure");
    if (play(&store, "enrol 2 0\n") != 0 || store_save(&store) != STORE_UNSURE)
        return wrong("a later save forgets it");
    store_close(&store);
    return 0;
}
