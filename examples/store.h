/*
 * store.h: one register of capabilities in a file, for processes that may be killed and may meet.
 *
 *     struct store store;
 *     enum store_status status = store_open(&store, path, false);
 *     if (status == STORE_DONE) {
 *         answer = store_play(&store, line, length);     // as often as there are lines
 *         status = store_save(&store);                   // once: all these lines or none
 *     }
 *     store_close(&store);
 *     // only now tell anybody what the answers were, and only if status is STORE_DONE
 *
 * What holds, on a local file system that keeps what was synced:
 *
 *   - Whole: at every moment the path names a whole register, that before a save or that after it. The new one is
 *     written to NAME.unsaved in the same folder, synced, and renamed.
 *   - Kept: when store_save has returned STORE_DONE, the register outlasts a power cut, as the folder was synced too.
 *   - Alone: from store_open to store_close no other process has a register of the same folder open; store_open waits.
 *     It would wait for this process too, so open one store at a time. The lock is flock on the folder. It ends with
 *     its process, however that ends; no file stands for it; and a rename in the folder does not move it. A child
 *     made by fork shares it. flock is not part of POSIX, nor are the calls for access lists: this is for Linux.
 *   - One: symbolic links are followed before anything else, so all paths to a register are one register. A save
 *     would part a register that has several hard links, and is refused; a file that was replaced behind a mount of
 *     it alone is not read.
 *   - Nothing to clear away: a killed process leaves at most NAME.unsaved, which is never read or followed and which
 *     the next save removes, or is refused where it may not. So NAME.unsaved is the store's; a register may not be
 *     called so.
 *   - Never without bytes: the library takes an image of length 0 for a new client, but a save writes 26 bytes or more.
 *     So a file of length 0 has lost its register, and is refused as damaged; a new client has no file yet.
 *   - Mode, group and, where the system permits it, owner stay those of the register. If the group cannot stay, if the
 *     register has an access list, which would be lost, or if it or its folder may not be written, the save is refused.
 *     Lines that change nothing write nothing, and so need no more than leave to read.
 */
#ifndef STORE_H
#define STORE_H

#include <stdbool.h>
#include <stddef.h>
#include <stdint.h>

#include <fellunqa.h>

enum store_status {
    STORE_DONE = 0,
    STORE_FAILED,  /* the register file is as it was */
    STORE_DAMAGED, /* the file is not a register; it is as it was */
    STORE_UNSURE   /* the new register is in place, but may not outlast a power cut */
};

enum { STORE_NAME_MAX = 255 };

struct store {
    int folder; /* the descriptor of its folder, which is locked; -1 if there is none */
    char name[STORE_NAME_MAX + 1];
    char unsaved[STORE_NAME_MAX + 1];
    bool fresh;   /* there is no register file yet */
    bool changed; /* a line was accepted that changed the image since it was read or saved */
    bool unsure;  /* the folder could not be synced after a save; no later sync makes up for that */
    size_t length; /* 0: a new client, of which no line was accepted yet */
    uint8_t image[FELLUNQA_IMAGE_MAX + 1]; /* one byte more than any image, so that a longer file is seen */
    const char *fault;                     /* what went wrong, if anything did */
    int error;                             /* and why, as in errno; 0 if the fault says it all */
};

/* Locks and loads the register. With `fresh` it starts one, which must not be there; store_save makes its file. */
enum store_status store_open(struct store *store, const char *path, bool fresh);

/* Plays a line on the register in memory; what comes back is what fellunqa_apply returns. */
int64_t store_play(struct store *store, const uint8_t *line, size_t length);

/* Puts the register in memory in the place of the file. */
enum store_status store_save(struct store *store);

/* Ends the lock, if there is one. What was not saved is dropped. */
void store_close(struct store *store);

#endif
