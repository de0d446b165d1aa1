/* store.c: a register of capabilities in a file. store.h says what holds of it. */
#define _XOPEN_SOURCE 700

#include <errno.h>
#include <fcntl.h>
#include <stdio.h>
#include <stdlib.h>
#include <string.h>
#include <sys/file.h>
#include <sys/stat.h>
#include <sys/xattr.h>
#include <unistd.h>

#include "store.h"

static enum store_status refused(struct store *store, const char *fault)
{
    store->fault = fault;
    store->error = 0;
    return STORE_FAILED;
}

static enum store_status failed(struct store *store, const char *fault)
{
    store->fault = fault;
    store->error = errno;
    return STORE_FAILED;
}

/* ---- calls that a signal may interrupt or that may do a part */

static int lock(int folder)
{
    int result;
    do
        result = flock(folder, LOCK_EX);
    while (result != 0 && errno == EINTR);
    return result;
}

static int sync_all(int file)
{
    int result;
    do
        result = fsync(file);
    while (result != 0 && errno == EINTR);
    return result;
}

/* Reads up to the end of the file, but no more than `size` bytes; the number read, or -1. */
static ssize_t read_all(int file, uint8_t *bytes, size_t size)
{
    size_t length = 0;
    while (length < size) {
        ssize_t n = read(file, bytes + length, size - length);
        if (n == 0)
            break;
        if (n > 0)
            length += (size_t)n;
        else if (errno != EINTR)
            return -1;
    }
    return (ssize_t)length;
}

static int write_all(int file, const uint8_t *bytes, size_t length)
{
    while (length > 0) {
        ssize_t n = write(file, bytes, length);
        if (n < 0 && errno != EINTR)
            return -1;
        if (n > 0) {
            bytes += n;
            length -= (size_t)n;
        }
    }
    return 0;
}

/* ---- opening */

static enum store_status set_names(struct store *store, const char *name)
{
    static const char suffix[] = ".unsaved";
    size_t length = strlen(name), end = sizeof suffix - 1;
    if (length == 0)
        return refused(store, "this names no file");
    if (length >= end && strcmp(name + length - end, suffix) == 0)
        return refused(store, "a register may not be called so: the name is that of an unsaved one");
    if (length + end > STORE_NAME_MAX)
        return refused(store, "the name is too long");
    memcpy(store->name, name, length + 1);
    memcpy(store->unsaved, name, length);
    memcpy(store->unsaved + length, suffix, sizeof suffix);
    return STORE_DONE;
}

/* Finds name and folder of the register. From here on all goes by the folder's descriptor, wherever it is moved. */
static enum store_status find(struct store *store, const char *path)
{
    char *full = store->fresh ? strdup(path) : realpath(path, NULL);
    if (full == NULL)
        return failed(store, "it cannot be found");
    char *slash = strrchr(full, '/');
    char *name = slash == NULL ? full : slash + 1;
    enum store_status status = set_names(store, name);
    if (status == STORE_DONE) {
        strcpy(name, "."); /* the folder is the path with this for the name, which has a byte or more */
        store->folder = open(full, O_RDONLY | O_DIRECTORY | O_CLOEXEC);
        if (store->folder < 0)
            status = failed(store, "its folder cannot be opened");
    }
    free(full);
    return status;
}

/* A new client is an image of length 0, which the store has already. */
static enum store_status start(struct store *store)
{
    struct stat there;
    if (fstatat(store->folder, store->name, &there, AT_SYMLINK_NOFOLLOW) == 0)
        return refused(store, "there is something of this name already");
    if (errno != ENOENT)
        return failed(store, "it cannot be made");
    store->changed = true;
    return STORE_DONE;
}

static enum store_status read_image(struct store *store, int file)
{
    struct stat there;
    if (fstat(file, &there) != 0)
        return failed(store, "it cannot be read");
    if (S_ISDIR(there.st_mode))
        return refused(store, "this is a folder");
    if (!S_ISREG(there.st_mode))
        return refused(store, "this is not a file of bytes");
    if (there.st_nlink == 0)
        return refused(store, "it was replaced under this name; a mount of the file alone does not follow: mount its folder");
    ssize_t length = read_all(file, store->image, sizeof store->image);
    if (length < 0)
        return failed(store, "it cannot be read");
    store->length = (size_t)length;
    if (length == 0) {
        refused(store, "it has no bytes, so it is damaged: a register that was saved has some");
        return STORE_DAMAGED;
    }
    if (fellunqa_apply(store->image, store->length, NULL, 0, NULL, 0) != -FELLUNQA_IMAGE)
        return STORE_DONE;
    refused(store, "this is not a register, or it is damaged");
    return STORE_DAMAGED;
}

static enum store_status load(struct store *store)
{
    int file = openat(store->folder, store->name, O_RDONLY | O_NOFOLLOW | O_NONBLOCK | O_CLOEXEC);
    if (file < 0)
        return failed(store, "it cannot be opened");
    enum store_status status = read_image(store, file);
    close(file);
    return status;
}

/* The folder is synced first: a process killed before it could do so may have put the register there. */
enum store_status store_open(struct store *store, const char *path, bool fresh)
{
    memset(store, 0, sizeof *store);
    store->folder = -1;
    store->fresh = fresh;
    enum store_status status = find(store, path);
    if (status != STORE_DONE)
        return status;
    if (lock(store->folder) != 0)
        return failed(store, "its folder cannot be locked");
    if (sync_all(store->folder) != 0)
        return failed(store, "its folder cannot be synced");
    return fresh ? start(store) : load(store);
}

int64_t store_play(struct store *store, const uint8_t *line, size_t length)
{
    uint8_t area[FELLUNQA_AREA_MAX];
    int64_t answer = fellunqa_apply(store->image, store->length, line, length, area, sizeof area);
    if (answer < 0)
        return answer;
    size_t after = (size_t)area[0] << 8 | area[1];
    if (after != store->length || memcmp(store->image, area + 2, after) != 0)
        store->changed = true;
    store->length = after;
    memcpy(store->image, area + 2, after);
    return answer;
}

/* ---- saving */

/* The name that Linux has for the access list of a file. Where there is one, the mode shows its mask as the group's. */
static const char access_list[] = "system.posix_acl_access";

/* The former file, asked only after a leftover is removed, which may be a second link to it. */
static enum store_status look(struct store *store, struct stat *former)
{
    int file = openat(store->folder, store->name, O_WRONLY | O_NOFOLLOW | O_NONBLOCK | O_CLOEXEC);
    if (file < 0)
        return failed(store, "it may not be written");
    enum store_status status = STORE_DONE;
    if (fstat(file, former) != 0)
        status = failed(store, "it cannot be found again");
    else if (former->st_nlink != 1)
        status = refused(store, "it has other hard links, which would keep the former register");
    else if (fgetxattr(file, access_list, NULL, 0) >= 0)
        status = refused(store, "it has an access list, which would be lost");
    close(file);
    return status;
}

/* Gives the new file the former one's group and mode and, where the system permits it, owner; no list of the folder's. */
static int keep_access(int file, const struct stat *former)
{
    if (fremovexattr(file, access_list) != 0 && errno != ENODATA && errno != EOPNOTSUPP)
        return -1;
    if (fchown(file, former->st_uid, former->st_gid) != 0 && fchown(file, (uid_t)-1, former->st_gid) != 0)
        return -1;
    return fchmod(file, former->st_mode & 07777);
}

/* O_EXCL makes a new file and follows no link. */
static enum store_status write_unsaved(struct store *store, const struct stat *former)
{
    int file = openat(store->folder, store->unsaved, O_WRONLY | O_CREAT | O_EXCL | O_CLOEXEC, 0600);
    if (file < 0)
        return failed(store, "the new register cannot be made");
    enum store_status status = STORE_DONE;
    if (write_all(file, store->image, store->length) != 0)
        status = failed(store, "the new register cannot be written");
    else if (!store->fresh && keep_access(file, former) != 0)
        status = failed(store, "its mode and group cannot be kept");
    else if (sync_all(file) != 0)
        status = failed(store, "the new register cannot be synced");
    if (close(file) != 0 && status == STORE_DONE)
        status = failed(store, "the new register cannot be written");
    return status;
}

/* A link, other than a rename, replaces nothing. If its first name stays, the next save removes that. */
static int put_in_place(const struct store *store)
{
    int folder = store->folder;
    if (!store->fresh)
        return renameat(folder, store->unsaved, folder, store->name);
    if (linkat(folder, store->unsaved, folder, store->name, 0) != 0)
        return -1;
    unlinkat(folder, store->unsaved, 0);
    return 0;
}

/* Gives a new client without an accepted line the image that it is saved as: the clock may be set to its own tick. */
static void give_bytes(struct store *store)
{
    static const uint8_t same_tick[] = "clock 0\n";
    if (store->length == 0)
        store_play(store, same_tick, sizeof same_tick - 1);
}

static enum store_status replace(struct store *store)
{
    struct stat former = {0};
    enum store_status status = STORE_DONE;
    if (unlinkat(store->folder, store->unsaved, 0) != 0 && errno != ENOENT && errno != EROFS)
        return failed(store, "an unsaved register cannot be removed");
    if (!store->fresh)
        status = look(store, &former);
    if (status != STORE_DONE)
        return status;
    status = write_unsaved(store, &former);
    if (status == STORE_DONE && put_in_place(store) != 0)
        status = failed(store, "the new register cannot be put in place");
    if (status != STORE_DONE)
        unlinkat(store->folder, store->unsaved, 0);
    return status;
}

enum store_status store_save(struct store *store)
{
    if (store->changed) {
        give_bytes(store);
        enum store_status status = replace(store);
        if (status != STORE_DONE)
            return status;
        store->fresh = false;
        store->changed = false;
        if (sync_all(store->folder) != 0) {
            failed(store, "the new register is in place, but its folder cannot be synced");
            store->unsure = true;
        }
    }
    return store->unsure ? STORE_UNSURE : STORE_DONE;
}

void store_close(struct store *store)
{
    if (store->folder >= 0)
        close(store->folder);
    store->folder = -1;
}
