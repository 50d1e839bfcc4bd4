/* The files beside a book: their names, and new files that take the place of old ones. */
#define _XOPEN_SOURCE 700

#include "own_files.h"
#include "text.h"

#include <errno.h>
#include <fcntl.h>
#include <stdlib.h>
#include <string.h>
#include <unistd.h>

enum {
    MOST_NAMES = 1000,          /* names tried for a new file */
    NUMBERS_ROOM = 48           /* room for two numbers in such a name */
};

static const char *const endings[OWN_COUNT] = {".lock", ".digests", ".log", ".old", ""};

static char *joined(const char *first, const char *second)
{
    size_t length = strlen(first) + strlen(second) + 1;
    char *both = malloc(length);
    if (both != NULL)
        snprintf(both, length, "%s%s", first, second);
    return both;
}

int own_files_name(struct own_files *files, const char *path)
{
    files->directory = joined(path, "");
    if (files->directory == NULL)
        return 0;
    strrchr(files->directory, '/')[1] = '\0';
    for (int i = 0; i < OWN_COUNT; i++)
        if ((files->paths[i] = joined(path, endings[i])) == NULL)
            return 0;
    return 1;
}

const char *own_files_which(const struct own_files *files, const struct stat *status)
{
    for (int i = 0; i < OWN_COUNT; i++) {
        struct stat own;
        if (stat(files->paths[i], &own) == 0 && own.st_dev == status->st_dev &&
            own.st_ino == status->st_ino)
            return files->paths[i];
    }
    return NULL;
}

/* The lock file is opened again at each run, so its owner may always do that. */
int own_files_open_lock(const struct own_files *files)
{
    const char *path = files->paths[OWN_LOCK];
    struct rights rights = files->rights;
    int flags = O_RDWR | O_NOFOLLOW | O_NONBLOCK | O_CLOEXEC;
    int lock = open(path, flags | O_CREAT | O_EXCL, PRIVATE_MODE);
    if (lock < 0 && errno == EEXIST)
        return open(path, flags);
    rights.mode |= PRIVATE_MODE;
    if (lock >= 0 && !give_rights(lock, &rights)) {
        int reason = errno;
        close(lock);
        errno = reason;
        return -1;
    }
    return lock;
}

int own_files_open(const struct own_files *files, enum own which)
{
    return open(files->paths[which], O_RDONLY | O_NOFOLLOW | O_NONBLOCK | O_CLOEXEC);
}

/* Makes a new file that nobody had before. Its name is kept in `path`. */
static int make_fresh(const char *directory, enum own which, char *path, size_t room)
{
    int to = -1;
    for (int number = which; number < MOST_NAMES; number += OWN_COUNT) {
        snprintf(path, room, "%s.wizqamul-new-%ld-%d", directory, (long)getpid(), number);
        to = fresh_open(AT_FDCWD, path);
        if (to >= 0 || errno != EEXIST)
            break;
    }
    return to;
}

int own_files_write(struct own_files *files, enum own which, const uint8_t *bytes, size_t length)
{
    size_t room = strlen(files->directory) + NUMBERS_ROOM;
    char *path = malloc(room);
    int to;
    if (path == NULL) {
        complain(files->paths[which], "out of memory");
        return 0;
    }
    to = make_fresh(files->directory, which, path, room);
    if (to < 0) {
        complain_system(files->directory, "cannot make a new file");
        free(path);
        return 0;
    }
    files->fresh[which] = path;
    if (fresh_fill(to, &files->rights, bytes, length))
        return 1;
    complain_system(files->paths[which], "cannot write a new file in its place");
    return 0;
}

/* A new file takes its name, in place of an old one unless the book is new. */
static int take_name(const struct own_files *files, int which)
{
    if (which == OWN_BOOK && files->book_is_new)
        return fresh_take_free(AT_FDCWD, files->fresh[which], files->paths[which]);
    return rename(files->fresh[which], files->paths[which]) == 0;
}

/* The new files from `first` up to `last` take their names; then the directory goes to the
   disk. */
static int take_names(struct own_files *files, int directory, int first, int last)
{
    for (int i = first; i < last; i++) {
        if (files->fresh[i] == NULL)
            continue;
        if (!take_name(files, i)) {
            complain_system(files->paths[i], "cannot put the new file in its place");
            return 0;
        }
        free(files->fresh[i]);
        files->fresh[i] = NULL;
    }
    return directory_sync(directory, files->directory);
}

static int open_directory(const struct own_files *files)
{
    int directory = open(files->directory, O_RDONLY | O_DIRECTORY | O_CLOEXEC);
    if (directory < 0)
        complain_system(files->directory, "cannot open the directory");
    return directory;
}

int own_files_sync(const struct own_files *files)
{
    int directory = open_directory(files);
    int synced = directory >= 0 && directory_sync(directory, files->directory);
    if (directory >= 0)
        close(directory);
    return synced;
}

enum take_result own_files_take(struct own_files *files)
{
    enum take_result result = TAKE_FAILED;
    int directory = open_directory(files);
    if (directory >= 0 && take_names(files, directory, 0, OWN_BOOK)) {
        if (take_names(files, directory, OWN_BOOK, OWN_COUNT))
            result = TAKE_DONE;
        else if (files->fresh[OWN_BOOK] == NULL)
            result = TAKE_UNCERTAIN;
    }
    if (directory >= 0)
        close(directory);
    return result;
}

void own_files_leave(struct own_files *files)
{
    for (int i = 0; i < OWN_COUNT; i++) {
        if (files->fresh[i] != NULL)
            unlink(files->fresh[i]);
        free(files->fresh[i]);
        free(files->paths[i]);
    }
    free(files->directory);
}
