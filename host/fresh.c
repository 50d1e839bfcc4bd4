/* Making new files, and giving them their names. */
#define _GNU_SOURCE     /* renameat2 */

#include "fresh.h"
#include "text.h"
#include "whole.h"

#include <errno.h>
#include <fcntl.h>
#include <stdio.h>
#include <sys/stat.h>
#include <unistd.h>

enum {
    FILE_MODE = 0666,           /* for a new file: less what the umask takes away */
    GROUP_BITS = 070, OTHER_BITS = 07, GROUP_SHIFT = 3
};

struct rights rights_of_umask(void)
{
    struct rights rights = {0, 0, 0, 0};
    mode_t mask = umask(0);
    umask(mask);
    rights.mode = FILE_MODE & ~mask;
    return rights;
}

/* It may be read and written by the same people. Where the group cannot be kept, another group
   gets no more than everybody has. */
int give_rights(int to, const struct rights *rights)
{
    mode_t mode = rights->mode;
    if (rights->given && fchown(to, rights->owner, rights->group) != 0 &&
        fchown(to, (uid_t)-1, rights->group) != 0)
        mode = (mode & ~(mode_t)GROUP_BITS) | (mode & OTHER_BITS) << GROUP_SHIFT;
    return fchmod(to, mode) == 0;
}

int fresh_open(int directory, const char *name)
{
    return openat(directory, name, O_WRONLY | O_CREAT | O_EXCL | O_NOFOLLOW | O_CLOEXEC,
                  PRIVATE_MODE);
}

/* The rights come first: what is private is never open to others. */
int fresh_fill(int to, const struct rights *rights, const uint8_t *bytes, size_t length)
{
    int filled = give_rights(to, rights) && whole_write(to, bytes, length) && fsync(to) == 0;
    int reason = errno;
    if (close(to) == 0 || !filled)
        errno = reason;
    else
        filled = 0;
    return filled;
}

/* Where that cannot be done in one step (EINVAL, for an old system too), the file has both names
   for a moment. */
int fresh_take_free(int directory, const char *fresh, const char *name)
{
    if (renameat2(directory, fresh, directory, name, RENAME_NOREPLACE) == 0)
        return 1;
    if (errno != EINVAL || linkat(directory, fresh, directory, name, 0) != 0)
        return 0;
    if (unlinkat(directory, fresh, 0) != 0)
        complain_system(fresh, "cannot remove this second name of the new file");
    return 1;
}

/* A file system that cannot says EINVAL; there is no more to be done then. */
int directory_sync(int directory, const char *path)
{
    if (fsync(directory) == 0 || errno == EINVAL)
        return 1;
    complain_system(path, "cannot put the directory on the disk");
    return 0;
}
