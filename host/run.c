/* The standard streams of a run. */
#define _XOPEN_SOURCE 700

#include "run.h"
#include "text.h"

#include <fcntl.h>
#include <unistd.h>

int streams_are_open(void)
{
    static const char *const streams[] = {"standard input", "standard output", "standard error"};
    int all = 1;
    if (fcntl(STDERR_FILENO, F_GETFD) == -1)
        complain_on(stdout);
    for (int stream = STDIN_FILENO; stream <= STDERR_FILENO; stream++) {
        if (fcntl(stream, F_GETFD) == -1) {
            complain(streams[stream], "it is closed; nothing was done");
            all = 0;
        }
    }
    return all;
}

static int is_own(const struct own_files *own, int stream)
{
    struct stat status;
    return fstat(stream, &status) == 0 && own_files_which(own, &status) != NULL;
}

int streams_are_others(const struct own_files *own, const char *book)
{
    int out = is_own(own, STDOUT_FILENO), err = is_own(own, STDERR_FILENO);
    if (err)
        complain_on(stdout);
    if (out != err)
        complain(book, "standard output or standard error is a file of this book; "
                       "nothing was done");
    return !out && !err;
}

int output_is_out(void)
{
    if (fflush(stdout) != 0)
        complain_system("standard output", "cannot write");
    else if (ferror(stdout))
        complain("standard output", "not all could be written");
    else
        return 1;
    return 0;
}
