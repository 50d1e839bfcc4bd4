/* fault: runs a program on an input that gives some bytes and then fails.
 *
 *   fault BYTES PROGRAM [ARGUMENT..]
 *
 * The input is the near end of a terminal whose far end wrote BYTES and was closed: the
 * program reads them all, and its next read fails instead of ending. */
#define _XOPEN_SOURCE 600

#include <fcntl.h>
#include <stdio.h>
#include <stdlib.h>
#include <string.h>
#include <termios.h>
#include <unistd.h>

enum { FIRST_ARGUMENT = 2, FAILED = 125 };

/* The bytes arrive as they were written. */
static int is_plain(int far_end)
{
    struct termios mode;
    if (tcgetattr(far_end, &mode) != 0)
        return 0;
    mode.c_oflag &= ~(tcflag_t)OPOST;
    mode.c_lflag &= ~(tcflag_t)(ECHO | ICANON);
    return tcsetattr(far_end, TCSANOW, &mode) == 0;
}

/* The near end of a terminal with these bytes on their way, or -1. */
static int failing_input(const char *bytes)
{
    size_t length = strlen(bytes);
    int near_end = posix_openpt(O_RDWR | O_NOCTTY), far_end;
    if (near_end == -1 || grantpt(near_end) != 0 || unlockpt(near_end) != 0)
        return -1;
    far_end = open(ptsname(near_end), O_RDWR | O_NOCTTY);
    if (far_end == -1 || !is_plain(far_end) || write(far_end, bytes, length) != (ssize_t)length)
        return -1;
    return close(far_end) == 0 ? near_end : -1;
}

int main(int argument_count, char **arguments)
{
    int input;
    if (argument_count <= FIRST_ARGUMENT)
        return FAILED;
    input = failing_input(arguments[1]);
    if (input == -1 || dup2(input, STDIN_FILENO) == -1) {
        perror("fault");
        return FAILED;
    }
    execvp(arguments[FIRST_ARGUMENT], arguments + FIRST_ARGUMENT);
    perror("fault");
    return FAILED;
}
