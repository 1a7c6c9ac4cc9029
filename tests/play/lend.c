/* lend HOW PROGRAM WORDS..: runs the program with something of its surroundings changed that a shell cannot change.
   "unready-in", "unready-out": standard input or output does not wait (O_NONBLOCK).
   "pipe-ends", "pipe-fails": a write to a pipe that nobody reads ends the program (SIGPIPE as usual), or fails. */
#include <fcntl.h>
#include <signal.h>
#include <stdio.h>
#include <string.h>
#include <unistd.h>

static int be_unready(int fd)
{
    int flags = fcntl(fd, F_GETFL);
    return flags < 0 ? -1 : fcntl(fd, F_SETFL, flags | O_NONBLOCK);
}

static int change(const char *how)
{
    if (strcmp(how, "unready-in") == 0)
        return be_unready(STDIN_FILENO);
    if (strcmp(how, "unready-out") == 0)
        return be_unready(STDOUT_FILENO);
    if (strcmp(how, "pipe-ends") == 0)
        return signal(SIGPIPE, SIG_DFL) == SIG_ERR ? -1 : 0;
    if (strcmp(how, "pipe-fails") == 0)
        return signal(SIGPIPE, SIG_IGN) == SIG_ERR ? -1 : 0;
    return -1;
}

int main(int argc, char **argv)
{
    if (argc < 3 || change(argv[1]) < 0) {
        fprintf(stderr, "lend: HOW PROGRAM WORDS.. expected, or HOW cannot be had\n");
        return 2;
    }
    execv(argv[2], argv + 2);
    perror(argv[2]);
    return 2;
}
