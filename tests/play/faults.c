/* Loaded before the C library of a program: its reads, writes and syncs as the variable FAULTS asks.
   "slow": no call moves more than 7 bytes, every third one is interrupted and every sixteenth one unready.
   "read": reads fail once 40 bytes have come.  "write": writes to standard output fail once 40 bytes have gone, with a short one before.
   "sync": what was written is lost when the system is to write it down. */
#include <errno.h>
#include <stdlib.h>
#include <string.h>
#include <sys/syscall.h>
#include <sys/types.h>
#include <unistd.h>

enum { MOST_BYTES = 7, BYTES_BEFORE_FAULT = 40 };

static size_t calls, come, gone;

static int asked(const char *fault)
{
    const char *faults = getenv("FAULTS");
    return faults != NULL && strcmp(faults, fault) == 0;
}

/* The C library's own syscall() would do, but calls of x86-64 are all that is needed. */
static long made(long number, long a, long b, long c)
{
    long answer;
    __asm__ volatile("syscall" : "=a"(answer) : "0"(number), "D"(a), "S"(b), "d"(c) : "rcx", "r11", "memory");
    if (answer < 0) {
        errno = (int)-answer;
        return -1;
    }
    return answer;
}

static int put_off(void)
{
    calls++;
    if (calls % 16 == 0)
        errno = EAGAIN;
    else if (calls % 3 == 0)
        errno = EINTR;
    else
        return 0;
    return -1;
}

static size_t least(size_t a, size_t b)
{
    return a < b ? a : b;
}

ssize_t read(int fd, void *buf, size_t count)
{
    ssize_t got;
    if (asked("slow")) {
        if (put_off() < 0)
            return -1;
        count = least(count, MOST_BYTES);
    }
    if (asked("read")) {
        if (come == BYTES_BEFORE_FAULT) {
            errno = EIO;
            return -1;
        }
        count = least(count, BYTES_BEFORE_FAULT - come);
    }
    got = made(SYS_read, fd, (long)buf, (long)count);
    if (got > 0)
        come += (size_t)got;
    return got;
}

ssize_t write(int fd, const void *buf, size_t count)
{
    ssize_t put;
    if (fd == STDOUT_FILENO && asked("slow")) {
        if (put_off() < 0)
            return -1;
        count = least(count, MOST_BYTES);
    }
    if (fd == STDOUT_FILENO && asked("write")) {
        if (gone == BYTES_BEFORE_FAULT) {
            errno = ENOSPC;
            return -1;
        }
        count = least(count, BYTES_BEFORE_FAULT - gone);
    }
    put = made(SYS_write, fd, (long)buf, (long)count);
    if (fd == STDOUT_FILENO && put > 0)
        gone += (size_t)put;
    return put;
}

int fsync(int fd)
{
    if (asked("sync")) {
        errno = EIO;
        return -1;
    }
    return (int)made(SYS_fsync, fd, 0, 0);
}
