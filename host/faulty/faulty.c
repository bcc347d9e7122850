/* A stand-in for the C library's read, lseek and write, put before it when a proved program runs: the faults that a file system, a pipe or
 * a signal can make, at a place that is chosen. Environment variables, each a number, say which; without one nothing is changed.
 *
 *     FAULTY_READ_FAIL=N        reads give N bytes in all, and then fail with EIO
 *     FAULTY_READ_END=N         reads give N bytes in all, and then claim the end
 *     FAULTY_READ_MOST=N        a read gives N bytes at most
 *     FAULTY_READ_AGAIN=N       N calls are interrupted (EINTR) before each one that goes through
 *     FAULTY_SEEK_FAIL=E        lseek fails with errno E
 *     FAULTY_WRITE_FAIL=N       standard output takes N bytes in all, and then fails with ENOSPC
 *     FAULTY_WRITE_MOST=N       a write takes N bytes at most
 *     FAULTY_WRITE_AGAIN=N      N calls are interrupted before each one that goes through
 *
 * It makes the system calls itself and includes no header, so that it is built for x86-64 on any machine. */

typedef unsigned long size;
typedef long count;

extern char *getenv(const char *name);
extern int *__errno_location(void);

enum { SYS_READ = 0, SYS_WRITE = 1, SYS_LSEEK = 8, INTERRUPTED = 4, INPUT_OUTPUT = 5, NO_SPACE = 28, STANDARD_OUTPUT = 1 };

/* The calls of one kind: what was moved, and how many were interrupted since the last that went through. */
struct calls {
    count moved;
    count interrupted;
};

static struct calls reads, writes;

/* The number of that name, or -1. */
static count setting(const char *name)
{
    const char *text = getenv(name);
    count n = 0;
    if (!text || !*text)
        return -1;
    for (; *text >= '0' && *text <= '9'; text++)
        n = 10 * n + (*text - '0');
    return n;
}

static count fail(int error)
{
    *__errno_location() = error;
    return -1;
}

static count system_call(count number, int fd, count second, count third)
{
    count result;
    __asm__ volatile("syscall"
                     : "=a"(result)
                     : "a"(number), "D"((count)fd), "S"(second), "d"(third)
                     : "rcx", "r11", "memory");
    return result < 0 ? fail((int)-result) : result;
}

/* Whether this call is interrupted. */
static int is_interrupted(struct calls *calls, count again)
{
    if (calls->interrupted < again) {
        calls->interrupted++;
        return 1;
    }
    calls->interrupted = 0;
    return 0;
}

static size least(size n, count most)
{
    return most >= 0 && (size)most < n ? (size)most : n;
}

count read(int fd, void *bytes, size n)
{
    count fails = setting("FAULTY_READ_FAIL"), ends = setting("FAULTY_READ_END"), got;
    if (is_interrupted(&reads, setting("FAULTY_READ_AGAIN")))
        return fail(INTERRUPTED);
    if (fails >= 0 && reads.moved >= fails)
        return fail(INPUT_OUTPUT);
    if (ends >= 0 && reads.moved >= ends)
        return 0;
    n = least(n, setting("FAULTY_READ_MOST"));
    n = least(n, fails < 0 ? -1 : fails - reads.moved);
    n = least(n, ends < 0 ? -1 : ends - reads.moved);
    got = system_call(SYS_READ, fd, (count)bytes, (count)n);
    if (got > 0)
        reads.moved += got;
    return got;
}

count lseek(int fd, count offset, int whence)
{
    count error = setting("FAULTY_SEEK_FAIL");
    return error >= 0 ? fail((int)error) : system_call(SYS_LSEEK, fd, offset, whence);
}

count write(int fd, const void *bytes, size n)
{
    count fails = fd == STANDARD_OUTPUT ? setting("FAULTY_WRITE_FAIL") : -1, put;
    if (is_interrupted(&writes, setting("FAULTY_WRITE_AGAIN")))
        return fail(INTERRUPTED);
    if (fails >= 0 && writes.moved >= fails)
        return fail(NO_SPACE);
    n = least(n, setting("FAULTY_WRITE_MOST"));
    n = least(n, fails < 0 ? -1 : fails - writes.moved);
    put = system_call(SYS_WRITE, fd, (count)bytes, (count)n);
    if (put > 0 && fd == STANDARD_OUTPUT)
        writes.moved += put;
    return put;
}
