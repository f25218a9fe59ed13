/* Stands before calls of the C library: the call FAIL_READ (of standard input), FAIL_WRITE (of standard output),
   FAIL_APPEND (a write to another file), FAIL_SYNC (fdatasync), FAIL_CUT (ftruncate), FAIL_LOOK (pread), FAIL_LOCK (flock)
   or FAIL_OPEN (an open to append), counted from 1, fails with the error FAIL_WITH, or EIO, and makes the file FAIL_MARK. With
   FAIL_SHORT each write to another file and each pread is of half of what is asked. Outside the gate:
   tests/damaged-runs.py, tests/session.py. */
#define _GNU_SOURCE
#include <dlfcn.h>
#include <errno.h>
#include <fcntl.h>
#include <stdarg.h>
#include <stdlib.h>
#include <sys/file.h>
#include <unistd.h>

static int fails(const char *name, unsigned long call)
{
    const char *from = getenv(name), *mark = getenv("FAIL_MARK"), *with = getenv("FAIL_WITH");
    if (!from || !mark || call != strtoul(from, 0, 10))
        return 0;
    close(open(mark, O_CREAT | O_WRONLY, 0600));
    errno = with ? atoi(with) : EIO;
    return 1;
}

static size_t of(size_t size)
{
    return getenv("FAIL_SHORT") && size > 1 ? size / 2 : size;
}

#define NEXT(name) static __typeof__(&name) next; if (!next) next = (__typeof__(&name))dlsym(RTLD_NEXT, #name)

ssize_t read(int file, void *buffer, size_t size)
{
    static unsigned long calls;
    NEXT(read);
    return file == 0 && fails("FAIL_READ", ++calls) ? -1 : next(file, buffer, size);
}

ssize_t write(int file, const void *buffer, size_t size)
{
    static unsigned long calls, appends;
    NEXT(write);
    if (file == 1 && fails("FAIL_WRITE", ++calls))
        return -1;
    if (file <= 2)
        return next(file, buffer, size);
    return fails("FAIL_APPEND", ++appends) ? -1 : next(file, buffer, of(size));
}

ssize_t pread(int file, void *buffer, size_t size, off_t place)
{
    static unsigned long calls;
    NEXT(pread);
    return fails("FAIL_LOOK", ++calls) ? -1 : next(file, buffer, of(size), place);
}

int open(const char *name, int how, ...)
{
    static unsigned long calls;
    va_list rest;
    mode_t mode = 0;
    NEXT(open);
    if (how & O_CREAT) {
        va_start(rest, how);
        mode = va_arg(rest, mode_t);
        va_end(rest);
    }
    return how & O_APPEND && fails("FAIL_OPEN", ++calls) ? -1 : next(name, how, mode);
}

int flock(int file, int how)
{
    static unsigned long calls;
    NEXT(flock);
    return fails("FAIL_LOCK", ++calls) ? -1 : next(file, how);
}

int fdatasync(int file)
{
    static unsigned long calls;
    NEXT(fdatasync);
    return fails("FAIL_SYNC", ++calls) ? -1 : next(file);
}

int ftruncate(int file, off_t size)
{
    static unsigned long calls;
    NEXT(ftruncate);
    return fails("FAIL_CUT", ++calls) ? -1 : next(file, size);
}
