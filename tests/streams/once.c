/* Put before the C library: of the calls of read or write that ONCE_CALL names, on standard input or output or, where ONCE_FILES is set, on
   what was opened, the one that ONCE_AT names, counted from 1, does what ONCE_HOW says: it fails with EIO (refused) or EINTR (interrupted),
   takes nothing (nothing), or one byte (short). All others are as ever. That it came to it is told by a byte on the descriptor that
   ONCE_TOLD names. */
#define _GNU_SOURCE
#include <errno.h>
#include <stdatomic.h>
#include <stdlib.h>
#include <string.h>
#include <sys/syscall.h>
#include <unistd.h>

static atomic_ulong calls;
static unsigned long at;
static int told = -1, files;
static const char *call = "", *how = "";

__attribute__((constructor)) static void begin(void)
{
    at = strtoul(getenv("ONCE_AT"), NULL, 10);
    told = atoi(getenv("ONCE_TOLD"));
    call = getenv("ONCE_CALL");
    how = getenv("ONCE_HOW");
    files = getenv("ONCE_FILES") != NULL;
}

/* Whether this call is the one. */
static int is_it(const char *name, int from, int stream)
{
    if (strcmp(call, name) != 0 || (files ? from < 3 || from == told : from != stream))
        return 0;
    if (atomic_fetch_add(&calls, 1) + 1 != at)
        return 0;
    if (syscall(SYS_write, told, "r", 1) < 0)
        _exit(99);
    return 1;
}

/* How many bytes such a call may move, or -1 where it fails. */
static ssize_t room(size_t size)
{
    if (strcmp(how, "short") == 0)
        return size > 0;
    if (strcmp(how, "nothing") == 0)
        return 0;
    errno = strcmp(how, "interrupted") == 0 ? EINTR : EIO;
    return -1;
}

ssize_t read(int from, void *bytes, size_t size)
{
    ssize_t most = is_it("read", from, 0) ? room(size) : (ssize_t)size;
    return most < 0 ? -1 : syscall(SYS_read, from, bytes, (size_t)most);
}

ssize_t write(int to, const void *bytes, size_t size)
{
    ssize_t most = is_it("write", to, 1) ? room(size) : (ssize_t)size;
    return most <= 0 && size > 0 ? most : syscall(SYS_write, to, bytes, (size_t)most);
}
