/* Preloaded into a program by samples/check: read, write and fsync as a bad disk, a signal, a slow line or a full disk would have them.
 *
 * The reads on descriptors above 2 are counted, the writes on descriptor 1, and those on descriptor 2, each from 1 on. Variables of the environment choose what
 * happens to them; CALLS is a list of numbers with commas between, or "all":
 *
 *   READ_FAILS=CALLS        these reads fail with EIO
 *   READ_INTERRUPTED=CALLS  these reads are interrupted by a signal (EINTR)
 *   READ_MOST=N             no read gives more than N bytes
 *   WRITE_FAILS=CALLS, WRITE_INTERRUPTED=CALLS, WRITE_MOST=N   the same of writes, which fail with ENOSPC
 *   ERROR_FAILS=CALLS, ERROR_INTERRUPTED=CALLS, ERROR_MOST=N   and of the writes on descriptor 2
 *   SYNC_FAILS=1            storing what was written fails with EDQUOT
 */
#define _GNU_SOURCE
#include <errno.h>
#include <stdbool.h>
#include <stddef.h>
#include <stdlib.h>
#include <string.h>
#include <sys/syscall.h>
#include <sys/types.h>
#include <unistd.h>

/* Whether the list that the variable holds has this call. */
static bool listed(const char *variable, unsigned long call)
{
    const char *list = getenv(variable);
    if (list == NULL)
        return false;
    if (strcmp(list, "all") == 0)
        return true;
    while (*list != '\0') {
        char *end;
        if (strtoul(list, &end, 10) == call)
            return true;
        list = *end == ',' ? end + 1 : "";
    }
    return false;
}

/* At most as many bytes as the variable allows. */
static size_t limited(const char *variable, size_t count)
{
    const char *most = getenv(variable);
    if (most == NULL || strtoul(most, NULL, 10) >= count)
        return count;
    return strtoul(most, NULL, 10);
}

ssize_t read(int fd, void *buffer, size_t count)
{
    static unsigned long reads;
    if (fd <= 2)
        return syscall(SYS_read, fd, buffer, count);
    reads++;
    if (listed("READ_FAILS", reads)) {
        errno = EIO;
        return -1;
    }
    if (listed("READ_INTERRUPTED", reads)) {
        errno = EINTR;
        return -1;
    }
    return syscall(SYS_read, fd, buffer, limited("READ_MOST", count));
}

ssize_t write(int fd, const void *buffer, size_t count)
{
    static unsigned long writes[3];
    if (fd != 1 && fd != 2)
        return syscall(SYS_write, fd, buffer, count);
    writes[fd]++;
    if (listed(fd == 1 ? "WRITE_FAILS" : "ERROR_FAILS", writes[fd])) {
        errno = ENOSPC;
        return -1;
    }
    if (listed(fd == 1 ? "WRITE_INTERRUPTED" : "ERROR_INTERRUPTED", writes[fd])) {
        errno = EINTR;
        return -1;
    }
    return syscall(SYS_write, fd, buffer, limited(fd == 1 ? "WRITE_MOST" : "ERROR_MOST", count));
}

int fsync(int fd)
{
    if (getenv("SYNC_FAILS") != NULL) {
        errno = EDQUOT;
        return -1;
    }
    return (int)syscall(SYS_fsync, fd);
}
