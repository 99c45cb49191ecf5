/* Linked to a host that keeps the log of a site, in front of its reads and syncs (`--wrap`): a read gives seven bytes at most,
   and the sync of number FAIL_SYNC, counted from 1, fails. */
#include <errno.h>
#include <stdlib.h>
#include <unistd.h>

ssize_t __real_read(int file, void *bytes, size_t room);
int __real_fdatasync(int file);

ssize_t __wrap_read(int file, void *bytes, size_t room) { return __real_read(file, bytes, room < 7 ? room : 7); }

int __wrap_fdatasync(int file) {
    static int seen;
    const char *failing = getenv("FAIL_SYNC");
    seen += 1;
    if (!failing || atoi(failing) != seen) return __real_fdatasync(file);
    errno = EIO;
    return -1;
}
