/* Makes syncs of a program fail. By LD_PRELOAD, for tests/live.sh.
 *
 * Each FAIL_EVERY-th time that one byte 1 is written to a file, as the gate of a row is, the sync
 * behind it fails once; the byte stays as it was written.
 */
#define _GNU_SOURCE
#include <dlfcn.h>
#include <errno.h>
#include <stdatomic.h>
#include <stdlib.h>
#include <unistd.h>

static atomic_ulong gates;
static atomic_int failing;

static unsigned long every(void)
{
    const char *word = getenv("FAIL_EVERY");
    return word ? strtoul(word, NULL, 10) : 0;
}

static ssize_t write_through(const char *name, int file, const void *bytes, size_t count,
                             off_t place)
{
    ssize_t (*next)(int, const void *, size_t, off_t) = dlsym(RTLD_NEXT, name);
    unsigned long turns = every();
    if (count == 1 && *(const char *)bytes == 1 && place > 8 && turns > 0
        && atomic_fetch_add(&gates, 1) % turns == turns - 1)
        failing = 1;
    return next(file, bytes, count, place);
}

ssize_t pwrite(int file, const void *bytes, size_t count, off_t place)
{
    return write_through("pwrite", file, bytes, count, place);
}

ssize_t pwrite64(int file, const void *bytes, size_t count, off_t place)
{
    return write_through("pwrite64", file, bytes, count, place);
}

int fdatasync(int file)
{
    int (*next)(int) = dlsym(RTLD_NEXT, "fdatasync");
    if (atomic_exchange(&failing, 0)) {
        errno = EIO;
        return -1;
    }
    return next(file);
}
