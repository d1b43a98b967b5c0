/* Writes down what a program does to the files that it writes at places: by LD_PRELOAD, for
 * tests/crashes.sh.
 *
 * Into the file that RECORDED names, a record each time such a call has succeeded: a letter, the
 * place or size in 8 bytes, the number of bytes that follow in 8 bytes, and these. `w` wrote bytes
 * at a place, `t` set the size, `s` made all stable, `a` wrote so many lines to standard output.
 */
#define _GNU_SOURCE
#include <dlfcn.h>
#include <fcntl.h>
#include <stdint.h>
#include <stdlib.h>
#include <string.h>
#include <sys/syscall.h>
#include <sys/uio.h>
#include <unistd.h>

static int record = -1;

__attribute__((constructor)) static void open_record(void)
{
    const char *path = getenv("RECORDED");
    if (path)
        record = open(path, O_WRONLY | O_CREAT | O_APPEND | O_CLOEXEC, 0600);
}

static void put(char letter, uint64_t place, const void *bytes, uint64_t count)
{
    struct iovec parts[] = {
        {&letter, 1}, {&place, sizeof place}, {&count, sizeof count}, {(void *)bytes, count}};
    if (record >= 0 && writev(record, parts, 4) < 0)
        abort();
}

static ssize_t write_through(const char *name, int file, const void *bytes, size_t count,
                             off_t place)
{
    ssize_t (*next)(int, const void *, size_t, off_t) = dlsym(RTLD_NEXT, name);
    ssize_t done = next(file, bytes, count, place);
    if (done > 0)
        put('w', place, bytes, done);
    return done;
}

ssize_t pwrite(int file, const void *bytes, size_t count, off_t place)
{
    return write_through("pwrite", file, bytes, count, place);
}

ssize_t pwrite64(int file, const void *bytes, size_t count, off_t place)
{
    return write_through("pwrite64", file, bytes, count, place);
}

static int cut_through(const char *name, int file, off_t size)
{
    int (*next)(int, off_t) = dlsym(RTLD_NEXT, name);
    int done = next(file, size);
    if (done == 0)
        put('t', size, "", 0);
    return done;
}

int ftruncate(int file, off_t size)
{
    return cut_through("ftruncate", file, size);
}

int ftruncate64(int file, off_t size)
{
    return cut_through("ftruncate64", file, size);
}

int fdatasync(int file)
{
    int (*next)(int) = dlsym(RTLD_NEXT, "fdatasync");
    int done = next(file);
    if (done == 0)
        put('s', 0, "", 0);
    return done;
}

ssize_t write(int file, const void *bytes, size_t count)
{
    ssize_t done = syscall(SYS_write, file, bytes, count);
    uint64_t lines = 0;
    for (ssize_t i = 0; i < done; i++)
        lines += ((const char *)bytes)[i] == '\n';
    if (file == STDOUT_FILENO && lines > 0)
        put('a', lines, "", 0);
    return done;
}
