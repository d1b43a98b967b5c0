/* Counts the calls for memory of a program, and refuses one of them. By LD_PRELOAD, for
 * tests/memory.sh.
 *
 * REFUSE_KIND: which calls are numbered; 0 those that the program itself makes, 1 those that the C
 * library makes on its behalf, 2 the starts of threads.
 * REFUSE_NUMBER: which of these is refused, from 1; 0 refuses none.
 * REFUSE_COUNT: how many are refused, from that one on.
 * REFUSE_TOLD: a file of 4096 bytes, in which it tells what stands in `struct told`.
 */
#define _GNU_SOURCE
#include <dlfcn.h>
#include <errno.h>
#include <fcntl.h>
#include <link.h>
#include <pthread.h>
#include <stdatomic.h>
#include <stdint.h>
#include <stdlib.h>
#include <sys/mman.h>
#include <unistd.h>

enum kind { PROGRAM, LIBRARY, THREAD, KINDS };

struct told {
    atomic_ulong calls[KINDS]; /* how many came of each kind */
    atomic_ulong refused;      /* how many of them were refused */
    atomic_ulong most;         /* the most bytes that a call of the program asked for */
};

extern void *__libc_malloc(size_t size);
extern void *__libc_calloc(size_t items, size_t size);
extern void *__libc_realloc(void *block, size_t size);
extern void *__libc_memalign(size_t alignment, size_t size);

static struct told *told; /* none before the program begins */
static uintptr_t program_begin = UINTPTR_MAX, program_end;
static unsigned long number, count;
static int kind;
static int (*start)(pthread_t *, const pthread_attr_t *, void *(*)(void *), void *);

static unsigned long said(const char *name)
{
    const char *word = getenv(name);
    return word ? strtoul(word, NULL, 10) : 0;
}

/* Where the program itself lies: it is the first object. */
static int find_program(struct dl_phdr_info *object, size_t size, void *data)
{
    (void)size, (void)data;
    for (int at = 0; at < object->dlpi_phnum; at++) {
        const ElfW(Phdr) *part = &object->dlpi_phdr[at];
        uintptr_t begin = object->dlpi_addr + part->p_vaddr;
        if (part->p_type != PT_LOAD)
            continue;
        if (begin < program_begin)
            program_begin = begin;
        if (begin + part->p_memsz > program_end)
            program_end = begin + part->p_memsz;
    }
    return 1;
}

__attribute__((constructor)) static void begin(void)
{
    const char *path = getenv("REFUSE_TOLD");
    int file = path ? open(path, O_RDWR | O_CLOEXEC) : -1;
    if (file < 0)
        return;
    dl_iterate_phdr(find_program, NULL);
    number = said("REFUSE_NUMBER");
    count = said("REFUSE_COUNT");
    kind = said("REFUSE_KIND");
    start = dlsym(RTLD_NEXT, "pthread_create");
    void *place = mmap(NULL, sizeof(struct told), PROT_READ | PROT_WRITE, MAP_SHARED, file, 0);
    close(file);
    if (place != MAP_FAILED)
        told = place;
}

static int refuses(enum kind of, size_t size)
{
    if (!told)
        return 0;
    unsigned long call = atomic_fetch_add(&told->calls[of], 1) + 1;
    unsigned long most = atomic_load(&told->most);
    while (of == PROGRAM && size > most &&
           !atomic_compare_exchange_weak(&told->most, &most, size))
        ;
    if ((int)of != kind || number == 0 || call < number || call >= number + count)
        return 0;
    atomic_fetch_add(&told->refused, 1);
    errno = ENOMEM;
    return 1;
}

static enum kind maker(void *caller)
{
    uintptr_t at = (uintptr_t)caller;
    return program_begin <= at && at < program_end ? PROGRAM : LIBRARY;
}

#define MAKER maker(__builtin_return_address(0))

void *malloc(size_t size)
{
    return refuses(MAKER, size) ? NULL : __libc_malloc(size);
}

void *calloc(size_t items, size_t size)
{
    return refuses(MAKER, items * size) ? NULL : __libc_calloc(items, size);
}

void *realloc(void *block, size_t size)
{
    return refuses(MAKER, size) ? NULL : __libc_realloc(block, size);
}

void *memalign(size_t alignment, size_t size)
{
    return refuses(MAKER, size) ? NULL : __libc_memalign(alignment, size);
}

void *aligned_alloc(size_t alignment, size_t size)
{
    return refuses(MAKER, size) ? NULL : __libc_memalign(alignment, size);
}

int posix_memalign(void **block, size_t alignment, size_t size)
{
    if (refuses(MAKER, size))
        return ENOMEM;
    *block = __libc_memalign(alignment, size);
    return *block ? 0 : ENOMEM;
}

int pthread_create(pthread_t *thread, const pthread_attr_t *how, void *(*work)(void *), void *with)
{
    return refuses(THREAD, 0) ? EAGAIN : start(thread, how, work, with);
}
