/* Counts the calls of a program that get memory, and says how many as it ends (bench/frame.sh). */
#include <stdio.h>
#include <stddef.h>
extern void *__libc_malloc(size_t);
extern void *__libc_realloc(void *, size_t);
extern void *__libc_memalign(size_t, size_t);
static unsigned long got;
void *malloc(size_t n) { got++; return __libc_malloc(n); }
void *realloc(void *p, size_t n) { got++; return __libc_realloc(p, n); }
void *aligned_alloc(size_t a, size_t n) { got++; return __libc_memalign(a, n); }
int posix_memalign(void **p, size_t a, size_t n) {
    got++;
    *p = __libc_memalign(a, n);
    return *p ? 0 : 12;
}
__attribute__((destructor)) static void tell(void) { fprintf(stderr, "%lu\n", got); }
