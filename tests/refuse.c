/* Refuses one request for memory of a program that is started with this file in LD_PRELOAD: the REFUSEth, counted from 1.
   Where that many were made it leaves the file REFUSED behind, so that who counts upwards sees where the requests end. */
#include <errno.h>
#include <fcntl.h>
#include <stddef.h>
#include <stdlib.h>
#include <unistd.h>

extern void *__libc_malloc(size_t size);
extern void *__libc_calloc(size_t count, size_t size);
extern void *__libc_realloc(void *old, size_t size);
extern void *__libc_memalign(size_t align, size_t size);

static unsigned long made;

static int is_refused(void) {
    static unsigned long wanted = ~0ul;
    if (wanted == ~0ul) {
        const char *text = getenv("REFUSE");
        wanted = text ? strtoul(text, NULL, 10) : 0;
    }
    if (__atomic_add_fetch(&made, 1, __ATOMIC_SEQ_CST) != wanted)
        return 0;
    const char *path = getenv("REFUSED");
    int file = path ? open(path, O_WRONLY | O_CREAT, 0644) : -1;
    if (file >= 0)
        close(file);
    errno = ENOMEM;
    return 1;
}

void *malloc(size_t size) { return is_refused() ? NULL : __libc_malloc(size); }

void *calloc(size_t count, size_t size) { return is_refused() ? NULL : __libc_calloc(count, size); }

void *realloc(void *old, size_t size) { return is_refused() ? NULL : __libc_realloc(old, size); }

void *aligned_alloc(size_t align, size_t size) { return is_refused() ? NULL : __libc_memalign(align, size); }

int posix_memalign(void **at, size_t align, size_t size) {
    if (is_refused())
        return ENOMEM;
    *at = __libc_memalign(align, size);
    return *at ? 0 : ENOMEM;
}
