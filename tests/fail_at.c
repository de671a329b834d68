/* A library to be loaded before a program: the FAIL_ATth call of the C function FAIL_CALL, counted from 1 over all threads,
   fails with the error number FAIL_WITH, and does nothing. */
#define _GNU_SOURCE
#include <dlfcn.h>
#include <errno.h>
#include <poll.h>
#include <pthread.h>
#include <stdarg.h>
#include <stdatomic.h>
#include <stdlib.h>
#include <string.h>
#include <sys/socket.h>
#include <sys/stat.h>
#include <time.h>
#include <unistd.h>

static atomic_long calls;

static long number_of(const char *variable)
{
    const char *text = getenv(variable);
    return text ? atol(text) : 0;
}

/* Returns 1 if this call of the function is the one that fails. */
static int fails(const char *function)
{
    const char *meant = getenv("FAIL_CALL");
    if (!meant || strcmp(function, meant) != 0 || atomic_fetch_add(&calls, 1) + 1 != number_of("FAIL_AT"))
        return 0;
    errno = (int)number_of("FAIL_WITH");
    return 1;
}

/* A function of these parameters, which are given as these words. */
#define FAILING(result, function, parameters, words)                     \
    result function parameters                                           \
    {                                                                    \
        typedef result (*call) parameters;                               \
        static _Atomic(call) real;                                       \
        if (!real)                                                       \
            real = (call)dlsym(RTLD_NEXT, #function);                    \
        return fails(#function) ? (result)-1 : real words;               \
    }

FAILING(int, accept4, (int f, struct sockaddr *a, socklen_t *l, int o), (f, a, l, o))
FAILING(int, bind, (int f, const struct sockaddr *a, socklen_t l), (f, a, l))
FAILING(int, chmod, (const char *p, mode_t m), (p, m))
FAILING(int, connect, (int f, const struct sockaddr *a, socklen_t l), (f, a, l))
FAILING(int, fchmod, (int f, mode_t m), (f, m))
FAILING(int, fdatasync, (int f), (f))
FAILING(int, flock, (int f, int o), (f, o))
FAILING(int, fsync, (int f), (f))
FAILING(int, ftruncate, (int f, off_t l), (f, l))
FAILING(ssize_t, getdents64, (int f, void *n, size_t l), (f, n, l))
FAILING(int, getentropy, (void *b, size_t l), (b, l))
FAILING(int, getpeername, (int f, struct sockaddr *a, socklen_t *l), (f, a, l))
FAILING(int, getsockopt, (int f, int k, int o, void *v, socklen_t *l), (f, k, o, v, l))
FAILING(int, listen, (int f, int n), (f, n))
FAILING(off_t, lseek, (int f, off_t o, int w), (f, o, w))
FAILING(int, mkdir, (const char *p, mode_t m), (p, m))
FAILING(int, nanosleep, (const struct timespec *t, struct timespec *r), (t, r))
FAILING(int, poll, (struct pollfd *f, nfds_t n, int t), (f, n, t))
FAILING(ssize_t, pread, (int f, void *b, size_t l, off_t o), (f, b, l, o))
FAILING(ssize_t, pwrite, (int f, const void *b, size_t l, off_t o), (f, b, l, o))
FAILING(ssize_t, read, (int f, void *b, size_t l), (f, b, l))
FAILING(ssize_t, readlink, (const char *restrict p, char *restrict b, size_t l), (p, b, l))
FAILING(ssize_t, recv, (int f, void *b, size_t l, int o), (f, b, l, o))
FAILING(int, rename, (const char *p, const char *q), (p, q))
FAILING(ssize_t, send, (int f, const void *b, size_t l, int o), (f, b, l, o))
FAILING(int, setsockopt, (int f, int k, int o, const void *v, socklen_t l), (f, k, o, v, l))
FAILING(int, shutdown, (int f, int h), (f, h))
FAILING(int, socket, (int d, int t, int p), (d, t, p))
FAILING(int, statx, (int d, const char *restrict p, int o, unsigned int m, struct statx *restrict s), (d, p, o, m, s))
FAILING(int, symlink, (const char *p, const char *q), (p, q))
FAILING(int, unlink, (const char *p), (p))
FAILING(ssize_t, write, (int f, const void *b, size_t l), (f, b, l))

/* The argument behind the last one that is named. */
#define REST(last, type, name)      \
    va_list rest;                   \
    va_start(rest, last);           \
    type name = va_arg(rest, type); \
    va_end(rest)

int open(const char *path, int flags, ...)
{
    REST(flags, int, mode);
    int (*real)(const char *, int, ...) = (int (*)(const char *, int, ...))dlsym(RTLD_NEXT, "open");
    return fails("open") ? -1 : real(path, flags, mode);
}

int fcntl(int file, int command, ...)
{
    REST(command, long, word);
    int (*real)(int, int, ...) = (int (*)(int, int, ...))dlsym(RTLD_NEXT, "fcntl");
    return fails("fcntl") ? -1 : real(file, command, word);
}

char *realpath(const char *restrict path, char *restrict whole)
{
    typedef char *(*call)(const char *, char *);
    call real = (call)dlsym(RTLD_NEXT, "realpath");
    return fails("realpath") ? NULL : real(path, whole);
}

int pthread_create(pthread_t *thread, const pthread_attr_t *attributes, void *(*runs)(void *), void *given)
{
    typedef int (*call)(pthread_t *, const pthread_attr_t *, void *(*)(void *), void *);
    call real = (call)dlsym(RTLD_NEXT, "pthread_create");
    return fails("pthread_create") ? errno : real(thread, attributes, runs, given);
}
