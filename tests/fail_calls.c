/* A library to be loaded before a program: the FAIL_SYNC_ATth sync of a file whose path ends in FAIL_SYNC_OF, counted from 1,
   fails once with EIO, as after a write-back that failed. The next one succeeds, although nothing was written then, as Linux
   has it. A file whose path ends in FAIL_UNLINK_OF isn't removed: EACCES. The FAIL_THREAD_ATth thread isn't started: EAGAIN.
   Of a path that ends in FAIL_STAT_OF nothing is known, none that ends in FAIL_OPEN_OF is opened, no link that ends in FAIL_LINK_OF
   is read, and no folder that ends in FAIL_LIST_OF is listed, or the FAIL_LIST_ATth time alone: EIO. */
#define _GNU_SOURCE
#include <dlfcn.h>
#include <errno.h>
#include <fcntl.h>
#include <limits.h>
#include <pthread.h>
#include <stdarg.h>
#include <stdatomic.h>
#include <stdio.h>
#include <stdlib.h>
#include <string.h>
#include <sys/stat.h>
#include <unistd.h>

static atomic_long calls, threads, lists;

/* Returns 1 if the path is one that the environment means. */
static int ends(const char *path, const char *variable)
{
    const char *end = getenv(variable);
    return end && strlen(path) >= strlen(end) && strcmp(path + strlen(path) - strlen(end), end) == 0;
}

/* Returns 1 if the file is one that the environment means. */
static int is_meant(int file, const char *variable)
{
    char name[64], path[PATH_MAX];
    snprintf(name, sizeof name, "/proc/self/fd/%d", file);
    ssize_t length = readlink(name, path, sizeof path - 1);
    path[length < 0 ? 0 : length] = 0;
    return ends(path, variable);
}

static int fails(int file)
{
    const char *at = getenv("FAIL_SYNC_AT");
    if (!at || !is_meant(file, "FAIL_SYNC_OF") || atomic_fetch_add(&calls, 1) + 1 != atol(at))
        return 0;
    errno = EIO;
    return 1;
}

int fsync(int file)
{
    int (*real)(int) = (int (*)(int))dlsym(RTLD_NEXT, "fsync");
    return fails(file) ? -1 : real(file);
}

int fdatasync(int file)
{
    int (*real)(int) = (int (*)(int))dlsym(RTLD_NEXT, "fdatasync");
    return fails(file) ? -1 : real(file);
}

int sync_file_range(int file, off64_t from, off64_t length, unsigned int flags)
{
    int (*real)(int, off64_t, off64_t, unsigned int) =
        (int (*)(int, off64_t, off64_t, unsigned int))dlsym(RTLD_NEXT, "sync_file_range");
    return fails(file) ? -1 : real(file, from, length, flags);
}

int unlink(const char *path)
{
    int (*real)(const char *) = (int (*)(const char *))dlsym(RTLD_NEXT, "unlink");
    if (!ends(path, "FAIL_UNLINK_OF"))
        return real(path);
    errno = EACCES;
    return -1;
}

int open(const char *path, int flags, ...)
{
    int (*real)(const char *, int, ...) = (int (*)(const char *, int, ...))dlsym(RTLD_NEXT, "open");
    va_list rest;
    va_start(rest, flags);
    int mode = va_arg(rest, int);
    va_end(rest);
    if (!ends(path, "FAIL_OPEN_OF"))
        return real(path, flags, mode);
    errno = EIO;
    return -1;
}

int statx(int folder, const char *restrict path, int flags, unsigned int mask, struct statx *restrict known)
{
    typedef int (*stat)(int, const char *, int, unsigned int, struct statx *);
    stat real = (stat)dlsym(RTLD_NEXT, "statx");
    if (!ends(path, "FAIL_STAT_OF"))
        return real(folder, path, flags, mask, known);
    errno = EIO;
    return -1;
}

ssize_t readlink(const char *restrict path, char *restrict text, size_t most)
{
    typedef ssize_t (*read)(const char *, char *, size_t);
    read real = (read)dlsym(RTLD_NEXT, "readlink");
    if (!ends(path, "FAIL_LINK_OF"))
        return real(path, text, most);
    errno = EIO;
    return -1;
}

ssize_t getdents64(int folder, void *names, size_t most)
{
    typedef ssize_t (*list)(int, void *, size_t);
    list real = (list)dlsym(RTLD_NEXT, "getdents64");
    const char *at = getenv("FAIL_LIST_AT");
    if (!is_meant(folder, "FAIL_LIST_OF") || (at && atomic_fetch_add(&lists, 1) + 1 != atol(at)))
        return real(folder, names, most);
    errno = EIO;
    return -1;
}

int pthread_create(pthread_t *thread, const pthread_attr_t *attributes, void *(*runs)(void *), void *given)
{
    typedef int (*create)(pthread_t *, const pthread_attr_t *, void *(*)(void *), void *);
    create real = (create)dlsym(RTLD_NEXT, "pthread_create");
    const char *at = getenv("FAIL_THREAD_AT");
    if (at && atomic_fetch_add(&threads, 1) + 1 == atol(at))
        return EAGAIN;
    return real(thread, attributes, runs, given);
}
