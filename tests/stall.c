/* A library to be loaded before a program: its STALL_ATth fsync or fdatasync, counted from 1, takes STALL_SECONDS longer, and each takes
   STALL_EACH microseconds longer. With STALL_FILE only those of files are counted whose path ends so. */
#define _GNU_SOURCE
#include <dlfcn.h>
#include <stdatomic.h>
#include <stdio.h>
#include <stdlib.h>
#include <string.h>
#include <unistd.h>

static atomic_long calls;

static int is_counted(int file)
{
    const char *end = getenv("STALL_FILE");
    char link[64], path[4096];
    ssize_t length;

    if (!end)
        return 1;
    snprintf(link, sizeof link, "/proc/self/fd/%d", file);
    length = readlink(link, path, sizeof path);
    return length >= (ssize_t)strlen(end) && !memcmp(path + length - strlen(end), end, strlen(end));
}

static void stall(int file)
{
    const char *at = getenv("STALL_AT"), *seconds = getenv("STALL_SECONDS"), *each = getenv("STALL_EACH");
    if (each && is_counted(file))
        usleep(atol(each));
    if (at && seconds && is_counted(file) && atomic_fetch_add(&calls, 1) + 1 == atol(at))
        sleep(atol(seconds));
}

int fsync(int file)
{
    int (*real)(int) = (int (*)(int))dlsym(RTLD_NEXT, "fsync");
    stall(file);
    return real(file);
}

int fdatasync(int file)
{
    int (*real)(int) = (int (*)(int))dlsym(RTLD_NEXT, "fdatasync");
    stall(file);
    return real(file);
}
