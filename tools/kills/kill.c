/* Kills the program at a write to an archive's file: KILLS_AT=N at the Nth, from 1, before it, or with KILLS_HALF=1 once its first half is
 * written. KILLS_COUNT=FILE gets a byte at each such write. */
#define _GNU_SOURCE
#include <dlfcn.h>
#include <fcntl.h>
#include <signal.h>
#include <stdio.h>
#include <stdlib.h>
#include <string.h>
#include <unistd.h>

static long writes;

static int is_archive(int file) {
    char link[64], path[4096];
    snprintf(link, sizeof link, "/proc/self/fd/%d", file);
    ssize_t length = readlink(link, path, sizeof path - 1);
    if (length < 0) return 0;
    path[length] = 0;
    const char *name = strrchr(path, '/');
    return name && strncmp(name, "/archive-", 9) == 0;
}

static void note(void) {
    const char *path = getenv("KILLS_COUNT");
    int out = path ? open(path, O_WRONLY | O_CREAT | O_APPEND, 0666) : -1;
    if (out < 0) return;
    if (write(out, "w", 1) != 1) abort();
    close(out);
}

static ssize_t at(const char *call, int file, const void *bytes, size_t count, off_t offset) {
    ssize_t (*real)(int, const void *, size_t, off_t) = dlsym(RTLD_NEXT, call);
    const char *number = getenv("KILLS_AT");
    if (is_archive(file)) note();
    if (is_archive(file) && __atomic_add_fetch(&writes, 1, __ATOMIC_SEQ_CST) == (number ? atol(number) : 0)) {
        if (getenv("KILLS_HALF")) real(file, bytes, count / 2, offset);
        kill(getpid(), SIGKILL);
    }
    return real(file, bytes, count, offset);
}

ssize_t pwrite(int file, const void *bytes, size_t count, off_t offset) { return at("pwrite", file, bytes, count, offset); }
ssize_t pwrite64(int file, const void *bytes, size_t count, off_t offset) { return at("pwrite64", file, bytes, count, offset); }
