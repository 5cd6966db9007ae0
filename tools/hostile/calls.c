/* Stands between a program and the C library: counts the calls on the working folder's files and on the standard
 * streams, lets one of them fail, and notes what they change.
 *
 * HOSTILE_FAIL=N    the Nth counted call, from 1, fails
 * HOSTILE_HOW=HOW   eio, enospc, eintr: it does nothing and fails so; dead: so does each later call on its file; short: a read
 *                   or a write moves one byte, and a call without a count works; kill: the program is killed before it
 * HOSTILE_MUTE=NAMES  each read of a file whose name begins with one of these, parted by commas, fails with EIO
 * HOSTILE_ALLOC=N   the Nth request for memory, from 1, is refused
 * HOSTILE_REST=1    and so is each one behind it
 * HOSTILE_LOG=FILE  each counted call is noted there: a line of words, and behind a write its bytes
 * HOSTILE_PLANT=IT  a fault of the program is feigned, which the tool has to find: `no-sync PREFIX`, a file whose name begins
 *                   so is not synced and its calls say that it was; `deaf`, a write that fails says that it was done; `other`,
 *                   a long text is written to standard output with one other byte; `calm`, where memory was refused the exit
 *                   status is 0
 *
 * Counted are calls on files of the working folder, on the folder itself, on standard input and output, and on the system's
 * random bytes. Standard error and everything else are left alone. */
#define _GNU_SOURCE
#include <dlfcn.h>
#include <errno.h>
#include <fcntl.h>
#include <signal.h>
#include <stdarg.h>
#include <stdio.h>
#include <stdlib.h>
#include <string.h>
#include <sys/file.h>
#include <sys/socket.h>
#include <sys/stat.h>
#include <sys/syscall.h>
#include <sys/uio.h>
#include <unistd.h>

enum { MOST = 4096, LONGEST = 64 };

static char names[MOST][LONGEST];
static int log_file = -1;
static long calls, allocations, failing = -1, refused = -1;
static const char *how = "eio", *plant = "", *mute = "";
static char dead[LONGEST];
static int ready, all_refused;

static void *real(const char *name) { return dlsym(RTLD_NEXT, name); }

static void start(void) {
    if (ready) return;
    ready = 1;
    const char *text = getenv("HOSTILE_FAIL");
    if (text) failing = atol(text);
    text = getenv("HOSTILE_ALLOC");
    if (text) refused = atol(text);
    text = getenv("HOSTILE_HOW");
    if (text) how = text;
    text = getenv("HOSTILE_MUTE");
    if (text) mute = text;
    text = getenv("HOSTILE_PLANT");
    if (text) plant = text;
    all_refused = getenv("HOSTILE_REST") != NULL;
    text = getenv("HOSTILE_LOG");
    if (text) {
        int (*open_file)(const char *, int, ...) = real("open");
        log_file = open_file(text, O_WRONLY | O_CREAT | O_TRUNC | O_CLOEXEC, 0666);
    }
    strcpy(names[0], "stdin");
    strcpy(names[1], "stdout");
}

static void put(const void *bytes, size_t count) {
    ssize_t (*write_file)(int, const void *, size_t) = real("write");
    const char *from = bytes;
    while (count > 0) {
        ssize_t moved = write_file(log_file, from, count);
        if (moved <= 0) abort();
        from += moved;
        count -= moved;
    }
}

/* A line: the call, the file, a place and a length; behind it the bytes, where the call writes some. */
static void note(const char *call, const char *name, long at, long count, const void *bytes) {
    if (log_file < 0) return;
    char line[256];
    int size = snprintf(line, sizeof line, "%s %s %ld %ld %d\n", call, name, at, count, bytes != NULL);
    put(line, size);
    if (bytes) put(bytes, count);
}

/* What a call comes to. */
enum { WORKS, FAILS, IS_SHORT };

/* Counts a call on a file, and says what it comes to: where it fails errno is set. */
static int judged(const char *call, const char *name) {
    char both[2 * LONGEST];
    snprintf(both, sizeof both, "%s:%s", call, name);
    note("begin", both, 0, 0, NULL);
    calls++;
    int is_first = calls == failing;
    int is_dead = dead[0] && !strcmp(dead, name);
    if (!is_first && !is_dead) return WORKS;
    if (is_first) note("failed", name, calls, 0, NULL);
    if (is_first && !strcmp(how, "kill")) kill(getpid(), SIGKILL);
    if (is_first && !strcmp(how, "dead")) snprintf(dead, LONGEST, "%s", name);
    if (!strcmp(how, "short")) return IS_SHORT;
    errno = !strcmp(how, "enospc") ? ENOSPC : !strcmp(how, "eintr") ? EINTR : EIO;
    return FAILS;
}

/* Whether each read of a file of this name fails. */
static int is_mute(const char *name) {
    for (const char *it = mute; *it;) {
        size_t size = strcspn(it, ",");
        if (size && !strncmp(name, it, size)) return 1;
        it += size + (it[size] == ',');
    }
    return 0;
}

static int is_ours(int fd) { return fd >= 0 && fd < MOST && names[fd][0] && fd != 2; }

static void opened(int fd, const char *path) {
    if (fd >= 0 && fd < MOST && fd != log_file) {
        snprintf(names[fd], LONGEST, "%s", path[0] == '/' ? "" : path);
    }
}

static int open_as(const char *call, int at, const char *path, int flags, mode_t mode) {
    start();
    int (*real_call)(int, const char *, int, ...) = real("openat");
    if (path[0] == '/') return real_call(at, path, flags, mode);
    struct stat found;
    int is_new = (flags & O_CREAT) && stat(path, &found) != 0;
    if (judged(call, path) == FAILS) return -1;
    int fd = real_call(at, path, flags, mode);
    if (fd >= 0) {
        opened(fd, path);
        if (is_new) note("create", path, 0, 0, NULL);
        if (flags & O_TRUNC) note("truncate", path, 0, 0, NULL);
    }
    return fd;
}

int open(const char *path, int flags, ...) {
    va_list rest;
    va_start(rest, flags);
    mode_t mode = va_arg(rest, mode_t);
    va_end(rest);
    return open_as("open", AT_FDCWD, path, flags, mode);
}
int open64(const char *path, int flags, ...) {
    va_list rest;
    va_start(rest, flags);
    mode_t mode = va_arg(rest, mode_t);
    va_end(rest);
    return open_as("open", AT_FDCWD, path, flags | O_LARGEFILE, mode);
}
int openat(int at, const char *path, int flags, ...) {
    va_list rest;
    va_start(rest, flags);
    mode_t mode = va_arg(rest, mode_t);
    va_end(rest);
    return open_as("open", at, path, flags, mode);
}
int openat64(int at, const char *path, int flags, ...) {
    va_list rest;
    va_start(rest, flags);
    mode_t mode = va_arg(rest, mode_t);
    va_end(rest);
    return open_as("open", at, path, flags | O_LARGEFILE, mode);
}

int fcntl(int fd, int command, ...) {
    start();
    va_list rest;
    va_start(rest, command);
    void *given = va_arg(rest, void *);
    va_end(rest);
    int (*real_call)(int, int, ...) = real("fcntl");
    int other = real_call(fd, command, given);
    if ((command == F_DUPFD || command == F_DUPFD_CLOEXEC) && other >= 0 && is_ours(fd) && other < MOST) {
        memcpy(names[other], names[fd], LONGEST);
    }
    return other;
}

int close(int fd) {
    start();
    int (*real_call)(int) = real("close");
    if (fd == log_file) return 0;
    if (fd > 2 && fd < MOST) names[fd][0] = 0;
    return real_call(fd);
}

static ssize_t read_as(int fd, void *into, size_t count, off_t at, int is_placed) {
    start();
    ssize_t (*placed)(int, void *, size_t, off_t) = real("pread64");
    ssize_t (*plain)(int, void *, size_t) = real("read");
    if (is_ours(fd)) {
        int fate = judged("read", names[fd]);
        if (fate == FAILS) return -1;
        if (fate == IS_SHORT && count > 1) count = 1;
        if (is_mute(names[fd])) return errno = EIO, -1;
    }
    return is_placed ? placed(fd, into, count, at) : plain(fd, into, count);
}
ssize_t read(int fd, void *into, size_t count) { return read_as(fd, into, count, 0, 0); }
ssize_t pread(int fd, void *into, size_t count, off_t at) { return read_as(fd, into, count, at, 1); }
ssize_t pread64(int fd, void *into, size_t count, off_t at) { return read_as(fd, into, count, at, 1); }

/* The text with its middle byte changed, as a program might that looks at no digest. */
static const void *with_other_byte(const void *from, size_t count) {
    static char room[1 << 16];
    if (strcmp(plant, "other") || count < 800 || count > sizeof room) return from;
    memcpy(room, from, count);
    room[count / 2] ^= 1;
    return room;
}

static ssize_t write_as(int fd, const void *from, size_t count, off_t at, int is_placed) {
    start();
    ssize_t (*placed)(int, const void *, size_t, off_t) = real("pwrite64");
    ssize_t (*plain)(int, const void *, size_t) = real("write");
    if (!is_ours(fd)) return is_placed ? placed(fd, from, count, at) : plain(fd, from, count);
    int fate = judged("write", names[fd]);
    if (fate == FAILS) return strcmp(plant, "deaf") ? -1 : (ssize_t)count;
    if (fate == IS_SHORT && count > 1) count = 1;
    if (fd == 1) from = with_other_byte(from, count);
    off_t place = is_placed ? at : lseek(fd, 0, SEEK_CUR);
    ssize_t moved = is_placed ? placed(fd, from, count, at) : plain(fd, from, count);
    if (moved > 0) note("write", names[fd], place, moved, from);
    return moved;
}
ssize_t write(int fd, const void *from, size_t count) { return write_as(fd, from, count, 0, 0); }
ssize_t pwrite(int fd, const void *from, size_t count, off_t at) { return write_as(fd, from, count, at, 1); }
ssize_t pwrite64(int fd, const void *from, size_t count, off_t at) { return write_as(fd, from, count, at, 1); }
ssize_t __write(int fd, const void *from, size_t count) { return write_as(fd, from, count, 0, 0); }

ssize_t writev(int fd, const struct iovec *parts, int count) {
    start();
    ssize_t moved = 0;
    for (int i = 0; i < count; i++) {
        if (parts[i].iov_len == 0) continue;
        ssize_t now = write_as(fd, parts[i].iov_base, parts[i].iov_len, 0, 0);
        if (now < 0) return moved ? moved : -1;
        moved += now;
        if ((size_t)now < parts[i].iov_len) break;
    }
    return moved;
}

static int is_left_out(const char *name) {
    size_t size = strlen("no-sync ");
    return !strncmp(plant, "no-sync ", size) && !strncmp(name, plant + size, strlen(plant + size));
}

static int sync_as(const char *call, int fd) {
    start();
    int (*real_call)(int) = real(call);
    if (!is_ours(fd)) return real_call(fd);
    if (is_left_out(names[fd])) return 0;
    if (judged(call, names[fd]) == FAILS) return -1;
    int status = real_call(fd);
    if (status == 0) note("sync", names[fd], 0, 0, NULL);
    return status;
}
int fsync(int fd) { return sync_as("fsync", fd); }
int fdatasync(int fd) { return sync_as("fdatasync", fd); }

int statx(int fd, const char *path, int flags, unsigned mask, struct statx *into) {
    start();
    int (*real_call)(int, const char *, int, unsigned, struct statx *) = real("statx");
    if (!path[0] && is_ours(fd) && judged("statx", names[fd]) == FAILS) return -1;
    return real_call(fd, path, flags, mask, into);
}

int flock(int fd, int what) {
    start();
    int (*real_call)(int, int) = real("flock");
    if (is_ours(fd) && judged("flock", names[fd]) == FAILS) return -1;
    return real_call(fd, what);
}

static int rename_as(const char *from, const char *to) {
    start();
    int (*real_call)(const char *, const char *) = real("rename");
    if (judged("rename", from) == FAILS) return -1;
    int status = real_call(from, to);
    if (status == 0) {
        char both[2 * LONGEST];
        snprintf(both, sizeof both, "%s>%s", from, to);
        note("rename", both, 0, 0, NULL);
    }
    return status;
}
int rename(const char *from, const char *to) { return rename_as(from, to); }

static int resize_as(int fd, off_t size) {
    start();
    int (*real_call)(int, off_t) = real("ftruncate64");
    if (is_ours(fd)) {
        if (judged("ftruncate", names[fd]) == FAILS) return -1;
        note("resize", names[fd], size, 0, NULL);
    }
    return real_call(fd, size);
}
int ftruncate(int fd, off_t size) { return resize_as(fd, size); }
int ftruncate64(int fd, off_t size) { return resize_as(fd, size); }

int getentropy(void *into, size_t count) {
    start();
    int (*real_call)(void *, size_t) = real("getentropy");
    return judged("getentropy", "random") == FAILS ? -1 : real_call(into, count);
}

static int is_refused(void) {
    static int inside;
    if (!ready) {
        if (inside) return 0;
        inside = 1;
        start();
        inside = 0;
    }
    allocations++;
    if (refused < 0 || allocations < refused || (allocations > refused && !all_refused)) return 0;
    note("refused", "memory", allocations, 0, NULL);
    return 1;
}

extern void *__libc_malloc(size_t);
extern void *__libc_realloc(void *, size_t);
extern void *__libc_calloc(size_t, size_t);

void *malloc(size_t size) { return is_refused() ? (errno = ENOMEM, NULL) : __libc_malloc(size); }
void *realloc(void *old, size_t size) { return is_refused() ? (errno = ENOMEM, NULL) : __libc_realloc(old, size); }

static int feigns_calm(void) { return !strcmp(plant, "calm") && refused >= 0 && allocations >= refused; }

static void leave(int status) {
    for (;;) syscall(SYS_exit_group, status);
}

static void count(void) {
    static int is_counted;
    if (is_counted) return;
    is_counted = 1;
    note("calls", "all", calls, allocations, NULL);
}

/* A program with threads ends by a call, and one without by returning. */
void _exit(int status) {
    count();
    leave(feigns_calm() ? 0 : status);
    __builtin_unreachable();
}

__attribute__((destructor)) static void end(void) {
    count();
    if (feigns_calm()) leave(0);
}
