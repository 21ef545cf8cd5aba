/* What a crash leaves, under any program: loaded with LD_PRELOAD, it counts the calls that write to files whose path begins with
 * SHIM_PATH (write, pwrite, ftruncate, fsync, fdatasync, unlink), and at call number SHIM_AT
 *   SHIM_DO=kill    ends the process by SIGKILL in the middle of the call, half of a write done;
 *   SHIM_DO=power   does the same, after it has taken back all writes since the last sync of each file: what a power cut may leave;
 *   SHIM_DO=full    fails this and every later write with ENOSPC;
 *   SHIM_DO=rofs    fails every opening for writing with EROFS.
 * SHIM_COUNT names a file that gets the number of calls when the program ends by itself. */
#define _GNU_SOURCE
#include <dlfcn.h>
#include <errno.h>
#include <fcntl.h>
#include <signal.h>
#include <stdarg.h>
#include <stdio.h>
#include <stdlib.h>
#include <string.h>
#include <sys/stat.h>
#include <unistd.h>

#define FILES 1024

static long calls;
static char ours[FILES];

/* A write that was not synced: what stood there before, and the file's length then. */
struct undo {
    int fd;
    off_t at, length;
    size_t bytes;
    char *old;
    struct undo *next;
};
static struct undo *undone;

#define REAL(type, name, ...)                                    \
    static type (*real)(__VA_ARGS__);                            \
    if (!real) real = (type(*)(__VA_ARGS__))dlsym(RTLD_NEXT, name)

static const char *set(const char *name) {
    const char *value = getenv(name);
    return value ? value : "";
}

static int is(const char *what) { return strcmp(set("SHIM_DO"), what) == 0; }

static void take_back(void) {
    REAL(ssize_t, "pwrite64", int, const void *, size_t, off_t);
    static int (*cut)(int, off_t);
    if (!cut) cut = (int (*)(int, off_t))dlsym(RTLD_NEXT, "ftruncate64");
    for (struct undo *u = undone; u; u = u->next) {
        if (u->bytes && real(u->fd, u->old, u->bytes, u->at) < 0) _exit(99);
        if (cut(u->fd, u->length) < 0) _exit(99);
    }
}

static void note(int fd, off_t at, size_t bytes) {
    if (!is("power")) return;
    struct undo *u = calloc(1, sizeof *u);
    struct stat now;
    if (!u || fstat(fd, &now) < 0) _exit(99);
    u->fd = fd, u->at = at, u->length = now.st_size;
    if (at < now.st_size) {
        u->bytes = bytes < (size_t)(now.st_size - at) ? bytes : (size_t)(now.st_size - at);
        u->old = malloc(u->bytes);
        if (!u->old || pread(fd, u->old, u->bytes, at) != (ssize_t)u->bytes) _exit(99);
    }
    u->next = undone, undone = u;
}

static void synced(int fd) {
    for (struct undo **u = &undone; *u;) {
        if ((*u)->fd == fd) *u = (*u)->next;
        else u = &(*u)->next;
    }
}

static void die(void) {
    if (is("power")) take_back();
    raise(SIGKILL);
}

/* Whether this call is the one, or one after it. */
static int reached(int fd, int *first) {
    if (fd < 0 || fd >= FILES || !ours[fd]) return 0;
    long at = atol(set("SHIM_AT"));
    calls++;
    *first = calls == at;
    return at && calls >= at;
}

static void opened(int fd, const char *path) {
    const char *start = set("SHIM_PATH");
    if (fd >= 0 && fd < FILES) ours[fd] = *start && strncmp(path, start, strlen(start)) == 0;
}

static int open_it(const char *name, const char *path, int flags, mode_t mode) {
    static int (*real)(const char *, int, ...);
    if (!real) real = (int (*)(const char *, int, ...))dlsym(RTLD_NEXT, name);
    const char *start = set("SHIM_PATH");
    if (is("rofs") && (flags & O_ACCMODE) != O_RDONLY && strncmp(path, start, strlen(start)) == 0) {
        errno = EROFS;
        return -1;
    }
    int fd = real(path, flags, mode);
    opened(fd, path);
    return fd;
}

#define OPEN(function, name)                                  \
    int function(const char *path, int flags, ...) {          \
        va_list more;                                         \
        va_start(more, flags);                                \
        mode_t mode = flags & O_CREAT ? va_arg(more, int) : 0; \
        va_end(more);                                         \
        return open_it(name, path, flags, mode);              \
    }
OPEN(open, "open")
OPEN(open64, "open64")

#define PWRITE(function, name)                                                \
    ssize_t function(int fd, const void *bytes, size_t count, off_t at) {     \
        REAL(ssize_t, name, int, const void *, size_t, off_t);                \
        int first = 0, hit = reached(fd, &first);                             \
        if (hit && is("full")) { errno = ENOSPC; return -1; }                 \
        if (fd >= 0 && fd < FILES && ours[fd]) note(fd, at, count);           \
        if (hit && first) { (void)!real(fd, bytes, count / 2, at); die(); }   \
        return real(fd, bytes, count, at);                                    \
    }
PWRITE(pwrite, "pwrite")
PWRITE(pwrite64, "pwrite64")

ssize_t write(int fd, const void *bytes, size_t count) {
    REAL(ssize_t, "write", int, const void *, size_t);
    int first = 0, hit = reached(fd, &first);
    if (hit && is("full")) { errno = ENOSPC; return -1; }
    if (fd >= 0 && fd < FILES && ours[fd]) note(fd, lseek(fd, 0, SEEK_CUR), count);
    if (hit && first) { (void)!real(fd, bytes, count / 2); die(); }
    return real(fd, bytes, count);
}

#define CUT(function, name)                                       \
    int function(int fd, off_t length) {                          \
        REAL(int, name, int, off_t);                              \
        int first = 0, hit = reached(fd, &first);                 \
        if (hit && first && !is("full")) die();                   \
        if (fd >= 0 && fd < FILES && ours[fd]) {                  \
            struct stat now;                                      \
            if (fstat(fd, &now) == 0 && now.st_size > length) note(fd, length, (size_t)(now.st_size - length)); \
        }                                                         \
        return real(fd, length);                                  \
    }
CUT(ftruncate, "ftruncate")
CUT(ftruncate64, "ftruncate64")

#define SYNC(function, name)                        \
    int function(int fd) {                          \
        REAL(int, name, int);                       \
        int first = 0, hit = reached(fd, &first);   \
        if (hit && first && !is("full")) die();     \
        int done = real(fd);                        \
        if (done == 0) synced(fd);                  \
        return done;                                \
    }
SYNC(fsync, "fsync")
SYNC(fdatasync, "fdatasync")

__attribute__((destructor)) static void tell(void) {
    const char *file = set("SHIM_COUNT");
    if (!*file) return;
    FILE *out = fopen(file, "w");
    if (out) fprintf(out, "%ld\n", calls), fclose(out);
}
