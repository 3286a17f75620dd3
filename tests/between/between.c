/* Stands between the program and the C library: makes calls fail, or move only one byte, and records at the
 * end which calls the program made and how much memory it held. It is loaded by LD_PRELOAD.
 *
 *     REFUSE=KIND:NUMBER:HOW   the call of this kind that fails, counted from 1, and also each later one if a `+`
 *                              follows the number; HOW is an error's number, `none` for a write that takes nothing,
 *                              `short` for a read or a write of several bytes that moves one, `kill` to end the
 *                              program instead of the call
 *     CLOSED_RENAMES=1         a disk that renames no file that is open, and none over one that is, as some network drives
 *     TOLD=FILE                where the calls are recorded, a line each: kind, handle or path, bytes requested or
 *                              how a file is opened, answer; the last line is `memory`, the number of allocations, and
 *                              the most bytes that were held at one time
 */
#define _GNU_SOURCE
#include <dlfcn.h>
#include <errno.h>
#include <malloc.h>
#include <signal.h>
#include <stdio.h>
#include <stdlib.h>
#include <string.h>
#include <sys/stat.h>

enum kind { OPEN, READ, WRITE, SYNC, CLOSE, LOOK, FOLLOW, REMOVE, RENAME, LOCK, MODE, GROUP, LINK, MEMORY, KINDS };

static const char *const names[KINDS] = {"open",   "read",   "write", "sync", "close", "look",  "follow",
                                         "remove", "rename", "lock",  "mode", "group", "link",   "memory"};

enum { REFUSED_NOTHING = -1, REFUSED_SHORT = -2, REFUSED_KILL = -3 };

static struct {
    int is_on;
    enum kind kind;
    unsigned long number;
    int goes_on;
    int how;
} refused;

static unsigned long made[KINDS];
static unsigned long held, most_held;
static char log_lines[1 << 20];
static size_t log_length;

static void *next(const char *name) {
    void *found = dlsym(RTLD_NEXT, name);
    if (!found) abort();
    return found;
}

static void read_wish(const char *wish) {
    for (int kind = 0; kind < KINDS; kind++) {
        size_t length = strlen(names[kind]);
        if (strncmp(wish, names[kind], length) || wish[length] != ':') continue;
        char *how;
        refused.kind = kind;
        refused.number = strtoul(wish + length + 1, &how, 10);
        if (*how == '+') {
            refused.goes_on = 1;
            how++;
        }
        refused.how = !strcmp(how, ":none")    ? REFUSED_NOTHING
                      : !strcmp(how, ":short") ? REFUSED_SHORT
                      : !strcmp(how, ":kill")  ? REFUSED_KILL
                                               : atoi(how + 1);
        refused.is_on = 1;
        return;
    }
    abort();
}

/* Counts a call, and says whether it is one that is refused. */
static int is_refused(enum kind kind) {
    made[kind]++;
    int is_later = refused.goes_on && made[kind] > refused.number;
    int is_it = refused.is_on && refused.kind == kind && (made[kind] == refused.number || is_later);
    if (is_it && refused.how == REFUSED_KILL) raise(SIGKILL);
    return is_it;
}

/* Writes a call down, and gives its answer, with the error that goes with it. */
static long told(enum kind kind, const char *path, int handle, size_t asked, long answer) {
    int error = errno;
    size_t room = sizeof log_lines - log_length;
    int length = path ? snprintf(log_lines + log_length, room, "%s %s %zu %ld\n", names[kind], path, asked, answer)
                      : snprintf(log_lines + log_length, room, "%s %d %zu %ld\n", names[kind], handle, asked, answer);
    if (length > 0 && (size_t)length < room) log_length += length;
    errno = error;
    return answer;
}

/* The answer of a call on a path, or on a handle where there is none, that is made or refused. */
#define ANSWER(kind, path, handle, asked, call)                    \
    do {                                                           \
        if (is_refused(kind)) {                                    \
            errno = refused.how;                                   \
            return told(kind, path, handle, asked, -1);            \
        }                                                          \
        return told(kind, path, handle, asked, call);              \
    } while (0)

int open(const char *path, int flags, unsigned mode) {
    int (*real)(const char *, int, unsigned) = next("open");
    ANSWER(OPEN, path, 0, flags, real(path, flags, mode));
}

int statx(int folder, const char *restrict path, int flags, unsigned mask, struct statx *restrict found) {
    int (*real)(int, const char *, int, unsigned, void *) = next("statx");
    ANSWER(LOOK, path, 0, 0, real(folder, path, flags, mask, found));
}

int unlink(const char *path) {
    int (*real)(const char *) = next("unlink");
    ANSWER(REMOVE, path, 0, 0, real(path));
}

/* Whether one of the files that this process has open is the one of a path. */
static int is_open(const char *path) {
    struct stat named, opened;
    if (lstat(path, &named) != 0) return 0;
    for (int handle = 0; handle < 256; handle++)
        if (fstat(handle, &opened) == 0 && opened.st_dev == named.st_dev && opened.st_ino == named.st_ino) return 1;
    return 0;
}

static int renamed(const char *from, const char *to) {
    int (*real)(const char *, const char *) = next("rename");
    if (getenv("CLOSED_RENAMES") && (is_open(from) || is_open(to))) {
        errno = EBUSY;
        return -1;
    }
    return real(from, to);
}

int rename(const char *from, const char *to) {
    ANSWER(RENAME, from, 0, 0, renamed(from, to));
}

int flock(int handle, int how) {
    int (*real)(int, int) = next("flock");
    ANSWER(LOCK, NULL, handle, how, real(handle, how));
}

int fchmod(int handle, unsigned mode) {
    int (*real)(int, unsigned) = next("fchmod");
    ANSWER(MODE, NULL, handle, mode, real(handle, mode));
}

int fchown(int handle, unsigned owner, unsigned group) {
    int (*real)(int, unsigned, unsigned) = next("fchown");
    ANSWER(GROUP, NULL, handle, group, real(handle, owner, group));
}

/* It is counted and not written down: what links has other ways to go on, which its own tests try. */
int link(const char *from, const char *to) {
    int (*real)(const char *, const char *) = next("link");
    if (is_refused(LINK)) {
        errno = refused.how;
        return -1;
    }
    return real(from, to);
}

char *realpath(const char *path, char *found) {
    char *(*real)(const char *, char *) = next("realpath");
    if (is_refused(FOLLOW)) {
        errno = refused.how;
        told(FOLLOW, path, 0, 0, -1);
        return NULL;
    }
    char *answer = real(path, found);
    told(FOLLOW, path, 0, 0, answer ? 0 : -1);
    return answer;
}

/* The answer of a call on a handle. */
static long on_handle(enum kind kind, int handle, size_t count, long (*move)(int, void *, size_t), void *bytes) {
    size_t asked = count;
    if (is_refused(kind)) {
        if (refused.how == REFUSED_NOTHING) return told(kind, NULL, handle, asked, 0);
        if (refused.how != REFUSED_SHORT) {
            errno = refused.how;
            return told(kind, NULL, handle, asked, -1);
        }
        if (count > 1) count = 1;
    }
    return told(kind, NULL, handle, asked, move(handle, bytes, count));
}

long read(int handle, void *bytes, size_t count) {
    return on_handle(READ, handle, count, next("read"), bytes);
}

long write(int handle, const void *bytes, size_t count) {
    return on_handle(WRITE, handle, count, next("write"), (void *)bytes);
}

long __write(int handle, const void *bytes, size_t count) {
    return write(handle, bytes, count);
}

static long sync_handle(int handle, void *bytes, size_t count) {
    int (*real)(int) = next("fsync");
    return real(handle);
}

int fsync(int handle) {
    return on_handle(SYNC, handle, 0, sync_handle, NULL);
}

static long close_handle(int handle, void *bytes, size_t count) {
    int (*real)(int) = next("close");
    return real(handle);
}

int close(int handle) {
    return on_handle(CLOSE, handle, 0, close_handle, NULL);
}

/* --- Memory --- */

extern void *__libc_malloc(size_t);
extern void *__libc_realloc(void *, size_t);
extern void __libc_free(void *);

/* Counts from the program's first call on, not while it is loaded. */
static int counts_memory;

static void hold(size_t before, void *block) {
    if (!counts_memory) return;
    held += malloc_usable_size(block) - before;
    if (held > most_held) most_held = held;
}

void *malloc(size_t size) {
    if (counts_memory && is_refused(MEMORY)) {
        errno = ENOMEM;
        return NULL;
    }
    void *block = __libc_malloc(size);
    if (block) hold(0, block);
    return block;
}

void *realloc(void *old, size_t size) {
    if (counts_memory && is_refused(MEMORY)) {
        errno = ENOMEM;
        return NULL;
    }
    size_t before = old ? malloc_usable_size(old) : 0;
    void *block = __libc_realloc(old, size);
    if (block) hold(before, block);
    return block;
}

void free(void *block) {
    if (block && counts_memory) held -= malloc_usable_size(block);
    __libc_free(block);
}

__attribute__((constructor)) static void begin(void) {
    const char *wish = getenv("REFUSE");
    if (wish) read_wish(wish);
    counts_memory = 1;
}

__attribute__((destructor)) static void end(void) {
    counts_memory = 0;
    refused.is_on = 0;
    const char *path = getenv("TOLD");
    if (!path) return;
    int (*open_file)(const char *, int, unsigned) = next("open");
    long (*write_file)(int, const void *, size_t) = next("write");
    char line[80];
    int length = snprintf(line, sizeof line, "memory %lu %lu\n", made[MEMORY], most_held);
    int handle = open_file(path, 01 | 0100 | 01000, 0600);
    if (write_file(handle, log_lines, log_length) < 0 || write_file(handle, line, length) < 0) abort();
}
