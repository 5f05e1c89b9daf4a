/* Records in the file RECORDS, in their order, what a program does to the files of a store and what it says on sockets.
   A record is what was done, to which file, two zeros, how many bytes follow (4), a place in the file (8), and the
   bytes; numbers are as the machine has them. What was done: W a write, T a cut to the place, S a sync, D a sync of a
   folder, N a new name, which is the place, U a removal, A bytes that are said. A file is its place in ENDS from 1; a
   connected socket is 100, any other 101. With UNSYNCED=N each N-th sync of a file of the store is told as done, and is
   neither done nor recorded. Loaded before the C library by tests/power_cuts.py. */
#define _GNU_SOURCE
#include <errno.h>
#include <fcntl.h>
#include <pthread.h>
#include <stdint.h>
#include <stdio.h>
#include <stdlib.h>
#include <string.h>
#include <sys/socket.h>
#include <sys/stat.h>
#include <sys/syscall.h>
#include <sys/uio.h>
#include <unistd.h>

enum { FOLDER = 99, CONNECTED = 100, ANY = 101, MOST_SAID = 400, HIGH = 500 };

static const char *const ENDS[] = {"", "-wal", "-tree", "-tree-new", "-sum", "-sum-new", "-journal"};
static const char STORE[] = ".store";
static int records = -1;
static long unsynced, syncs;
static pthread_mutex_t lock = PTHREAD_MUTEX_INITIALIZER;

__attribute__((constructor)) static void begin(void) {
    const char *path = getenv("RECORDS"), *number = getenv("UNSYNCED");
    unsynced = number ? atol(number) : 0;
    if (!path)
        return;
    int file = (int)syscall(SYS_openat, AT_FDCWD, path, O_CREAT | O_WRONLY | O_APPEND | O_CLOEXEC, 0600);
    /* at a high place, so that the program's own places are as ever */
    records = fcntl(file, F_DUPFD_CLOEXEC, HIGH);
    if (records < 0)
        records = file;
    else
        syscall(SYS_close, file);
}

static void put(char done, int file, uint32_t count, uint64_t place, const void *bytes) {
    unsigned char head[16] = {(unsigned char)done, (unsigned char)file};
    memcpy(head + 4, &count, 4);
    memcpy(head + 8, &place, 8);
    struct iovec parts[2] = {{head, sizeof head}, {(void *)bytes, bytes ? count : 0}};
    syscall(SYS_writev, records, parts, 2);
}

static int by_name(const char *name) {
    size_t length = strlen(name);
    for (size_t place = 0; place < sizeof ENDS / sizeof *ENDS; place++) {
        size_t count = strlen(STORE) + strlen(ENDS[place]);
        const char *end = name + length - count;
        if (length > count && !strncmp(end, STORE, strlen(STORE)) && !strcmp(end + strlen(STORE), ENDS[place]))
            return (int)place + 1;
    }
    return 0;
}

static int kind_of(int file) {
    char link[64], name[512];
    if (records < 0 || file == records)
        return 0;
    snprintf(link, sizeof link, "/proc/self/fd/%d", file);
    long count = syscall(SYS_readlinkat, AT_FDCWD, link, name, sizeof name - 1);
    if (count <= 0)
        return 0;
    name[count] = 0;
    if (!strncmp(name, "socket:", 7))
        return CONNECTED;
    struct stat found;
    if (by_name(name))
        return by_name(name);
    return !fstat(file, &found) && S_ISDIR(found.st_mode) ? FOLDER : 0;
}

static int is_store(int kind) { return kind > 0 && kind < FOLDER; }

/* Does a call and records it, with nothing of another thread between them. */
#define RECORDED(call, is_done, ...)                                                                                   \
    pthread_mutex_lock(&lock);                                                                                         \
    long came = (call);                                                                                                \
    int fault = errno;                                                                                                 \
    if (is_done)                                                                                                       \
        put(__VA_ARGS__);                                                                                              \
    pthread_mutex_unlock(&lock);                                                                                       \
    errno = fault;                                                                                                     \
    return came

ssize_t pwrite(int file, const void *bytes, size_t count, off_t place) {
    int kind = kind_of(file);
    RECORDED(syscall(SYS_pwrite64, file, bytes, count, place), is_store(kind) && came > 0, 'W', kind, (uint32_t)came,
             (uint64_t)place, bytes);
}

ssize_t pwrite64(int file, const void *bytes, size_t count, off_t place) { return pwrite(file, bytes, count, place); }

int ftruncate(int file, off_t length) {
    int kind = kind_of(file);
    RECORDED(syscall(SYS_ftruncate, file, length), is_store(kind) && !came, 'T', kind, 0, (uint64_t)length, NULL);
}

int ftruncate64(int file, off_t length) { return ftruncate(file, length); }

static int sync_of(long call, int file) {
    int kind = kind_of(file);
    if (is_store(kind) && unsynced && ++syncs % unsynced == 0)
        return 0;
    RECORDED(syscall(call, file), (is_store(kind) || kind == FOLDER) && !came, kind == FOLDER ? 'D' : 'S', kind, 0, 0,
             NULL);
}

int fsync(int file) { return sync_of(SYS_fsync, file); }

int fdatasync(int file) { return sync_of(SYS_fdatasync, file); }

int rename(const char *from, const char *to) {
    RECORDED(syscall(SYS_renameat2, AT_FDCWD, from, AT_FDCWD, to, 0), records >= 0 && !came && by_name(from), 'N',
             by_name(from), 0, (uint64_t)by_name(to), NULL);
}

int unlink(const char *path) {
    RECORDED(syscall(SYS_unlinkat, AT_FDCWD, path, 0), records >= 0 && !came && by_name(path), 'U', by_name(path), 0, 0,
             NULL);
}

/* What is said is recorded before it is said, because the machine may lose its power between the two. */
static void note_said(int kind, const void *bytes, size_t count) {
    pthread_mutex_lock(&lock);
    put('A', kind, count > MOST_SAID ? MOST_SAID : (uint32_t)count, 0, bytes);
    pthread_mutex_unlock(&lock);
}

ssize_t write(int file, const void *bytes, size_t count) {
    int kind = kind_of(file);
    if (kind == CONNECTED) {
        note_said(kind, bytes, count);
        return syscall(SYS_write, file, bytes, count);
    }
    RECORDED(syscall(SYS_write, file, bytes, count), is_store(kind) && came > 0, 'W', kind, (uint32_t)came, UINT64_MAX,
             bytes);
}

ssize_t send(int file, const void *bytes, size_t count, int flags) {
    if (records >= 0)
        note_said(CONNECTED, bytes, count);
    return syscall(SYS_sendto, file, bytes, count, flags, NULL, 0);
}

ssize_t sendto(int file, const void *bytes, size_t count, int flags, const struct sockaddr *to, socklen_t length) {
    if (records >= 0)
        note_said(ANY, bytes, count);
    return syscall(SYS_sendto, file, bytes, count, flags, to, length);
}
