/* Faults of a disk and of clocks, put below a program. FAULTS names a file of eight-byte words, as the machine has
   numbers, which a test writes while the program runs:
   0 how many calls were made to files of a store, counted   1 the call from which on they fail, 0 for none
   2 how many of them fail, -1 for all                        3 the error number
   4 what fails, a sum: 1 a write, 2 a sync, 4 a cut, 8 a read, 16 a write of which half is done
   5 not 0 if what is told as failed is done all the same     6 how many faults were made
   7 how many seconds CLOCK_MONOTONIC is ahead                8 the same of CLOCK_REALTIME
   Files of a store are those whose path has ".store". Loaded before the C library by tests/disk_faults.py. */
#define _GNU_SOURCE
#include <errno.h>
#include <fcntl.h>
#include <stdio.h>
#include <stdlib.h>
#include <string.h>
#include <sys/mman.h>
#include <sys/syscall.h>
#include <time.h>
#include <unistd.h>

enum { CALLS, FROM, MANY, ERROR, WHAT, DONE, MADE, MONOTONIC, REAL, WORDS };
enum { A_WRITE = 1, A_SYNC = 2, A_CUT = 4, A_READ = 8, A_HALF = 16 };

static long none[WORDS];
static volatile long *words = none;

__attribute__((constructor)) static void begin(void) {
    const char *path = getenv("FAULTS");
    int file = path ? (int)syscall(SYS_openat, AT_FDCWD, path, O_RDWR) : -1;
    if (file < 0)
        return;
    void *place = mmap(NULL, sizeof none, PROT_READ | PROT_WRITE, MAP_SHARED, file, 0);
    syscall(SYS_close, file);
    if (place != MAP_FAILED)
        words = place;
}

static int is_store(int file) {
    char link[64], name[512];
    snprintf(link, sizeof link, "/proc/self/fd/%d", file);
    long count = syscall(SYS_readlinkat, AT_FDCWD, link, name, sizeof name - 1);
    if (count <= 0)
        return 0;
    name[count] = 0;
    return strstr(name, ".store") != NULL;
}

/* Counts a call, and returns what is to fail of it, of the kinds that it has. */
static long fails(int file, long kinds) {
    if (!is_store(file))
        return 0;
    long call = ++words[CALLS], what = words[WHAT] & kinds;
    if (!what || words[FROM] == 0 || call < words[FROM] || (words[MANY] >= 0 && call >= words[FROM] + words[MANY]))
        return 0;
    words[MADE]++;
    return what;
}

static int failed(void) {
    errno = (int)words[ERROR];
    return -1;
}

ssize_t pwrite(int file, const void *bytes, size_t count, off_t place) {
    long what = fails(file, A_WRITE | A_HALF);
    if (what & A_HALF && count > 1)
        return syscall(SYS_pwrite64, file, bytes, count / 2, place);
    if (what && words[DONE])
        syscall(SYS_pwrite64, file, bytes, count, place);
    return what & A_WRITE ? failed() : syscall(SYS_pwrite64, file, bytes, count, place);
}

ssize_t pwrite64(int file, const void *bytes, size_t count, off_t place) { return pwrite(file, bytes, count, place); }

ssize_t write(int file, const void *bytes, size_t count) {
    long what = fails(file, A_WRITE | A_HALF);
    if (what & A_HALF && count > 1)
        return syscall(SYS_write, file, bytes, count / 2);
    if (what && words[DONE])
        syscall(SYS_write, file, bytes, count);
    return what & A_WRITE ? failed() : syscall(SYS_write, file, bytes, count);
}

ssize_t pread(int file, void *bytes, size_t count, off_t place) {
    return fails(file, A_READ) ? failed() : syscall(SYS_pread64, file, bytes, count, place);
}

ssize_t pread64(int file, void *bytes, size_t count, off_t place) { return pread(file, bytes, count, place); }

static int sync_of(long call, int file) {
    int is_failed = fails(file, A_SYNC) != 0;
    if (is_failed && !words[DONE])
        return failed();
    int came = (int)syscall(call, file);
    return is_failed ? failed() : came;
}

int fsync(int file) { return sync_of(SYS_fsync, file); }

int fdatasync(int file) { return sync_of(SYS_fdatasync, file); }

int ftruncate(int file, off_t length) {
    return fails(file, A_CUT) ? failed() : (int)syscall(SYS_ftruncate, file, length);
}

int ftruncate64(int file, off_t length) { return ftruncate(file, length); }

int clock_gettime(clockid_t which, struct timespec *now) {
    int came = (int)syscall(SYS_clock_gettime, which, now);
    if (came == 0 && (which == CLOCK_MONOTONIC || which == CLOCK_BOOTTIME))
        now->tv_sec += words[MONOTONIC];
    if (came == 0 && which == CLOCK_REALTIME)
        now->tv_sec += words[REAL];
    return came;
}
