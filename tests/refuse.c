/* Counts the growths of a run, and refuses one: the call of malloc, calloc, realloc, aligned_alloc or posix_memalign
   whose number is in REFUSE, from 1. Where COUNT names a file, their number is written there, in eight bytes as the
   machine has them. Loaded before the C library by tests/growths.py. */
#include <errno.h>
#include <fcntl.h>
#include <stddef.h>
#include <stdlib.h>
#include <sys/mman.h>
#include <unistd.h>

extern void *__libc_malloc(size_t);
extern void *__libc_calloc(size_t, size_t);
extern void *__libc_realloc(void *, size_t);
extern void *__libc_memalign(size_t, size_t);

static int begun;
static long wanted;
static long here;
static volatile long *growths = &here;

/* The count lies in the file itself, so that it is there however the run ends. */
static void begin(void) {
    const char *number = getenv("REFUSE");
    const char *path = getenv("COUNT");
    begun = 1;
    wanted = number ? strtol(number, NULL, 10) : 0;
    if (path) {
        int file = open(path, O_RDWR | O_CREAT | O_TRUNC, 0600);
        if (file < 0 || ftruncate(file, sizeof(long)) != 0) abort();
        void *place = mmap(NULL, sizeof(long), PROT_READ | PROT_WRITE, MAP_SHARED, file, 0);
        if (place == MAP_FAILED) abort();
        close(file);
        growths = place;
    }
}

static int is_refused(void) {
    if (!begun) begin();
    *growths += 1;
    if (*growths == wanted) {
        errno = ENOMEM;
        return 1;
    }
    return 0;
}

void *malloc(size_t size) { return is_refused() ? NULL : __libc_malloc(size); }

void *calloc(size_t count, size_t size) { return is_refused() ? NULL : __libc_calloc(count, size); }

void *realloc(void *old, size_t size) { return is_refused() ? NULL : __libc_realloc(old, size); }

void *aligned_alloc(size_t align, size_t size) { return is_refused() ? NULL : __libc_memalign(align, size); }

int posix_memalign(void **place, size_t align, size_t size) {
    if (is_refused()) return ENOMEM;
    *place = __libc_memalign(align, size);
    return *place ? 0 : ENOMEM;
}
