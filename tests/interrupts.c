/* Interrupts every other read of the standard input and of files: the call answers EINTR and reads nothing, as where a
   signal comes. With the first of them it makes the file that INTERRUPTED names, so that one can see that it was
   loaded. Loaded before the C library by tests/interrupts.py. */
#define _GNU_SOURCE
#include <errno.h>
#include <fcntl.h>
#include <stdlib.h>
#include <sys/syscall.h>
#include <unistd.h>

static void tell(void) {
    const char *path = getenv("INTERRUPTED");
    if (path)
        syscall(SYS_close, syscall(SYS_open, path, O_CREAT | O_WRONLY, 0600));
}

ssize_t read(int file, void *bytes, size_t most) {
    static __thread long calls = 0;
    if (calls++ % 2 == 0) {
        if (calls == 1)
            tell();
        errno = EINTR;
        return -1;
    }
    return syscall(SYS_read, file, bytes, most);
}
