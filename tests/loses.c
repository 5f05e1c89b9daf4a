/* Loses some of the datagrams that a node sends: of those of 44 bytes LOST in a hundred are told to be sent, and are
   not. Loaded before the C library by tests/gateway_test.py. */
#define _GNU_SOURCE
#include <stdlib.h>
#include <sys/socket.h>
#include <sys/syscall.h>
#include <unistd.h>

enum { DATAGRAM = 44 };

ssize_t sendto(int file, const void *bytes, size_t count, int flags, const struct sockaddr *to, socklen_t length) {
    static __thread unsigned drawn = 0;
    const char *lost = getenv("LOST");
    if (!drawn)
        drawn = (unsigned)getpid();
    if (lost && count == DATAGRAM && rand_r(&drawn) % 100 < atoi(lost))
        return (ssize_t)count;
    return syscall(SYS_sendto, file, bytes, count, flags, to, length);
}
