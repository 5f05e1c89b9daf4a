/* Counts the calls by which a program hands a file to the device, and writes their number to the file that SYNCS names.
   Loaded before the C library by tests/bench.py. */
#define _GNU_SOURCE
#include <stdio.h>
#include <stdlib.h>
#include <sys/syscall.h>
#include <unistd.h>

static long count = 0;

int fsync(int file) {
    count++;
    return (int)syscall(SYS_fsync, file);
}

int fdatasync(int file) {
    count++;
    return (int)syscall(SYS_fdatasync, file);
}

__attribute__((destructor)) static void tell(void) {
    const char *path = getenv("SYNCS");
    FILE *file = path ? fopen(path, "w") : NULL;
    if (file) {
        fprintf(file, "%ld\n", count);
        fclose(file);
    }
}

/* A program with threads ends so, and runs no destructor. */
__attribute__((noreturn)) void _exit(int status) {
    tell();
    for (;;)
        syscall(SYS_exit_group, status);
}
