/* The least that a node's work costs: so many rounds, each of so many writes that are handed to the device, and of so many
   datagrams to its own socket.

   usage: floor FILE ROUNDS SAVES DATAGRAMS SIZE

   It prints the microseconds of all rounds. SIZE is how many bytes each write has. */
#include <arpa/inet.h>
#include <fcntl.h>
#include <stdio.h>
#include <stdlib.h>
#include <string.h>
#include <sys/socket.h>
#include <time.h>
#include <unistd.h>

static void save(int file, const char *bytes, size_t size) {
    if (write(file, bytes, size) != (ssize_t)size || fdatasync(file)) exit(1);
}

static void pass(int own, const struct sockaddr_in *address) {
    char bytes[45];
    memset(bytes, 7, sizeof bytes);
    if (sendto(own, bytes, 44, 0, (const struct sockaddr *)address, sizeof *address) != 44) exit(1);
    if (recv(own, bytes, sizeof bytes, 0) != 44) exit(1);
}

int main(int count, char **words) {
    if (count != 6) return 2;
    long rounds = atol(words[2]), saves = atol(words[3]), datagrams = atol(words[4]);
    size_t size = (size_t)atol(words[5]);
    int file = open(words[1], O_CREAT | O_TRUNC | O_WRONLY, 0644);
    int own = socket(AF_INET, SOCK_DGRAM, 0);
    struct sockaddr_in address;
    socklen_t length = sizeof address;
    memset(&address, 0, sizeof address);
    address.sin_family = AF_INET;
    address.sin_addr.s_addr = htonl(INADDR_LOOPBACK);
    char *bytes = calloc(1, size);
    if (file < 0 || own < 0 || !bytes || bind(own, (struct sockaddr *)&address, sizeof address)) return 1;
    if (getsockname(own, (struct sockaddr *)&address, &length)) return 1;
    struct timespec begun, ended;
    clock_gettime(CLOCK_MONOTONIC, &begun);
    for (long round = 0; round < rounds; round++) {
        for (long nth = 0; nth < saves || nth < datagrams; nth++) {
            if (nth < saves) save(file, bytes, size);
            if (nth < datagrams) pass(own, &address);
        }
    }
    clock_gettime(CLOCK_MONOTONIC, &ended);
    printf("%ld\n", (ended.tv_sec - begun.tv_sec) * 1000000 + (ended.tv_nsec - begun.tv_nsec) / 1000);
    return 0;
}
