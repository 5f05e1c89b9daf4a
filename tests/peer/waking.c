/* What it costs to wake a thread that waits for datagrams: by a datagram without bytes to its socket, and by an event
   beside the socket, for which the thread has to wait for both.

   usage: waking ROUNDS

   It prints four numbers of nanoseconds, the mean of all rounds: from a waking to the answer of the thread, by a datagram
   and by an event; and of a datagram from its send to its receipt, if the thread waits for it alone and if for both. */
#include <arpa/inet.h>
#include <poll.h>
#include <pthread.h>
#include <stdint.h>
#include <stdio.h>
#include <stdlib.h>
#include <string.h>
#include <sys/eventfd.h>
#include <sys/socket.h>
#include <sys/time.h>
#include <time.h>
#include <unistd.h>

static int own, event, answer, waits_for_both;
static struct sockaddr_in address;
static long rounds;

static void check(int is_well) {
    if (!is_well) exit(1);
}

static void told(int place) {
    uint64_t one = 1;
    check(write(place, &one, sizeof one) == sizeof one);
}

static void heard(int place) {
    uint64_t count;
    check(read(place, &count, sizeof count) == sizeof count);
}

/* Receives as a station does, which waits for ten milliseconds, and answers what came. */
static void *station(void *nothing) {
    char bytes[45];
    for (long round = 0; round < rounds;) {
        if (waits_for_both) {
            struct pollfd places[] = {{own, POLLIN, 0}, {event, POLLIN, 0}};
            if (poll(places, 2, 10) <= 0) continue;
            if (places[1].revents) heard(event);
            else check(recv(own, bytes, sizeof bytes, 0) >= 0);
        } else if (recv(own, bytes, sizeof bytes, 0) < 0) {
            continue;
        }
        told(answer);
        round++;
    }
    return nothing;
}

/* Returns the nanoseconds that each of the rounds takes. */
static long measured(int both, int by_event, size_t size) {
    static const char bytes[44];
    int other = socket(AF_INET, SOCK_DGRAM, 0);
    pthread_t thread;
    struct timespec begun, ended;
    waits_for_both = both;
    check(other >= 0 && !pthread_create(&thread, NULL, station, NULL));
    clock_gettime(CLOCK_MONOTONIC, &begun);
    for (long round = 0; round < rounds; round++) {
        if (by_event) told(event);
        else check(sendto(other, bytes, size, 0, (struct sockaddr *)&address, sizeof address) == (ssize_t)size);
        heard(answer);
    }
    clock_gettime(CLOCK_MONOTONIC, &ended);
    check(!pthread_join(thread, NULL));
    close(other);
    return ((ended.tv_sec - begun.tv_sec) * 1000000000 + ended.tv_nsec - begun.tv_nsec) / rounds;
}

int main(int count, char **words) {
    struct timeval patience = {0, 10000};
    socklen_t length = sizeof address;
    if (count != 2) return 2;
    rounds = atol(words[1]);
    own = socket(AF_INET, SOCK_DGRAM, 0), event = eventfd(0, 0), answer = eventfd(0, 0);
    memset(&address, 0, sizeof address);
    address.sin_family = AF_INET;
    address.sin_addr.s_addr = htonl(INADDR_LOOPBACK);
    check(rounds > 0 && own >= 0 && event >= 0 && answer >= 0);
    check(!bind(own, (struct sockaddr *)&address, sizeof address));
    check(!getsockname(own, (struct sockaddr *)&address, &length));
    check(!setsockopt(own, SOL_SOCKET, SO_RCVTIMEO, &patience, sizeof patience));
    measured(0, 0, 0);
    long datagram = measured(0, 0, 0), of_event = measured(1, 1, 0);
    printf("%ld %ld %ld %ld\n", datagram, of_event, measured(0, 0, 44), measured(1, 0, 44));
    return 0;
}
