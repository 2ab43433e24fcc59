/* A raw ping-pong over UDP on 127.0.0.1 between two processes. Prints the median and the mean of a round trip in nanoseconds. */
#include <arpa/inet.h>
#include <signal.h>
#include <stdio.h>
#include <stdlib.h>
#include <string.h>
#include <sys/socket.h>
#include <time.h>
#include <unistd.h>

enum { TRIPS = 20000, LENGTH = 24 };

static long times[TRIPS];

static int by_length(const void *one, const void *other) {
    long a = *(const long *)one, b = *(const long *)other;
    return (a > b) - (a < b);
}

static long now(void) {
    struct timespec at;
    clock_gettime(CLOCK_MONOTONIC, &at);
    return at.tv_sec * 1000000000L + at.tv_nsec;
}

static int bound(struct sockaddr_in *at) {
    socklen_t length = sizeof *at;
    int it = socket(AF_INET, SOCK_DGRAM, 0);
    memset(at, 0, length);
    at->sin_family = AF_INET;
    at->sin_addr.s_addr = htonl(INADDR_LOOPBACK);
    if (it < 0 || bind(it, (struct sockaddr *)at, length) || getsockname(it, (struct sockaddr *)at, &length)) {
        perror("ping");
        exit(1);
    }
    return it;
}

int main(void) {
    struct sockaddr_in here, there;
    char data[LENGTH] = {0};
    long total = 0;
    int ours = bound(&here), theirs = bound(&there);
    connect(ours, (struct sockaddr *)&there, sizeof there);
    connect(theirs, (struct sockaddr *)&here, sizeof here);
    pid_t child = fork();
    if (child == 0) {
        for (;;)
            if (recv(theirs, data, LENGTH, 0) < 0 || send(theirs, data, LENGTH, 0) < 0)
                exit(1);
    }
    for (int trip = -1000; trip < TRIPS; trip++) {
        long began = now();
        if (send(ours, data, LENGTH, 0) < 0 || recv(ours, data, LENGTH, 0) < 0)
            return 1;
        if (trip >= 0) {
            times[trip] = now() - began;
            total += times[trip];
        }
    }
    kill(child, SIGKILL);
    qsort(times, TRIPS, sizeof *times, by_length);
    printf("%ld %ld\n", times[TRIPS / 2], total / TRIPS);
    return 0;
}
