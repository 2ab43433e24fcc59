/* What the programs share that ask hosts and time the answers. */
#define _GNU_SOURCE
#include <arpa/inet.h>
#include <errno.h>
#include <netinet/tcp.h>
#include <stdio.h>
#include <stdlib.h>
#include <string.h>
#include <sys/socket.h>
#include <time.h>

static void stop(const char *why) {
    fprintf(stderr, "%s: %s: %s\n", program_invocation_short_name, why, strerror(errno));
    exit(1);
}

static long now(void) {
    struct timespec it;
    clock_gettime(CLOCK_MONOTONIC, &it);
    return it.tv_sec * 1000000000L + it.tv_nsec;
}

static int by_length(const void *one, const void *other) {
    long a = *(const long *)one, b = *(const long *)other;
    return (a > b) - (a < b);
}

static int connected(int port) {
    struct sockaddr_in place = {.sin_family = AF_INET, .sin_port = htons(port), .sin_addr.s_addr = htonl(INADDR_LOOPBACK)};
    int one = 1, it = socket(AF_INET, SOCK_STREAM, 0);
    if (it < 0 || connect(it, (struct sockaddr *)&place, sizeof place) || setsockopt(it, IPPROTO_TCP, TCP_NODELAY, &one, sizeof one))
        stop("connect");
    return it;
}
