/* Asks a server over HTTP/1.1 on 127.0.0.1: asks PORT CONNECTIONS < REQUESTS, where a request stands behind a line with its length.

   A connection has one request on its way, and takes the next one of all once its answer is there. Prints how many answers were 200 or 201, how many were
   others, how long all took, and the median and the 99th of 100 of one, in nanoseconds. */
#include "client.h"
#include <poll.h>
#include <strings.h>
#include <unistd.h>

enum { MOST_CONNECTIONS = 512, ROOM = 65536 };

struct request {
    const char *text;
    size_t length;
};

struct connection {
    int socket;
    long began;
    size_t filled;
    char answer[ROOM];
};

static struct connection connections[MOST_CONNECTIONS];
static struct pollfd looked_at[MOST_CONNECTIONS];

/* All of standard input. */
static char *read_all(size_t *length) {
    size_t room = 1 << 20, filled = 0;
    char *text = malloc(room);
    ssize_t count;
    while (text && (count = read(0, text + filled, room - filled)) > 0) {
        filled += count;
        if (filled == room)
            text = realloc(text, room *= 2);
    }
    if (!text)
        stop("no memory");
    *length = filled;
    return text;
}

static struct request *requests_of(char *text, size_t length, size_t *count) {
    struct request *found = NULL;
    size_t room = 0;
    *count = 0;
    for (char *at = text; at < text + length;) {
        char *behind;
        size_t its = strtoul(at, &behind, 10);
        if (*count == room && !(found = realloc(found, (room = room ? room * 2 : 1024) * sizeof *found)))
            stop("no memory");
        found[(*count)++] = (struct request){behind + 1, its};
        at = behind + 1 + its;
    }
    return found;
}

static void ask(struct connection *it, const struct request *request) {
    it->began = now();
    it->filled = 0;
    if (send(it->socket, request->text, request->length, MSG_NOSIGNAL) != (ssize_t)request->length)
        stop("send");
}

/* The status of the answer, once it is there whole; else 0. */
static int answered(struct connection *it) {
    ssize_t count = recv(it->socket, it->answer + it->filled, ROOM - 1 - it->filled, 0);
    if (count <= 0)
        stop("recv");
    it->answer[it->filled += count] = 0;
    char *end = strstr(it->answer, "\r\n\r\n"), *length = strcasestr(it->answer, "\r\ncontent-length:");
    if (!end || !length || length > end)
        return 0;
    return it->filled >= (size_t)(end + 4 - it->answer) + strtoul(length + 17, NULL, 10) ? atoi(it->answer + 9) : 0;
}

int main(int count, char **words) {
    int width = count == 3 ? atoi(words[2]) : 0;
    if (width < 1 || width > MOST_CONNECTIONS)
        return fputs("usage: asks PORT CONNECTIONS < REQUESTS\n", stderr), 2;
    size_t length, total, asked = 0, done = 0, good = 0;
    char *text = read_all(&length);
    struct request *requests = requests_of(text, length, &total);
    long *times = malloc((total + 1) * sizeof *times);
    for (int at = 0; at < width; at++) {
        connections[at].socket = connected(atoi(words[1]));
        looked_at[at] = (struct pollfd){connections[at].socket, POLLIN, 0};
    }
    long began = now();
    for (int at = 0; at < width && asked < total; at++)
        ask(&connections[at], &requests[asked++]);
    while (done < total) {
        /* One connection is waited for where its answer is read. */
        if (width > 1 && poll(looked_at, width, -1) < 0)
            stop("poll");
        for (int at = 0; at < width; at++) {
            struct connection *it = &connections[at];
            int status;
            if ((width > 1 && !looked_at[at].revents) || !(status = answered(it)))
                continue;
            times[done++] = now() - it->began;
            good += status == 200 || status == 201;
            if (asked < total)
                ask(it, &requests[asked++]);
        }
    }
    long took = now() - began;
    qsort(times, done, sizeof *times, by_length);
    printf("%zu %zu %ld %ld %ld\n", good, done - good, took, times[done / 2], times[done * 99 / 100]);
    return 0;
}
