/* Times messages from their put to their yes, with one of each stream on its way, and prints the times in nanoseconds, the shortest first:

     yes lines STREAMS COUNT COMMAND..                 by a sender that this program starts, over its standard input and output
     yes doors STREAMS COUNT PORT LIFE PORT LIFE       by the doors of a sender and of a receiver that are there, the sender's first
     yes reads                                         times nothing: reads the lines of a receiver on its standard input, until they end

   At a door a put, and the question what became of it, leave together; at the other one a take waits for the message, of a process of its own. */
#include "client.h"
#include <fcntl.h>
#include <poll.h>
#include <signal.h>
#include <strings.h>
#include <sys/prctl.h>
#include <sys/time.h>
#include <sys/wait.h>
#include <unistd.h>

enum { MOST_STREAMS = 256, ROOM = 65536, LONGEST_WAIT = 10000 };

struct door {
    const char *port, *life;
};

struct connection {
    int socket;
    long messages;
    size_t filled;
    char answer[ROOM];
};

static long began[MOST_STREAMS + 1], *times;
static size_t streams, count, done;
static struct door doors[2];
/* The door that this process asks. */
static struct door *door;
static struct connection connections[MOST_STREAMS];
static struct pollfd looked_at[MOST_STREAMS];

static void has_answer(size_t stream) {
    if (done < count)
        times[done++] = now() - began[stream];
}

/* Writes all of a text that fits. */
static void hand(int to, const char *text, size_t length) {
    if (write(to, text, length) != (ssize_t)length)
        stop("write");
}

/* Starts a command, and answers the ends of its standard input and output. */
static void start(char **command, int *input, int *output) {
    int in[2], out[2];
    if (pipe2(in, O_CLOEXEC) || pipe2(out, O_CLOEXEC))
        stop("pipe");
    pid_t child = fork();
    if (child < 0)
        stop("fork");
    if (!child) {
        dup2(in[0], 0);
        dup2(out[1], 1);
        execvp(command[0], command);
        stop(command[0]);
    }
    close(in[0]);
    close(out[1]);
    *input = in[1];
    *output = out[0];
}

static void put_line(int input, size_t stream) {
    static long put;
    char line[64];
    int length = sprintf(line, "%zu %08ld\n", stream, put++);
    began[stream] = now();
    hand(input, line, length);
}

static void by_lines(char **command) {
    static char told[ROOM];
    size_t filled = 0;
    int input, output;
    start(command, &input, &output);
    for (size_t stream = 1; stream <= streams; stream++)
        put_line(input, stream);
    while (done < count) {
        ssize_t more = read(output, told + filled, ROOM - filled);
        if (more <= 0)
            stop("the sender ended");
        filled += more;
        char *line = told, *end;
        for (; (end = memchr(line, '\n', told + filled - line)); line = end + 1)
            if (end - line > 4 && !memcmp(end - 4, " yes", 4) && done < count) {
                size_t stream = strtoul(line, NULL, 10);
                has_answer(stream);
                put_line(input, stream);
            }
        filled -= line - told;
        memmove(told, line, filled);
    }
    close(input);
    while (read(output, told, ROOM) > 0)
        ;
    wait(NULL);
}

/* Reads lines, of which each is a stream and a message, and looks at both. */
static void read_lines(void) {
    static char told[ROOM];
    static long messages[MOST_STREAMS + 1];
    size_t filled = 0;
    ssize_t more;
    while ((more = read(0, told + filled, ROOM - filled)) > 0) {
        filled += more;
        char *line = told, *end;
        for (; (end = memchr(line, '\n', told + filled - line)); line = end + 1) {
            size_t stream = strtoul(line, &line, 10);
            if (stream < 1 || stream > MOST_STREAMS || end - line != 9)
                stop("a line is no message");
            messages[stream]++;
        }
        filled -= line - told;
        memmove(told, line, filled);
    }
}

static int takes(void) {
    return door == &doors[1];
}

/* Puts the next message of a stream, or takes it. */
static void ask(size_t at) {
    struct connection *it = &connections[at];
    char text[1024];
    int length;
    it->messages++;
    if (takes())
        length = sprintf(text, "POST /v1/streams/%zu/take?life=%s&by=bench&number=%ld&wait=30 HTTP/1.1\r\nHost: 127.0.0.1:%s\r\nContent-Length: 0\r\n\r\n",
                         at + 1, door->life, it->messages, door->port);
    else
        length = sprintf(text,
                         "PUT /v1/streams/%zu/messages/%ld?life=%s&by=bench HTTP/1.1\r\nHost: 127.0.0.1:%s\r\nContent-Length: 8\r\n\r\n%08ld"
                         "GET /v1/streams/%zu?wait=30 HTTP/1.1\r\nHost: 127.0.0.1:%s\r\n\r\n",
                         at + 1, it->messages, door->life, door->port, it->messages, at + 1, door->port);
    began[at + 1] = now();
    hand(it->socket, text, length);
}

/* How long the first answer that has come is, if it is there whole. */
static size_t length_of_answer(struct connection *it) {
    char *end = strstr(it->answer, "\r\n\r\n"), *length = strcasestr(it->answer, "\r\ncontent-length:");
    if (!end || !length || length > end)
        return 0;
    size_t whole = end + 4 - it->answer + strtoul(length + 17, NULL, 10);
    return it->filled >= whole ? whole : 0;
}

static void hear(size_t at) {
    struct connection *it = &connections[at];
    ssize_t more = recv(it->socket, it->answer + it->filled, ROOM - 1 - it->filled, 0);
    size_t length;
    if (more <= 0)
        stop("a door closed");
    it->answer[it->filled += more] = 0;
    while ((length = length_of_answer(it))) {
        int status = atoi(it->answer + 9);
        if (status != 200 && status != 201)
            stop("a call was refused");
        char *yes = strstr(it->answer, "\"last\":\"yes\"");
        int is_over = takes() || (yes && yes < it->answer + length);
        memmove(it->answer, it->answer + length, it->filled - length + 1);
        it->filled -= length;
        if (is_over && !takes())
            has_answer(at + 1);
        if (is_over)
            ask(at);
    }
}

/* Asks a door until all messages have their answers, which only the sender's tells. */
static void ask_door(struct door *asked) {
    struct timeval longest = {LONGEST_WAIT / 1000, 0};
    door = asked;
    for (size_t at = 0; at < streams; at++) {
        connections[at].socket = connected(atoi(door->port));
        if (setsockopt(connections[at].socket, SOL_SOCKET, SO_RCVTIMEO, &longest, sizeof longest))
            stop("a time limit");
        looked_at[at] = (struct pollfd){connections[at].socket, POLLIN, 0};
        ask(at);
    }
    while (done < count) {
        /* One connection alone is read at once: its socket has a time limit. */
        if (streams > 1 && poll(looked_at, streams, LONGEST_WAIT) < 1)
            stop("an answer does not come");
        for (size_t at = 0; at < streams; at++)
            if (streams == 1 || looked_at[at].revents)
                hear(at);
    }
}

static void by_doors(void) {
    pid_t taker = fork();
    if (taker < 0)
        stop("fork");
    if (!taker) {
        prctl(PR_SET_PDEATHSIG, SIGKILL);
        ask_door(&doors[1]);
    }
    ask_door(&doors[0]);
    kill(taker, SIGKILL);
    wait(NULL);
}

int main(int words, char **word) {
    if (words == 2 && !strcmp(word[1], "reads"))
        return read_lines(), 0;
    int is_lines = words > 4 && !strcmp(word[1], "lines"), is_doors = words == 8 && !strcmp(word[1], "doors");
    streams = words > 3 ? strtoul(word[2], NULL, 10) : 0;
    count = words > 3 ? strtoul(word[3], NULL, 10) : 0;
    if (!(is_lines || is_doors) || streams < 1 || streams > MOST_STREAMS || !(times = malloc((count + 1) * sizeof *times)))
        return fputs("usage: yes lines STREAMS COUNT COMMAND.. | yes doors STREAMS COUNT PORT LIFE PORT LIFE | yes reads\n", stderr), 2;
    signal(SIGPIPE, SIG_IGN);
    for (int at = 0; is_doors && at < 2; at++)
        doors[at] = (struct door){word[4 + 2 * at], word[5 + 2 * at]};
    if (is_doors)
        by_doors();
    else
        by_lines(word + 4);
    qsort(times, done, sizeof *times, by_length);
    for (size_t at = 0; at < done; at++)
        printf("%ld\n", times[at]);
    return 0;
}
