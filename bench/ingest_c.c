// What a server of metric lines cannot do without, and nothing else: it reads connections, one thread each, splits their bytes into lines
// and each line into its three fields, and reads path, value and time. Nothing is kept but counts. bench/serve.py builds and runs it.
//
// Usage: ingest_c CONNECTIONS     (the port is said on standard error as carbon says its own)
#include <arpa/inet.h>
#include <pthread.h>
#include <stdint.h>
#include <stdio.h>
#include <stdlib.h>
#include <string.h>
#include <sys/socket.h>
#include <unistd.h>

enum { PIECE = 65536, MOST_LINE = 16384, MOST_PATH = 1024, MOST_CONNECTIONS = 64 };

struct counts {
    uint64_t lines, refused, sum;
};

struct connection {
    int socket;
    struct counts counts;
};

static int is_blank(char c) { return c == ' ' || (c >= '\t' && c <= '\r' && c != '\n'); }

static int is_digit(char c) { return c >= '0' && c <= '9'; }

static int is_outside(char c) { return c <= ' ' || c > '~' || strchr("/;*?[]{}(),\"'\\|", c) != NULL; }

// A field of a line, and what stands behind it.
static const char *next_field(const char *at, const char *end, const char **field) {
    while (at < end && is_blank(*at)) at++;
    *field = at;
    while (at < end && !is_blank(*at)) at++;
    return at;
}

static int is_path(const char *at, const char *end) {
    if (at == end || end - at > MOST_PATH || *at == '.' || end[-1] == '.') return 0;
    for (; at < end; at++)
        if (is_outside(*at) || (*at == '.' && at[1] == '.')) return 0;
    return 1;
}

// Thousandths, of a decimal without an exponent.
static int read_value(const char *at, const char *end, int64_t *value) {
    int is_negative = at < end && *at == '-', digits = 0, decimals = 0;
    int64_t number = 0;
    at += is_negative;
    for (; at < end && is_digit(*at); at++, digits++) number = number * 10 + (*at - '0');
    if (at < end && *at == '.')
        for (at++; at < end && is_digit(*at); at++, digits++)
            if (decimals < 3) number = number * 10 + (*at - '0'), decimals++;
    for (; decimals < 3; decimals++) number *= 10;
    *value = is_negative ? -number : number;
    return at == end && digits > 0 && digits < 16;
}

static int read_time(const char *at, const char *end, uint64_t *moment) {
    const char *start = at;
    for (*moment = 0; at < end && is_digit(*at); at++) *moment = *moment * 10 + (uint64_t)(*at - '0');
    return at == end && end - start > 0 && end - start < 12 && *moment >= 31536000 && *moment <= 4000000000u;
}

static void count_line(struct counts *counts, const char *at, const char *end) {
    const char *path, *value, *moment, *rest, *path_end, *value_end, *moment_end;
    int64_t thousandths;
    uint64_t seconds;
    path_end = next_field(at, end, &path);
    value_end = next_field(path_end, end, &value);
    moment_end = next_field(value_end, end, &moment);
    next_field(moment_end, end, &rest);
    if (rest < end || !is_path(path, path_end) || !read_value(value, value_end, &thousandths) || !read_time(moment, moment_end, &seconds)) {
        counts->refused++;
        return;
    }
    counts->lines++;
    counts->sum += (uint64_t)thousandths + seconds;
}

static void *serve(void *said) {
    struct connection *connection = said;
    static __thread char bytes[MOST_LINE + PIECE];
    size_t kept = 0;
    ssize_t got;
    while ((got = read(connection->socket, bytes + kept, PIECE)) > 0) {
        const char *at = bytes, *end = bytes + kept + got, *feed;
        while ((feed = memchr(at, '\n', (size_t)(end - at))) != NULL) {
            count_line(&connection->counts, at, feed);
            at = feed + 1;
        }
        kept = (size_t)(end - at);
        if (kept > MOST_LINE) kept = 0;
        memmove(bytes, at, kept);
    }
    close(connection->socket);
    return NULL;
}

static void need(int holds) {
    if (!holds) {
        perror("ingest_c");
        exit(1);
    }
}

int main(int count, char **words) {
    int number = count == 2 ? atoi(words[1]) : 0;
    if (number < 1 || number > MOST_CONNECTIONS) return 2;
    static struct connection connections[MOST_CONNECTIONS];
    pthread_t threads[MOST_CONNECTIONS];
    struct sockaddr_in address = {.sin_family = AF_INET, .sin_addr.s_addr = htonl(INADDR_LOOPBACK)};
    socklen_t length = sizeof address;
    int port = socket(AF_INET, SOCK_STREAM, 0);
    need(port >= 0 && bind(port, (struct sockaddr *)&address, length) == 0 && listen(port, 128) == 0);
    need(getsockname(port, (struct sockaddr *)&address, &length) == 0);
    fprintf(stderr, "carbon: lines on %d, HTTP on 0\n", ntohs(address.sin_port));
    for (int i = 0; i < number; i++) {
        connections[i].socket = accept(port, NULL, NULL);
        need(connections[i].socket >= 0 && pthread_create(&threads[i], NULL, serve, &connections[i]) == 0);
    }
    struct counts all = {0, 0, 0};
    for (int i = 0; i < number; i++) {
        pthread_join(threads[i], NULL);
        all.lines += connections[i].counts.lines;
        all.refused += connections[i].counts.refused;
        all.sum += connections[i].counts.sum;
    }
    printf("lines %llu refused %llu sum %llu\n", (unsigned long long)all.lines, (unsigned long long)all.refused, (unsigned long long)all.sum);
    return 0;
}
