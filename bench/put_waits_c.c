/* Stands before recv, and writes down how long a thread that reads from a connection of the line port was away between two calls of it: from the
 * return of one that brought bytes to the next call, in which time the lines of these bytes are put. The
 * variable WAITS names the file, which has room for all of it beforehand, and LINE_PORT the port. The file's first eight bytes are how many
 * pairs of eight bytes follow: the nanoseconds of the system's monotonic clock at the return, and those until the next call. */
#define _GNU_SOURCE
#include <arpa/inet.h>
#include <dlfcn.h>
#include <fcntl.h>
#include <netinet/in.h>
#include <stdatomic.h>
#include <stdint.h>
#include <stdlib.h>
#include <string.h>
#include <sys/mman.h>
#include <sys/socket.h>
#include <sys/stat.h>
#include <time.h>
#include <unistd.h>

struct pair {
    uint64_t at, away;
};

static struct {
    _Atomic uint64_t count;
    struct pair pairs[];
} *told;
static uint64_t room;
static uint16_t line_port;

static __thread uint64_t returned;

static uint64_t now(void) {
    struct timespec time;
    clock_gettime(CLOCK_MONOTONIC, &time);
    return (uint64_t)time.tv_sec * 1000000000u + (uint64_t)time.tv_nsec;
}

__attribute__((constructor)) static void begin(void) {
    const char *name = getenv("WAITS"), *port = getenv("LINE_PORT");
    struct stat found;
    int file;
    if (!name || !port || (file = open(name, O_RDWR)) < 0) return;
    line_port = (uint16_t)atoi(port);
    if (fstat(file, &found) == 0 && found.st_size > 24) {
        void *map = mmap(NULL, (size_t)found.st_size, PROT_READ | PROT_WRITE, MAP_SHARED, file, 0);
        if (map != MAP_FAILED) {
            room = ((uint64_t)found.st_size - 8) / sizeof(struct pair);
            told = map;
        }
    }
    close(file);
}

static int brings_lines(int file) {
    struct sockaddr_storage own;
    socklen_t length = sizeof own;
    if (!told || getsockname(file, (struct sockaddr *)&own, &length) != 0) return 0;
    if (own.ss_family == AF_INET) return ntohs(((struct sockaddr_in *)&own)->sin_port) == line_port;
    if (own.ss_family == AF_INET6) return ntohs(((struct sockaddr_in6 *)&own)->sin6_port) == line_port;
    return 0;
}

static void before(void) {
    if (!returned) return;
    uint64_t at = returned, place;
    returned = 0;
    place = atomic_fetch_add(&told->count, 1);
    if (place < room) told->pairs[place] = (struct pair){at, now() - at};
}

static ssize_t after(int file, ssize_t count) {
    if (count > 0 && brings_lines(file)) returned = now();
    return count;
}

ssize_t recv(int file, void *bytes, size_t count, int flags) {
    static ssize_t (*real)(int, void *, size_t, int);
    if (!real) real = (ssize_t(*)(int, void *, size_t, int))dlsym(RTLD_NEXT, "recv");
    before();
    ssize_t got = real(file, bytes, count, flags);
    return flags & MSG_PEEK ? got : after(file, got);
}
