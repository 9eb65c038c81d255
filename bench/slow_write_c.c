/* Stands before pwrite, and waits first for as many microseconds as the variable SLOW tells.

   Stands before fsync and fdatasync too, and waits first for as many as SLOW_SYNC tells: where SLOW_TURN is set one after the other, as a device does
   that takes one sync at a time, and else all at once. Until the process has called pwrite there is nothing to wait for: a start syncs what it finds. */
#define _GNU_SOURCE
#include <dlfcn.h>
#include <pthread.h>
#include <stdlib.h>
#include <sys/types.h>
#include <unistd.h>

static useconds_t wanted, wanted_of_sync;
static int in_turn;
static volatile int has_written;
static pthread_mutex_t turn = PTHREAD_MUTEX_INITIALIZER;

static useconds_t told(const char *name) {
    const char *text = getenv(name);
    return text ? (useconds_t)atol(text) : 0;
}

__attribute__((constructor)) static void read_wanted(void) {
    wanted = told("SLOW");
    wanted_of_sync = told("SLOW_SYNC");
    in_turn = getenv("SLOW_TURN") != NULL;
}

ssize_t pwrite64(int file, const void *bytes, size_t count, off_t at) {
    static ssize_t (*real)(int, const void *, size_t, off_t);
    if (!real) real = (ssize_t(*)(int, const void *, size_t, off_t))dlsym(RTLD_NEXT, "pwrite64");
    has_written = 1;
    if (wanted) usleep(wanted);
    return real(file, bytes, count, at);
}

ssize_t pwrite(int file, const void *bytes, size_t count, off_t at) { return pwrite64(file, bytes, count, at); }

static void wait_for_device(void) {
    if (!wanted_of_sync || !has_written) return;
    if (in_turn) pthread_mutex_lock(&turn);
    usleep(wanted_of_sync);
    if (in_turn) pthread_mutex_unlock(&turn);
}

int fsync(int file) {
    static int (*real)(int);
    if (!real) real = (int (*)(int))dlsym(RTLD_NEXT, "fsync");
    wait_for_device();
    return real(file);
}

int fdatasync(int file) {
    static int (*real)(int);
    if (!real) real = (int (*)(int))dlsym(RTLD_NEXT, "fdatasync");
    wait_for_device();
    return real(file);
}
