// The calls of the system that a drain makes in carbon, and nothing else: for each of so many metrics a file of three archives
// (60s:1d,5m:30d,1h:5y) gets 100 points, 20 buckets and one bucket. bench/drains.py builds and runs it.
//
// Usage: drains_c METRICS new|there     (in the folder of the drain)
#include <fcntl.h>
#include <stdio.h>
#include <stdlib.h>
#include <string.h>
#include <sys/stat.h>
#include <unistd.h>

static unsigned class_of(const char *path) {
    unsigned hash = 2166136261u;
    for (; *path != 0; path++) hash = (hash ^ (unsigned char)*path) * 16777619u;
    return hash % 16;
}

static void make_folders(char *name) {
    struct stat found;
    char *last = strrchr(name, '/');
    *last = 0;
    int is_made = mkdir(name, 0777) == 0;
    if (!is_made) {
        stat(name, &found);
        for (char *at = strchr(name, '/'); at != NULL; at = strchr(at + 1, '/')) {
            *at = 0;
            if (mkdir(name, 0777) != 0) stat(name, &found);
            *at = '/';
        }
        mkdir(name, 0777);
    }
    *last = '/';
}

static void need(int holds) {
    if (!holds) {
        perror("drains_c");
        exit(1);
    }
}

static char cells[4096];

static void get(int file, size_t length, off_t at) { need(pread(file, cells, length, at) == (ssize_t)length); }

static void put(int file, size_t length, off_t at) { need(pwrite(file, cells, length, at) == (ssize_t)length); }

static void drain(int number, int is_new) {
    char path[64], name[96];
    snprintf(path, sizeof path, "servers.web%04d.load", number);
    snprintf(name, sizeof name, "data/%02u/servers/web%04d/load.ring", class_of(path), number);
    if (is_new) make_folders(name);
    int file = open(name, O_RDWR | O_CLOEXEC | O_NOCTTY | (is_new ? O_CREAT | O_TRUNC : 0), 0666);
    need(file >= 0);
    if (is_new) {
        need(ftruncate(file, 1077652) == 0);
    } else {
        get(file, 20, 52);
        get(file, 60, 28792);
        get(file, 2040, 52);
        get(file, 20, 28852);
        get(file, 140, 201512);
        get(file, 580, 28852);
        get(file, 20, 201652);
    }
    put(file, 2000, 52);
    put(file, 400, 28852);
    put(file, 20, 201652);
    if (is_new) put(file, 52, 0);
    close(file);
}

int main(int count, char **words) {
    if (count != 3) return 2;
    memset(cells, 1, sizeof cells);
    int is_new = strcmp(words[2], "new") == 0;
    for (int number = 0; number < atoi(words[1]); number++) drain(number, is_new);
    return 0;
}
