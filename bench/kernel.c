/* Makes the calls of a script's one client on a folder, and prints how many it made, how many failed, and the seconds of
 * processor time that they took, user's and system's. The script is read before the clock starts.
 *
 *     kernel FOLDER < SCRIPT
 *
 * Descriptors come out as the script has them, since 3 is the first that is free here too, and paths are taken below FOLDER.
 * It reads what bench/cost.py writes: each request of one client but `fsync`, `sync` and `list`, with data as COUNT*HH. */
#define _GNU_SOURCE
#include <fcntl.h>
#include <stdio.h>
#include <stdlib.h>
#include <string.h>
#include <sys/resource.h>
#include <sys/stat.h>
#include <unistd.h>

enum { MOST = 1 << 16, BYTES = 1 << 20 };

struct call {
    char kind[8];
    char *first, *second;
    long fd, count, at;
    int flags, fill;
};

static struct call calls[MOST];
static char buffer[BYTES];

static char *below(const char *path) {
    return strdup(path[1] ? path + 1 : ".");
}

static int flags_of(char *mode, char *rest) {
    int flags = strcmp(mode, "r") == 0 ? O_RDONLY : strcmp(mode, "w") == 0 ? O_WRONLY : O_RDWR;
    if (rest && strstr(rest, "creat")) flags |= O_CREAT;
    if (rest && strstr(rest, "excl")) flags |= O_EXCL;
    if (rest && strstr(rest, "trunc")) flags |= O_TRUNC;
    if (rest && strstr(rest, "append")) flags |= O_APPEND;
    return flags;
}

/* The words behind the first, one by one; the last takes the rest of the line. */
static int read_call(char *line, struct call *c) {
    char *word = strtok(line, " \n");
    if (!word || strcmp(word, "client") == 0 || strcmp(word, "end") == 0) return 0;
    snprintf(c->kind, sizeof c->kind, "%s", word);
    char *a = strtok(NULL, " \n"), *b = strtok(NULL, " \n"), *d = strtok(NULL, "\n");
    if (a && a[0] == '/') {
        c->first = below(a);
        if (b && b[0] == '/') c->second = below(b);
        else if (b) c->flags = flags_of(b, d);
        return 1;
    }
    c->fd = a ? atol(a) : -1;
    if (strcmp(word, "write") == 0 || strcmp(word, "pwrite") == 0) {
        char *star = b ? strchr(b, '*') : NULL;
        c->count = star ? atol(b) : 0;
        c->fill = star ? (int)strtol(star + 1, NULL, 16) : 0;
    } else if (strcmp(word, "seek") == 0) {
        c->flags = strcmp(b, "set") == 0 ? SEEK_SET : strcmp(b, "cur") == 0 ? SEEK_CUR : SEEK_END;
    } else if (b) {
        c->count = atol(b);
    }
    c->at = d ? atol(d) : 0;
    return 1;
}

static long make(struct call *c) {
    struct stat found;
    if (strcmp(c->kind, "open") == 0) return open(c->first, c->flags, 0666);
    if (strcmp(c->kind, "close") == 0) return close(c->fd);
    if (strcmp(c->kind, "read") == 0) return read(c->fd, buffer, c->count);
    if (strcmp(c->kind, "pread") == 0) return pread(c->fd, buffer, c->count, c->at);
    if (strcmp(c->kind, "write") == 0) return memset(buffer, c->fill, c->count), write(c->fd, buffer, c->count);
    if (strcmp(c->kind, "pwrite") == 0) return memset(buffer, c->fill, c->count), pwrite(c->fd, buffer, c->count, c->at);
    if (strcmp(c->kind, "seek") == 0) return lseek(c->fd, c->at, c->flags);
    if (strcmp(c->kind, "trunc") == 0) return ftruncate(c->fd, c->count);
    if (strcmp(c->kind, "stat") == 0) return stat(c->first, &found);
    if (strcmp(c->kind, "mkdir") == 0) return mkdir(c->first, 0777);
    if (strcmp(c->kind, "rmdir") == 0) return rmdir(c->first);
    if (strcmp(c->kind, "unlink") == 0) return unlink(c->first);
    if (strcmp(c->kind, "rename") == 0) return rename(c->first, c->second);
    fprintf(stderr, "kernel: %s isn't known\n", c->kind);
    exit(2);
}

static double seconds(void) {
    struct rusage used;
    getrusage(RUSAGE_SELF, &used);
    return used.ru_utime.tv_sec + used.ru_stime.tv_sec + (used.ru_utime.tv_usec + used.ru_stime.tv_usec) / 1e6;
}

int main(int words, char **word) {
    static char line[4096];
    int count = 0, failed = 0;
    if (words != 2 || chdir(word[1]) != 0) return 2;
    while (count < MOST && fgets(line, sizeof line, stdin)) count += read_call(line, &calls[count]);
    double begun = seconds();
    for (int i = 0; i < count; i++) failed += make(&calls[i]) < 0;
    printf("%d %d %.6f\n", count, failed, seconds() - begun);
    return 0;
}
